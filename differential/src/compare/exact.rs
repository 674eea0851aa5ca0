//! The forecast to the byte of a case's journal by an engine and by the second implementation, held against runs
//! of the engine.

use super::ample::{same_outside, without_room, Ample};
use super::forecast::Forecasted;
use super::{guarded, inner, same, table, words, Lent, Tally, GUARD};
use crate::cases::Case;
use crate::engine::exact::Exact;
use crate::engine::{work_needed, Engine, Forecast};
use crate::random::Random;
use crate::second::{Run, Second};

/// The buffers of one forecast, each between guards, with random contents.
#[derive(Clone)]
struct Asked {
    journal: Vec<u8>,
    work: Vec<u32>,
    place: Vec<u32>,
    length: Vec<u32>,
}

impl Asked {
    fn new(case: &Case, random: &mut Random) -> Asked {
        Asked {
            journal: guarded(&case.journal, random),
            work: table(case.work, random),
            place: words(1, random),
            length: words(1, random),
        }
    }

    /// Makes the call with these buffers, without their guards. Gives what it tells.
    fn told(&mut self, case: &Case, forecast: impl FnOnce(Exact) -> u32) -> Forecast {
        let (place, length) = (&mut self.place[GUARD], &mut self.length[GUARD]);
        let (journal, work) = (inner(&mut self.journal), inner(&mut self.work));
        let number = forecast(Exact { c: case.c, s: case.s, journal, work, place, length });
        Forecast { number, place: self.place[GUARD], length: self.length[GUARD] }
    }
}

/// What was compared before: the forecast from the journal alone, none of a journal that is too long; the run with
/// that room; and the second implementation's run of the case, where room makes no difference to it.
type Before = (Option<Forecasted>, Ample, Option<Run>);

/// Compares engine and second implementation on the forecast to the byte, with the capacities and the working table
/// of the case, and holds it against runs.
pub fn compare(
    engine: &dyn Engine,
    second: &Second,
    case: &Case,
    (forecast, ample, made): Before,
    random: &mut Random,
    tally: &mut Tally,
) -> Result<(), String> {
    let asked = Asked::new(case, random);
    let mut got = asked.clone();
    let told = got.told(case, |call| engine.forecast_exact(call));
    let mut wanted = asked.clone();
    let wanted_told = wanted.told(case, |call| second.exact_by(ample.made.or(made), call));
    known_beforehand(case, wanted_told, &asked, &wanted)?;
    if told != wanted_told {
        return Err(format!("the forecast to the byte is {told:?}, second has {wanted_told:?}"));
    }
    same("the journal of the forecast to the byte", &got.journal, &wanted.journal)?;
    same("the table of the forecast to the byte", &got.work, &wanted.work)?;
    same("the place of the forecast to the byte", &got.place, &wanted.place)?;
    same("the length of the forecast to the byte", &got.length, &wanted.length)?;
    let held = match told.number {
        0 => at_most(told, forecast)
            .and_then(|()| to_the_byte(engine, case, told.length as usize, random, tally)),
        1..=3 => Ok(()),
        _ => stopped_alike(told, ample.stopped),
    };
    held.map_err(|fault| format!("the forecast to the byte, held against runs: {fault}"))?;
    tally.to_the_byte[told.number as usize] += 1;
    Ok(())
}

/// What is known beforehand is held against the second implementation: what it tells, and the table.
fn known_beforehand(
    case: &Case,
    told: Forecast,
    before: &Asked,
    left: &Asked,
) -> Result<(), String> {
    let Some(known) = case.exact else {
        return Ok(());
    };
    if told != known {
        return Err(format!(
            "second forecasts {told:?} to the byte, {known:?} was known beforehand"
        ));
    }
    let mut work = before.work.clone();
    if !known.refused_at_start() {
        inner(&mut work)[..work_needed(case.c, case.s)].fill(0);
    }
    if left.work != work {
        return Err("second leaves another table than was known beforehand".to_string());
    }
    Ok(())
}

/// No more than is forecast from the journal alone.
fn at_most(told: Forecast, forecast: Option<Forecasted>) -> Result<(), String> {
    let alone = forecast.map_or(0, |forecast| forecast.room);
    if told.length as usize > alone {
        return Err(format!("{told:?}, with {alone} bytes from the journal alone"));
    }
    Ok(())
}

/// The engine's run with ample room is refused with the same number at the same place.
fn stopped_alike(told: Forecast, stopped: (u32, u32)) -> Result<(), String> {
    if (told.number, told.place) != stopped {
        return Err(format!("{told:?}, with ample room it is {stopped:?}"));
    }
    Ok(())
}

/// With so many bytes of room the engine's run is accepted, and reports as many; with a byte less, where any are
/// needed, it meets 11. Table and report are as long as they must be; before the second run the table holds ones.
fn to_the_byte(
    engine: &dyn Engine,
    case: &Case,
    length: usize,
    random: &mut Random,
    tally: &mut Tally,
) -> Result<(), String> {
    let roomy = without_room(case);
    let mut before = Lent::new(&roomy, length, random);
    let run = |before: &Lent| {
        let mut got = before.clone();
        let number = engine.run(got.call(&roomy));
        same_outside(&got, before)?;
        Ok::<_, String>([number, got.report[GUARD + 3]])
    };
    let [number, reported] = run(&before)?;
    if number != 0 || reported as usize != length {
        return Err(format!("{number} in {length} bytes, with {reported} bytes of answers"));
    }
    if length > 0 {
        before.answers.remove(GUARD);
        inner(&mut before.work).fill(u32::MAX);
        let [number, _] = run(&before)?;
        if number != 11 {
            return Err(format!("{number} with a byte less than {length}"));
        }
        tally.byte_less += 1;
    }
    Ok(())
}
