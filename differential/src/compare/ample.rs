//! A run of a case's journal with exactly the room that is forecast, and the pairs of routes that the
//! engine gives in it.

use super::forecast::Forecasted;
use super::{inner, made, same, same_buffers, same_number, Lent, Tally, GUARD};
use crate::cases::{Case, Room};
use crate::engine::{Engine, MOST_CABINETS, MOST_SPANS};
use crate::pairs::{Pair, Pairs};
use crate::random::Random;
use crate::second::routes::Asked;
use crate::second::{Run, Second};

/// What the run tells: the engine's number and place, and where it was compared the bytes that all answers take,
/// the pairs that 0C was answered with, in their order, and the second implementation's run.
#[derive(Default)]
pub struct Ample {
    pub stopped: (u32, u32),
    pub needed: usize,
    pub pairs: Vec<Pair>,
    pub made: Option<Run>,
}

/// A run with exactly this room does not return 11. Where there can be pairs, or the case goes by
/// what all answers take, it is compared as a whole; else only the journal and the guards.
pub fn run(
    engine: &dyn Engine,
    second: &Second,
    case: &Case,
    forecast: Forecasted,
    random: &mut Random,
    tally: &mut Tally,
) -> Result<Ample, String> {
    let roomy = without_room(case);
    let before = Lent::new(&roomy, 0, random);
    let mut got = before.clone();
    got.answers = apart(&before.answers, forecast.room);
    let number = engine.run(got.call(&roomy));
    if number == 11 {
        return Err(format!("11 with the {} bytes of room that are forecast", forecast.room));
    }
    tally.exact[forecast.number as usize] += 1;
    let stopped = (number, got.report[GUARD + 1]);
    if !forecast.has_routes && matches!(case.answers, Room::Bytes(_)) {
        same_outside(&got, &before)?;
        return Ok(Ample { stopped, ..Ample::default() });
    }
    let mut wanted = before;
    wanted.answers = apart(&wanted.answers, forecast.room);
    let mut pairs = Pairs::of(inner(&mut got.answers));
    let choose = &mut |asked: &Asked| pairs.next(asked);
    let wanted_number = second.run_watched(wanted.call(&roomy), choose, &mut |_| ());
    let pairs = pairs.result();
    let told = |fault: String| format!("with the room that is forecast: {fault}");
    same_number(number, wanted_number).map_err(told)?;
    let pairs = pairs?;
    same_buffers(&got, &wanted).map_err(told)?;
    tally.pairs += pairs.len();
    let needed = wanted.report[GUARD + 3] as usize;
    Ok(Ample { stopped, needed, pairs, made: made(wanted_number, &wanted) })
}

/// The case with a table and a report that are long enough. A capacity outside its range becomes the
/// greatest.
pub fn without_room(case: &Case) -> Case {
    let inside = |own: u32, most: u32| if (1..=most).contains(&own) { own } else { most };
    let (c, s) = (inside(case.c, MOST_CABINETS), inside(case.s, MOST_SPANS));
    Case::with_room(&case.label, c, s, case.journal.clone(), 0)
}

/// The guards of an empty buffer, moved apart for so many bytes. These are 0, so that a great room
/// costs nothing where no answer is written.
pub fn apart(guards: &[u8], room: usize) -> Vec<u8> {
    let mut bytes = vec![0; room + 2 * GUARD];
    bytes[..GUARD].copy_from_slice(&guards[..GUARD]);
    bytes[GUARD + room..].copy_from_slice(&guards[GUARD..]);
    bytes
}

/// The journal and all guards are as before.
pub fn same_outside(got: &Lent, before: &Lent) -> Result<(), String> {
    same("journal", &got.journal, &before.journal)?;
    same_guards("answers", &got.answers, &before.answers)?;
    same_guards("report", &got.report, &before.report)?;
    same_guards("work", &got.work, &before.work)
}

fn same_guards<T: PartialEq>(buffer: &str, got: &[T], before: &[T]) -> Result<(), String> {
    if !got.starts_with(&before[..GUARD]) || !got.ends_with(&before[before.len() - GUARD..]) {
        return Err(format!("with the room that is forecast, a guard of {buffer} is touched"));
    }
    Ok(())
}
