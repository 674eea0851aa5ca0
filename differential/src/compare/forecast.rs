//! The forecast of a case's journal by an engine and by the second implementation.

use super::{guarded, inner, same, words, Tally, GUARD};
use crate::cases::Case;
use crate::engine::{Engine, Forecast};
use crate::random::Random;
use crate::second::forecast::counts;
use crate::second::Second;

/// The journal of a forecast, and the two numbers that it fills, which hold anything before; each
/// between guards.
#[derive(Clone)]
struct Asked {
    journal: Vec<u8>,
    place: Vec<u32>,
    length: Vec<u32>,
}

impl Asked {
    fn new(journal: &[u8], random: &mut Random) -> Asked {
        let journal = guarded(journal, random);
        Asked { journal, place: words(1, random), length: words(1, random) }
    }

    fn forecast(&mut self, engine: &dyn Engine) -> Forecast {
        let (place, length) = (&mut self.place[GUARD], &mut self.length[GUARD]);
        let number = engine.forecast(inner(&mut self.journal), place, length);
        Forecast { number, place: *place, length: *length }
    }
}

/// What is forecast for a journal that is not too long.
#[derive(Clone, Copy)]
pub struct Forecasted {
    /// 0, or 4 or 5 where the journal is damaged.
    pub number: u32,
    /// The room for the whole of it, or for the commands before the damaged place, and whether there
    /// is a 0C among these.
    pub room: usize,
    pub has_routes: bool,
}

/// Compares engine and second implementation on the forecast of a case's journal and, where that is
/// damaged, of the bytes before the damaged place. Nothing comes of one that is too long.
pub fn compare(
    engine: &dyn Engine,
    second: &Second,
    case: &Case,
    random: &mut Random,
    tally: &mut Tally,
) -> Result<Option<Forecasted>, String> {
    let mut forecast = |journal: &[u8]| {
        let forecast = same_forecast(engine, second, Asked::new(journal, random))?;
        tally.forecast[forecast.number as usize] += 1;
        Ok::<Forecast, String>(forecast)
    };
    let whole = forecast(&case.journal)?;
    known_beforehand(case, whole)?;
    let accepted = match whole.number {
        0 => whole,
        3 => return Ok(None),
        _ => forecast(&case.journal[..whole.place as usize])?,
    };
    if accepted.number != 0 {
        return Err(format!("the forecast up to the damaged place is {accepted:?}"));
    }
    let has_routes =
        counts(&case.journal[..accepted.place as usize]).is_ok_and(|counts| counts[0x0C] > 0);
    let (number, room) = (whole.number, accepted.length as usize);
    Ok(Some(Forecasted { number, room, has_routes }))
}

fn same_forecast(engine: &dyn Engine, second: &Second, asked: Asked) -> Result<Forecast, String> {
    let mut got = asked.clone();
    let forecast = got.forecast(engine);
    let mut wanted = asked;
    let wanted_forecast = wanted.forecast(second);
    if forecast != wanted_forecast {
        return Err(format!("the forecast is {forecast:?}, second has {wanted_forecast:?}"));
    }
    same("the forecast's journal", &got.journal, &wanted.journal)?;
    same("the forecast's place", &got.place, &wanted.place)?;
    same("the forecast's length", &got.length, &wanted.length)?;
    Ok(forecast)
}

fn known_beforehand(case: &Case, forecast: Forecast) -> Result<(), String> {
    if case.forecast.is_some_and(|known| known != forecast) {
        let known = case.forecast;
        return Err(format!("second forecasts {forecast:?}, {known:?} was known beforehand"));
    }
    Ok(())
}
