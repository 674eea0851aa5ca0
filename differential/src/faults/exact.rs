//! Forecasts to the byte that are wrong on purpose. The comparison must find each of them.

mod left;
mod lengths;
mod refusals;

use crate::engine::exact::Exact;
use crate::engine::{work_needed, Forecast};
use crate::second::exact::told;
use crate::second::{Misexact, Run};

pub use lengths::OTHER_ROUTES;

/// What is wrong, and how it is made so.
pub type Wrong = (&'static str, Misexact);

/// All of them but those that only another choice of routes shows.
pub fn all() -> Vec<Wrong> {
    let at_start = [&refusals::AT_START[..], &refusals::BOUNDS].concat();
    [against_runs(), at_start, left::TABLE.to_vec(), left::NUMBERS.to_vec()].concat()
}

/// Those of them that runs of the engine must find where the second implementation has them too.
pub fn against_runs() -> Vec<Wrong> {
    [&lengths::OTHER_LENGTHS[..], &refusals::OTHER_STOPS].concat()
}

/// The right forecast, but another length where the journal is accepted.
fn of_length(run: Option<&Run>, call: Exact, length: impl FnOnce(&Run, &Exact) -> usize) -> u32 {
    let right = told(run, &call);
    let other = match run {
        Some(run) if right.number == 0 => length(run, &call) as u32,
        _ => right.length,
    };
    call.ends(Forecast { length: other, ..right })
}

/// The right table, but other things told.
fn of_told(
    run: Option<&Run>,
    mut call: Exact,
    change: impl FnOnce(Forecast, &Exact) -> Forecast,
) -> u32 {
    let right = told(run, &call);
    call.lend().ends(right);
    change(right, &call).tell(call.place, call.length)
}

/// Another forecast. The table is cleared as far as it goes, unless the start refuses the journal.
fn instead(call: Exact, told: Forecast) -> u32 {
    if !told.refused_at_start() {
        let cleared = call.work.len().min(work_needed(call.c, call.s));
        call.work[..cleared].fill(0);
    }
    told.tell(call.place, call.length)
}
