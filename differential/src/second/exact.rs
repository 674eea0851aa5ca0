//! The forecast to the byte of document 02's eleventh request: the journal is run with ample room, and the bytes
//! of all its answers are counted.

use super::command::Capacities;
use super::join::number;
use super::routes::Asked;
use super::{Run, Second};
use crate::engine::exact::Exact;
use crate::engine::{work_needed, Forecast, LONGEST_JOURNAL, MOST_CABINETS, MOST_SPANS};

/// Each number at the start with whether its cause is there, in the order in which they are tested. There is no
/// report that could be too short.
pub fn lines(call: &Exact) -> [(u32, bool); 3] {
    let outside = |capacity: u32, most: u32| capacity == 0 || capacity > most;
    [
        (1, outside(call.c, MOST_CABINETS) || outside(call.s, MOST_SPANS)),
        (2, call.work.len() < work_needed(call.c, call.s)),
        (3, call.journal.len() > LONGEST_JOURNAL),
    ]
}

/// What is told of a run; there is none where the start refuses it.
pub fn told(run: Option<&Run>, call: &Exact) -> Forecast {
    match run {
        Some(run) if run.refusal == 0 => Forecast::accepted(call.journal, run.answers.len()),
        Some(run) => Forecast::refused(run.refusal, run.place),
        None => Forecast::refused(number(&lines(call)), 0),
    }
}

/// The forecast, given what the run comes to.
pub fn exact(run: Option<&Run>, call: Exact) -> u32 {
    let told = told(run, &call);
    call.ends(told)
}

impl Second {
    /// What the run with ample room comes to.
    pub fn ample_run(&self, call: &Exact) -> Run {
        let capacities = Capacities::new(call.c, call.s);
        let choose = &mut |asked: &Asked| self.own_pair(asked);
        self.walk(capacities, call.journal, usize::MAX, choose, &mut |_| ())
    }

    /// The forecast, where this run may have been made before; one that the start refuses has none.
    pub fn exact_by(&self, made: Option<Run>, call: Exact) -> u32 {
        let run = match number(&lines(&call)) {
            0 => Some(made.unwrap_or_else(|| self.ample_run(&call))),
            _ => None,
        };
        self.misexact.unwrap_or(exact)(run.as_ref(), call)
    }
}
