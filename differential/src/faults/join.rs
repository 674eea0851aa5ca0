//! Joinings that are wrong on purpose. The comparison must find each of them.

mod left;
mod refusals;
mod results;

use crate::engine::exact::Exact;
use crate::engine::join::{Join, Seam, JOIN_WORK};
use crate::engine::{Call, Engine};
use crate::joins::memo::Memo;
use crate::second::command::Command;
use crate::second::join::{commands, lines, number, result, sewn, spelled, Both};
use crate::second::{Misjoin, Second};
use std::rc::Rc;

pub use results::OTHER_ANSWERS;

/// What is wrong, and how it is made so.
pub type Wrong = (&'static str, Misjoin);

/// All of them.
pub fn all() -> Vec<Wrong> {
    let results = [&OTHER_ANSWERS[..], &results::OTHER_RESULTS, &results::OTHER_SEAMS].concat();
    let refusals = [&refusals::ORDER[..], &refusals::RUNS, &refusals::SEAMS, &refusals::SIZES];
    [results, refusals.concat(), left::TABLE.to_vec(), left::BUFFERS.to_vec()].concat()
}

/// An engine with a wrong joining, which runs no journal twice.
pub struct Misjoined {
    pub memo: Rc<Memo>,
    pub wrong: Misjoin,
}

impl Engine for Misjoined {
    fn name(&self) -> &'static str {
        "second with a wrong joining"
    }

    fn run(&self, call: Call) -> u32 {
        Second::new().run(call)
    }

    fn forecast(&self, journal: &[u8], place: &mut u32, length: &mut u32) -> u32 {
        Second::new().forecast(journal, place, length)
    }

    fn rewrite(&self, journal: &[u8], out: &mut [u8], place: &mut u32, length: &mut u32) -> u32 {
        Second::new().rewrite(journal, out, place, length)
    }

    fn join(&self, call: Join) -> u32 {
        (self.wrong)([self.memo.judge(call.first), self.memo.judge(call.second)], call)
    }

    fn forecast_exact(&self, call: Exact) -> u32 {
        Second::new().forecast_exact(call)
    }
}

/// The right number.
fn refusal(both: Both, call: &Join) -> u32 {
    number(&lines(both, call))
}

/// The right refusals, but another result.
fn of_result(both: Both, call: Join, make: impl Fn(&Join) -> Vec<u8>) -> u32 {
    match refusal(both, &call) {
        0 => {
            let result = make(&call);
            let fits = result.len() <= call.out.len();
            call.ends(if fits { 0 } else { 19 }, if fits { &result } else { &[] })
        }
        number => call.ends(number, &[]),
    }
}

/// The right refusals, but a result with other commands of the second.
fn of_second(both: Both, call: Join, make: impl Fn(Command) -> Vec<u8>) -> u32 {
    of_result(both, call, |call| {
        let second = commands(call.second).into_iter().flat_map(&make);
        let seams = call.seams.iter().flat_map(|&seam| spelled(sewn(seam, both)));
        call.first.iter().copied().chain(second).chain(seams).collect()
    })
}

/// The right refusals, but a result with other commands for the seams.
fn of_seams(both: Both, call: Join, make: impl Fn(usize, Seam) -> Vec<u8>) -> u32 {
    of_result(both, call, |call| {
        let mut result = result(both, call);
        result.truncate(call.first.len() + call.second.len());
        result.extend(call.seams.iter().enumerate().flat_map(|(i, &seam)| make(i, seam)));
        result
    })
}

/// Another number, and the right result where that is 0, as far as the output buffer goes. The table is cleared
/// as far as it goes.
fn of_number(both: Both, call: Join, number: u32) -> u32 {
    let mut written = match number {
        0 => result(both, &call),
        _ => Vec::new(),
    };
    written.truncate(call.out.len());
    call.out[..written.len()].copy_from_slice(&written);
    *call.length = written.len() as u32;
    if number != 2 {
        let cleared = call.work.len().min(JOIN_WORK);
        call.work[..cleared].fill(0);
    }
    number
}

/// The right joining; then what it left is changed, given the number and the length before.
fn after(both: Both, mut call: Join, change: impl Fn(u32, u32, &mut Join)) -> u32 {
    let (before, number) = (*call.length, refusal(both, &call));
    of_result(both, call.lend(), |call| result(both, call));
    change(number, before, &mut call);
    number
}
