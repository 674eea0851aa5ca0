//! What is left in the table, in the place and in the length.

use super::Wrong;
use crate::engine::exact::Exact;
use crate::engine::{work_needed, Forecast};
use crate::second::exact::told;
use crate::second::Run;

/// The working table.
pub const TABLE: [Wrong; 11] = [
    ("the table left as it was", |run, call| uncleared(run, call, |_| true)),
    ("the table left where the journal is accepted", |run, call| {
        uncleared(run, call, |number| number == 0)
    }),
    ("the table left where the journal is stopped", |run, call| {
        uncleared(run, call, |number| number > 3)
    }),
    ("the first number not cleared", |run, call| of_table(run, call, |_, work| work[0] = 1)),
    ("the last number of W not cleared", |run, call| {
        of_table(run, call, |w, work| work[w - 1] = 1)
    }),
    ("the number beyond W cleared", |run, call| {
        of_table(run, call, |w, work| work[w..].iter_mut().take(1).for_each(|number| *number = 0))
    }),
    ("the last number cleared", |run, call| {
        of_table(run, call, |_, work| work.iter_mut().last().into_iter().for_each(|last| *last = 0))
    }),
    ("all numbers cleared", |run, call| of_table(run, call, |_, work| work.fill(0))),
    ("the table cleared on 1", |run, call| cleared_on(run, call, 1)),
    ("the table cleared on 2", |run, call| cleared_on(run, call, 2)),
    ("the table cleared on 3", |run, call| cleared_on(run, call, 3)),
];

/// The place and the length.
pub const NUMBERS: [Wrong; 7] = [
    ("the place not filled where the journal is accepted", |run, call| {
        unfilled(run, call, |number| number == 0, [true, false])
    }),
    ("the place not filled where the journal is stopped", |run, call| {
        unfilled(run, call, |number| number > 3, [true, false])
    }),
    ("the place not filled at the start", |run, call| {
        unfilled(run, call, |number| (1..=3).contains(&number), [true, false])
    }),
    ("the length not filled where the journal is accepted", |run, call| {
        unfilled(run, call, |number| number == 0, [false, true])
    }),
    ("the length not filled where the journal is stopped", |run, call| {
        unfilled(run, call, |number| number > 3, [false, true])
    }),
    ("the length not filled at the start", |run, call| {
        unfilled(run, call, |number| (1..=3).contains(&number), [false, true])
    }),
    ("place and length exchanged", |run, call| {
        after(run, call, |_, _, call| std::mem::swap(call.place, call.length))
    }),
];

/// The right forecast; then what it left is changed, given what it tells and W.
fn after(
    run: Option<&Run>,
    mut call: Exact,
    change: impl FnOnce(Forecast, usize, &mut Exact),
) -> u32 {
    let right = told(run, &call);
    let w = work_needed(call.c, call.s);
    call.lend().ends(right);
    change(right, w, &mut call);
    right.number
}

/// The table is changed, given W, unless the start refuses the journal.
fn of_table(run: Option<&Run>, call: Exact, change: impl FnOnce(usize, &mut [u32])) -> u32 {
    after(run, call, |right, w, call| {
        if !right.refused_at_start() {
            change(w, call.work);
        }
    })
}

/// The table is left as it was where the number passes a test.
fn uncleared(run: Option<&Run>, call: Exact, passes: impl FnOnce(u32) -> bool) -> u32 {
    let before = call.work.to_vec();
    after(run, call, |right, _, call| {
        if passes(right.number) {
            call.work.copy_from_slice(&before);
        }
    })
}

/// The table is cleared, as far as it goes, where this number is returned.
fn cleared_on(run: Option<&Run>, call: Exact, number: u32) -> u32 {
    after(run, call, |right, w, call| {
        if right.number == number {
            let cleared = call.work.len().min(w);
            call.work[..cleared].fill(0);
        }
    })
}

/// The place, the length or both are left as they were where the number passes a test.
fn unfilled(
    run: Option<&Run>,
    call: Exact,
    passes: impl FnOnce(u32) -> bool,
    [place, length]: [bool; 2],
) -> u32 {
    let before = (*call.place, *call.length);
    after(run, call, |right, _, call| {
        let passed = passes(right.number);
        if passed && place {
            *call.place = before.0;
        }
        if passed && length {
            *call.length = before.1;
        }
    })
}
