//! Refusals of a joining that are wrong on purpose.

use super::{of_number, refusal, Wrong};
use crate::engine::join::{Join, Seam, JOIN_WORK, SEAM_BYTES};
use crate::engine::LONGEST_JOURNAL;
use crate::second::join::{is_bad, lines, number, Both, Judged};

/// The causes in another order, or another number for them.
pub const ORDER: [Wrong; 16] = [
    ("17 before 2", |both, call| before(both, call, 17, 2)),
    ("18 before 2", |both, call| before(both, call, 18, 2)),
    ("19 before 2", |both, call| before(both, call, 19, 2)),
    ("18 before 17", |both, call| before(both, call, 18, 17)),
    ("19 before 17", |both, call| before(both, call, 19, 17)),
    ("19 before 18", |both, call| before(both, call, 19, 18)),
    ("another number", |both, call| {
        let number = refusal(both, &call);
        of_number(both, call, number);
        number + 1
    }),
    ("the run's own number", |both, call| {
        let own = both.map(|judged| judged.refusal).into_iter().find(|&refusal| refusal != 0);
        instead(both, call, 17, own.unwrap_or(17))
    }),
    ("3 for a journal that is too long", |both, call| {
        let is_long = call.first.len().max(call.second.len()) > LONGEST_JOURNAL;
        instead(both, call, 17, if is_long { 3 } else { 17 })
    }),
    ("17 for the first alone, and 18 for the second", |both, call| {
        instead(both, call, 17, if both[0].refusal != 0 { 17 } else { 18 })
    }),
    ("17 for 18", |both, call| instead(both, call, 18, 17)),
    ("6 for 18", |both, call| instead(both, call, 18, 6)),
    ("13 for duct 0", |both, call| {
        let number = if call.seams.iter().any(|seam| seam.duct == 0) { 13 } else { 18 };
        instead(both, call, 18, number)
    }),
    ("16 for 19", |both, call| instead(both, call, 19, 16)),
    ("11 for 19", |both, call| instead(both, call, 19, 11)),
    ("1 for 2", |both, call| {
        let number = refusal(both, &call);
        match number {
            2 => call.ends(2, &[]) - 1,
            _ => of_number(both, call, number),
        }
    }),
];

/// What refuses the two journals.
pub const RUNS: [Wrong; 19] = [
    ("the first not run", |both, call| by_runs(both, call, both[1].refusal != 0)),
    ("the second not run", |both, call| by_runs(both, call, both[0].refusal != 0)),
    ("17 only if both are refused", |both, call| {
        by_runs(both, call, both.iter().all(|judged| judged.refusal != 0))
    }),
    ("journals read and not run", |both, call| {
        by_runs(both, call, both.iter().any(|judged| (3..=5).contains(&judged.refusal)))
    }),
    ("6 of a run let through", |both, call| letting(both, call, 6)),
    ("7 of a run let through", |both, call| letting(both, call, 7)),
    ("8 of a run let through", |both, call| letting(both, call, 8)),
    ("9 of a run let through", |both, call| letting(both, call, 9)),
    ("10 of a run let through", |both, call| letting(both, call, 10)),
    ("12 of a run let through", |both, call| letting(both, call, 12)),
    ("13 of a run let through", |both, call| letting(both, call, 13)),
    ("14 of a run let through", |both, call| letting(both, call, 14)),
    ("65,537 bytes let through", |both, call| letting(both, call, 3)),
    ("65,536 bytes refused", |both, call| {
        let is_long = call.first.len().max(call.second.len()) >= LONGEST_JOURNAL;
        also(both, call, 17, is_long)
    }),
    ("an empty journal refused", |both, call| {
        let is_empty = call.first.is_empty() || call.second.is_empty();
        also(both, call, 17, is_empty)
    }),
    ("4,096 cabinets refused", |both, call| {
        also(both, call, 17, both.iter().any(|judged| judged.cabinets > 4095))
    }),
    ("8,192 spans refused", |both, call| {
        also(both, call, 17, both.iter().any(|judged| judged.spans > 8191))
    }),
    ("17 for too much together", |both, call| {
        let too_many = exceeds(both, &call);
        also(both, call, 17, too_many)
    }),
    ("9 for too much together", |both, call| {
        let too_many = exceeds(both, &call);
        also(both, call, 9, too_many)
    }),
];

/// Which seams are bad.
pub const SEAMS: [Wrong; 15] = [
    ("duct 0 let through", |both, call| {
        by_seams(both, call, |both, seam| is_bad(both, Seam { duct: 1, ..seam }))
    }),
    ("a cabinet of the first not looked at", |both, call| {
        by_seams(both, call, |both, seam| is_bad(both, Seam { first: 0, ..seam }))
    }),
    ("a cabinet of the second not looked at", |both, call| {
        by_seams(both, call, |both, seam| is_bad(both, Seam { second: 0, ..seam }))
    }),
    ("the two networks exchanged", |both, call| {
        by_seams(both, call, |[first, second], seam| is_bad([second, first], seam))
    }),
    ("a cabinet of the first that the whole has", |both, call| {
        by_seams(both, call, |both, seam| is_bad(with_more(both, 0, both[1].cabinets), seam))
    }),
    ("a cabinet of the second that the whole has", |both, call| {
        by_seams(both, call, |both, seam| is_bad(with_more(both, 1, both[0].cabinets), seam))
    }),
    ("a cabinet behind the last of the first", |both, call| {
        by_seams(both, call, |both, seam| is_bad(with_more(both, 0, 1), seam))
    }),
    ("a cabinet behind the last of the second", |both, call| {
        by_seams(both, call, |both, seam| is_bad(with_more(both, 1, 1), seam))
    }),
    ("the last cabinet of the first refused", |both, call| {
        by_seams(both, call, |both, seam| {
            is_bad(both, Seam { first: seam.first.saturating_add(1), ..seam })
        })
    }),
    ("the last cabinet of the second refused", |both, call| {
        by_seams(both, call, |both, seam| {
            is_bad(both, Seam { second: seam.second.saturating_add(1), ..seam })
        })
    }),
    ("any cabinet within the capacity", |both, call| {
        by_seams(both, call, |both, seam| {
            is_bad(both.map(|judged| Judged { cabinets: 4096, ..judged }), seam)
        })
    }),
    ("only the first seam looked at", |both, call| of_first(both, call, 1)),
    ("only the first thousand seams looked at", |both, call| of_first(both, call, 1000)),
    ("only as many seams looked at as a journal can hold", |both, call| {
        of_first(both, call, LONGEST_JOURNAL / SEAM_BYTES)
    }),
    ("only the last seam looked at", |both, call| {
        let bad = call.seams.last().is_some_and(|&seam| is_bad(both, seam));
        with_line(both, call, 18, bad)
    }),
];

/// Which results and tables are too long or too short.
pub const SIZES: [Wrong; 13] = [
    ("a result of 65,536 bytes refused", |both, call| {
        let is_long = call.size() >= LONGEST_JOURNAL;
        also(both, call, 19, is_long)
    }),
    ("a result of 65,537 bytes accepted", |both, call| {
        let is_long = call.size() > LONGEST_JOURNAL + 1 || call.size() > call.out.len();
        with_line(both, call, 19, is_long)
    }),
    ("a result of any length accepted", |both, call| {
        let is_long = call.size() > call.out.len();
        with_line(both, call, 19, is_long)
    }),
    ("a result one byte longer than the buffer", |both, call| {
        let is_long = call.size() > LONGEST_JOURNAL || call.size() > call.out.len() + 1;
        with_line(both, call, 19, is_long)
    }),
    ("a result as long as the buffer refused", |both, call| {
        let fits = call.size() == call.out.len();
        also(both, call, 19, fits)
    }),
    ("a result longer than any buffer", |both, call| {
        let is_long = call.size() > LONGEST_JOURNAL;
        with_line(both, call, 19, is_long)
    }),
    ("seams counted with 5 bytes", |both, call| measured(both, call, 5)),
    ("seams not counted", |both, call| measured(both, call, 0)),
    ("seams counted with 8 bytes", |both, call| measured(both, call, 8)),
    ("a longer buffer than a journal refused", |both, call| {
        let is_long = call.out.len() > call.size();
        also(both, call, 19, is_long)
    }),
    ("a table of W numbers refused", |both, call| match call.work.len() {
        JOIN_WORK => call.ends(2, &[]),
        _ => {
            let number = refusal(both, &call);
            of_number(both, call, number)
        }
    }),
    ("a table one number too short", |both, call| {
        let is_short = call.work.len() < JOIN_WORK - 1;
        with_line(both, call, 2, is_short)
    }),
    ("a table for half the capacities", |both, call| {
        let is_short = call.work.len() < JOIN_WORK / 2;
        with_line(both, call, 2, is_short)
    }),
];

/// A later number for an earlier one, where both causes are there; all others in their order.
fn before(both: Both, call: Join, later: u32, earlier: u32) -> u32 {
    let right = refusal(both, &call);
    let applies = lines(both, &call).contains(&(later, true));
    of_number(both, call, if right == earlier && applies { later } else { right })
}

/// One of the causes by another test.
fn with_line(both: Both, call: Join, of: u32, applies: bool) -> u32 {
    let lines = lines(both, &call).map(|line| if line.0 == of { (of, applies) } else { line });
    let number = number(&lines);
    of_number(both, call, number)
}

/// This number besides, where the right joining accepts.
fn also(both: Both, call: Join, number: u32, applies: bool) -> u32 {
    match refusal(both, &call) {
        0 if applies => call.ends(number, &[]),
        right => of_number(both, call, right),
    }
}

/// Another number for this one.
fn instead(both: Both, call: Join, of: u32, number: u32) -> u32 {
    match refusal(both, &call) {
        right if right == of => call.ends(number, &[]),
        right => of_number(both, call, right),
    }
}

fn by_runs(both: Both, call: Join, refused: bool) -> u32 {
    with_line(both, call, 17, refused)
}

/// This refusal of a run let through.
fn letting(both: Both, call: Join, refusal: u32) -> u32 {
    let others = both.iter().any(|judged| judged.refusal != 0 && judged.refusal != refusal);
    by_runs(both, call, others)
}

fn by_seams(both: Both, call: Join, bad: fn(Both, Seam) -> bool) -> u32 {
    let any = call.seams.iter().any(|&seam| bad(both, seam));
    with_line(both, call, 18, any)
}

/// The first seams alone looked at.
fn of_first(both: Both, call: Join, count: usize) -> u32 {
    let any = call.seams.iter().take(count).any(|&seam| is_bad(both, seam));
    with_line(both, call, 18, any)
}

/// One of the networks with so many cabinets more.
fn with_more(mut both: Both, which: usize, cabinets: usize) -> Both {
    both[which].cabinets += cabinets;
    both
}

/// The size with so many bytes for each seam.
fn measured(both: Both, call: Join, bytes: usize) -> u32 {
    let size = call.first.len() + call.second.len() + bytes * call.seams.len();
    let is_long = size > LONGEST_JOURNAL || size > call.out.len();
    with_line(both, call, 19, is_long)
}

/// Are there too many cabinets or spans together, the seams counted?
fn exceeds([first, second]: Both, call: &Join) -> bool {
    first.cabinets + second.cabinets > 4096 || first.spans + second.spans + call.seams.len() > 8192
}
