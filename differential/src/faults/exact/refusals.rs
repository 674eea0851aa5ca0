//! What is refused, and how.

use super::{instead, of_told, Wrong};
use crate::engine::exact::Exact;
use crate::engine::join::JOIN_WORK;
use crate::engine::{work_needed, Forecast, LONGEST_JOURNAL, MOST_CABINETS, MOST_SPANS};
use crate::second::exact::{lines, told};
use crate::second::forecast::forecast;
use crate::second::join::number;
use crate::second::{Run, Second};

/// Other numbers and places of journals that a run accepts or stops.
pub const OTHER_STOPS: [Wrong; 13] = [
    ("11 where there are answers", |run, call| {
        of_told(run, call, |right, _| match right.length {
            0 => right,
            _ => Forecast::refused(11, 0),
        })
    }),
    ("11 past 65,536 bytes", |run, call| {
        of_told(run, call, |right, call| match right.length {
            0..=65_536 => right,
            _ => Forecast::refused(11, call.journal.len() - 1),
        })
    }),
    ("a stopped journal accepted", |run, call| {
        let bytes = run.map_or(0, |run| run.answers.len() as u32);
        of_stop(run, call, |right, _| Forecast { number: 0, length: bytes, ..right })
    }),
    ("another number", |run, call| {
        of_stop(run, call, |right, _| Forecast { number: right.number ^ 1, ..right })
    }),
    ("place 0 for a stopped journal", |run, call| {
        of_stop(run, call, |right, _| Forecast { place: 0, ..right })
    }),
    ("the journal's length as place", |run, call| {
        of_stop(run, call, |right, call| Forecast { place: call.journal.len() as u32, ..right })
    }),
    ("the place behind the refused command's byte", |run, call| {
        of_stop(run, call, |right, _| Forecast { place: right.place + 1, ..right })
    }),
    ("the place among the answers", |run, call| {
        let place = run.map_or(0, |run| run.answers.len() as u32);
        of_stop(run, call, |right, _| Forecast { place, ..right })
    }),
    ("what the journal alone is refused with", |run, call| {
        of_stop(run, call, |right, call| match forecast(call.journal) {
            Forecast { number: 0, .. } => right,
            alone => alone,
        })
    }),
    ("C ignored", |run, call| {
        let s = call.s;
        with_capacities(run, call, MOST_CABINETS, s)
    }),
    ("S ignored", |run, call| {
        let c = call.c;
        with_capacities(run, call, c, MOST_SPANS)
    }),
    ("C one too small", |run, call| {
        let (c, s) = (call.c, call.s);
        with_capacities(run, call, c - 1, s)
    }),
    ("S one too great", |run, call| {
        let (c, s) = (call.c, call.s);
        with_capacities(run, call, c, s + 1)
    }),
];

/// What is told where the start refuses, and lengths on a refusal.
pub const AT_START: [Wrong; 11] = [
    ("2 before 1", |run, call| {
        let [one, two, three] = lines(&call);
        by_lines(run, call, &[two, one, three])
    }),
    ("3 before 2", |run, call| {
        let [one, two, three] = lines(&call);
        by_lines(run, call, &[one, three, two])
    }),
    ("3 before 1", |run, call| {
        let [one, two, three] = lines(&call);
        by_lines(run, call, &[three, one, two])
    }),
    ("a place for 1", |run, call| place_for(run, call, 1)),
    ("a place for 2", |run, call| place_for(run, call, 2)),
    ("a place for 3", |run, call| place_for(run, call, 3)),
    ("a length at the start", |run, call| {
        of_told(run, call, |right, call| match right.refused_at_start() {
            true => Forecast { length: call.journal.len() as u32, ..right },
            false => right,
        })
    }),
    ("another number at the start", |run, call| {
        of_told(run, call, |right, _| match right.refused_at_start() {
            true => Forecast { number: right.number % 3 + 1, ..right },
            false => right,
        })
    }),
    ("the answers before a refusal as length", |run, call| {
        let length = run.map_or(0, |run| run.answers.len() as u32);
        of_stop(run, call, |right, _| Forecast { length, ..right })
    }),
    ("the refused command's own answer counted", |run, call| {
        let length = run.map_or(0, |run| run.answers.len() as u32 + 3);
        of_stop(run, call, |right, _| Forecast { length, ..right })
    }),
    ("the length from the journal alone on a refusal", |run, call| {
        of_stop(run, call, |right, call| Forecast {
            length: forecast(call.journal).length,
            ..right
        })
    }),
];

/// Each bound of the start one off, or not looked at.
pub const BOUNDS: [Wrong; 12] = [
    ("C not looked at", |run, call| {
        let outside = call.s == 0 || call.s > MOST_SPANS;
        without_line(run, call, (1, outside))
    }),
    ("S not looked at", |run, call| {
        let outside = call.c == 0 || call.c > MOST_CABINETS;
        without_line(run, call, (1, outside))
    }),
    ("C of 4,096 refused", |run, call| {
        let refused = lines(&call)[0].1 || call.c == MOST_CABINETS;
        without_line(run, call, (1, refused))
    }),
    ("S of 8,192 refused", |run, call| {
        let refused = lines(&call)[0].1 || call.s == MOST_SPANS;
        without_line(run, call, (1, refused))
    }),
    ("any table taken", |run, call| without_line(run, call, (2, false))),
    ("a table of W - 1 numbers taken", |run, call| {
        let short = call.work.len() + 1 < work_needed(call.c, call.s);
        without_line(run, call, (2, short))
    }),
    ("a table of W numbers refused", |run, call| {
        let short = call.work.len() <= work_needed(call.c, call.s);
        without_line(run, call, (2, short))
    }),
    ("a table of more than W numbers refused", |run, call| {
        let other = call.work.len() != work_needed(call.c, call.s);
        without_line(run, call, (2, other))
    }),
    ("the table of the greatest capacities asked for", |run, call| {
        let short = call.work.len() < JOIN_WORK;
        without_line(run, call, (2, short))
    }),
    ("six numbers more asked for, as if for a report", |run, call| {
        let short = call.work.len() < work_needed(call.c, call.s) + 6;
        without_line(run, call, (2, short))
    }),
    ("65,536 bytes refused", |run, call| {
        let long = call.journal.len() >= LONGEST_JOURNAL;
        without_line(run, call, (3, long))
    }),
    ("65,537 bytes taken", |run, call| without_line(run, call, (3, false))),
];

/// Other things told of a journal that a run stops.
fn of_stop(
    run: Option<&Run>,
    call: Exact,
    change: impl FnOnce(Forecast, &Exact) -> Forecast,
) -> u32 {
    of_told(run, call, |right, call| match right.number {
        0..=3 => right,
        _ => change(right, call),
    })
}

/// The journal's length as place where this number is returned.
fn place_for(run: Option<&Run>, call: Exact, number: u32) -> u32 {
    of_told(run, call, |right, call| match right.number == number {
        true => Forecast { place: call.journal.len() as u32, ..right },
        false => right,
    })
}

/// The run is made with other capacities.
fn with_capacities(run: Option<&Run>, mut call: Exact, c: u32, s: u32) -> u32 {
    let other = run.map(|_| Second::new().ample_run(&Exact { c, s, ..call.lend() }));
    let told = told(other.as_ref(), &call);
    call.ends(told)
}

/// The causes at the start by other lines. Where none of these refuses what the right ones do, the run is made.
fn by_lines(run: Option<&Run>, call: Exact, lines: &[(u32, bool)]) -> u32 {
    let other = match (number(lines), run) {
        (0, None) => told(Some(&Second::new().ample_run(&call)), &call),
        (0, _) => told(run, &call),
        (number, _) => Forecast::refused(number, 0),
    };
    instead(call, other)
}

/// One of the lines is another.
fn without_line(run: Option<&Run>, call: Exact, other: (u32, bool)) -> u32 {
    let lines = lines(&call).map(|line| if line.0 == other.0 { other } else { line });
    by_lines(run, call, &lines)
}
