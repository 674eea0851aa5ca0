//! Other lengths.

use super::{of_length, Wrong};
use crate::engine::exact::Exact;
use crate::engine::LONGEST_JOURNAL;
use crate::kinds::Kind;
use crate::names::{decode, Answer};
use crate::pairs::Pair;
use crate::second::command::Capacities;
use crate::second::forecast::{counts, length};
use crate::second::groups::{route_over, Near};
use crate::second::routes::{Asked, Choice};
use crate::second::{Choose, Run, Second};

/// Lengths other than that of a run's answers.
pub const OTHER_LENGTHS: [Wrong; 20] = [
    ("notices not counted", |run, call| of_length(run, call, |run, _| without(run, &notices))),
    ("district notices not counted", |run, call| {
        of_length(run, call, |run, _| without(run, &|answer, _| notices_of(answer, Kind::District)))
    }),
    ("ring notices not counted", |run, call| {
        of_length(run, call, |run, _| without(run, &|answer, _| notices_of(answer, Kind::Ring)))
    }),
    ("mesh notices not counted", |run, call| {
        of_length(run, call, |run, _| without(run, &|answer, _| notices_of(answer, Kind::Mesh)))
    }),
    ("the first answer not counted", |run, call| {
        of_length(run, call, |run, _| {
            run.answers.len() - decode(&run.answers).map_or(0, |(_, length)| length)
        })
    }),
    ("the last answer not counted", |run, call| {
        of_length(run, call, |run, _| run.answers.len() - lengths(run).last().unwrap_or(&0))
    }),
    ("answers of one byte not counted", |run, call| {
        of_length(run, call, |run, _| without(run, &|_, length| usize::from(length == 1)))
    }),
    ("3 for 03 and 04", |run, call| {
        of_length(run, call, |run, _| {
            without(run, &|answer, _| 2 * usize::from(matches!(answer, Answer::Name { .. })))
        })
    }),
    ("no sole spans counted", |run, call| of_length(run, call, |run, _| without(run, &sole_spans))),
    ("no routes counted", |run, call| {
        of_length(run, call, |run, _| without(run, &|answer, _| spans_of_routes(answer, 0..2)))
    }),
    ("the first route alone counted", |run, call| {
        of_length(run, call, |run, _| without(run, &|answer, _| spans_of_routes(answer, 1..2)))
    }),
    ("both routes as long as the shortest", |run, call| {
        of_length(run, call, |_, call| by_pairs(call, &mut twice_the_shortest))
    }),
    ("the length that is forecast from the journal alone", |run, call| {
        of_length(run, call, |_, call| counts(call.journal).map_or(0, |counts| length(&counts)))
    }),
    ("a byte more", |run, call| of_length(run, call, |run, _| run.answers.len() + 1)),
    ("a byte less", |run, call| of_length(run, call, |run, _| run.answers.len().saturating_sub(1))),
    ("a length of 16 bits", |run, call| of_length(run, call, |run, _| run.answers.len() % 65_536)),
    ("at most 65,536 bytes", |run, call| {
        of_length(run, call, |run, _| run.answers.len().min(LONGEST_JOURNAL))
    }),
    ("answers counted, not their bytes", |run, call| {
        of_length(run, call, |run, _| lengths(run).len())
    }),
    ("the journal's length", |run, call| of_length(run, call, |_, call| call.journal.len())),
    ("no length", |run, call| of_length(run, call, |_, _| 0)),
];

/// Lengths of other pairs of routes that would serve. Only a journal in which these are longer or shorter shows
/// them.
pub const OTHER_ROUTES: [Wrong; 2] = [
    ("the routes found from the other end", |run, call| {
        let other = Second::with_choice(Choice::Turned);
        of_length(run, call, |_, call| by_pairs(call, &mut |asked| other.own_pair(asked)))
    }),
    ("the shortest route, and the shortest round it", |run, call| {
        of_length(run, call, |_, call| by_pairs(call, &mut shortest_first))
    }),
];

/// The answers with their lengths.
fn answers(run: &Run) -> Vec<(Answer, usize)> {
    let mut answers = Vec::new();
    let mut rest = &run.answers[..];
    while let Some((answer, length)) = decode(rest) {
        answers.push((answer, length));
        rest = &rest[length..];
    }
    answers
}

fn lengths(run: &Run) -> Vec<usize> {
    answers(run).into_iter().map(|(_, length)| length).collect()
}

/// The bytes of all answers but for so many of each, given its length.
fn without(run: &Run, left_out: &dyn Fn(&Answer, usize) -> usize) -> usize {
    answers(run).iter().map(|(answer, length)| length - left_out(answer, *length)).sum()
}

/// The bytes of an answer's notices.
fn notices(answer: &Answer, _: usize) -> usize {
    match answer {
        Answer::Span { notices, .. } => 5 * notices.len(),
        _ => 0,
    }
}

/// The bytes of its notices of one kind.
fn notices_of(answer: &Answer, kind: Kind) -> usize {
    match answer {
        Answer::Span { notices, .. } => 5 * notices.iter().filter(|one| one.kind == kind).count(),
        _ => 0,
    }
}

/// The bytes of its list of sole spans.
fn sole_spans(answer: &Answer, _: usize) -> usize {
    match answer {
        Answer::SoleSpans(spans) => 2 * spans.len(),
        _ => 0,
    }
}

/// The bytes of the spans in some of its routes.
fn spans_of_routes(answer: &Answer, which: std::ops::Range<usize>) -> usize {
    match answer {
        Answer::Routes(pair) => pair[which].iter().map(|route| 2 * route.len()).sum(),
        _ => 0,
    }
}

/// The bytes of all answers with other pairs of routes.
fn by_pairs(call: &Exact, choose: &mut Choose) -> usize {
    let capacities = Capacities::new(call.c, call.s);
    Second::new().walk(capacities, call.journal, usize::MAX, choose, &mut |_| ()).answers.len()
}

/// The spans of some shortest route over those allowed; none if there is none.
fn shortest(asked: &Asked, allowed: &dyn Fn(usize) -> bool) -> Option<Vec<usize>> {
    let steps = route_over(&Near::of(asked.network), asked.a, asked.b, allowed)?;
    Some(steps.iter().map(|step| step.span).collect())
}

fn twice_the_shortest(asked: &Asked) -> Pair {
    let spans = shortest(asked, &|_| true).unwrap_or_default();
    [spans.clone(), spans]
}

/// Where no route is apart from the shortest, it is the right pair.
fn shortest_first(asked: &Asked) -> Pair {
    let one = shortest(asked, &|_| true).unwrap_or_default();
    let apart = |s: usize, t: usize| s != t && !asked.network.rightly_mates(s, t);
    match shortest(asked, &|span| one.iter().all(|&other| apart(span, other))) {
        Some(other) => [one, other],
        None => Second::new().own_pair(asked),
    }
}
