//! The two routes of document 02's fifth request: those that the second implementation gives, others
//! that serve as well, and faults.

use super::book::Book;
use super::command::Command;
use super::groups::{route, route_over, Near, Network, Step};
use super::surveys::Surveys;
use crate::pairs::Pair;

/// A 0C that no line before 11 refuses.
pub struct Asked<'a> {
    pub network: &'a Network,
    pub surveys: &'a Surveys,
    pub a: usize,
    pub b: usize,
    /// The answer bytes written before it, and those left.
    pub written: usize,
    pub left: usize,
}

/// Two routes from a to b, two different cabinets, that are apart; none if the two share no ring.
///
/// It follows some route from a to b, and has two routes that are apart to each cabinet on the way.
/// Where these two meet, they are on the route that is followed.
pub fn pair(network: &Network, a: usize, b: usize) -> Option<Pair> {
    pair_over(network, a, b, &|_| true)
}

/// The same over the spans allowed: of a set of mates all or none.
fn pair_over(
    network: &Network,
    a: usize,
    b: usize,
    allowed: &dyn Fn(usize) -> bool,
) -> Option<Pair> {
    let near = Near::of(network);
    let mut two = [Vec::new(), Vec::new()];
    for step in route_over(&near, a, b, allowed)? {
        let spared = |span: usize| span != step.span && !network.rightly_mates(span, step.span);
        let round = route_over(&near, a, step.to, &|span| allowed(span) && spared(span))?;
        two = onward(a, two, step, &round);
    }
    Some(two.map(|steps| steps.iter().map(|step| step.span).collect()))
}

/// Two routes from a, apart, to the cabinet that a step leads to, given two to where it starts and a
/// route round the step and its mates. Where that last meets one of the two, this one turns into it;
/// the other takes the step.
fn onward(a: usize, two: [Vec<Step>; 2], step: Step, round: &[Step]) -> [Vec<Step>; 2] {
    let met = |cabinet: usize| two.iter().position(|steps| place(a, steps, cabinet).is_some());
    let (from, which) = (0..=round.len())
        .rev()
        .find_map(|i| met(cabinet_at(a, round, i)).map(|which| (i, which)))
        .expect("all three start at a");
    let [mut turning, mut other] = two;
    if which == 1 {
        std::mem::swap(&mut turning, &mut other);
    }
    turning.truncate(place(a, &turning, cabinet_at(a, round, from)).expect("they meet there"));
    turning.extend(&round[from..]);
    other.push(step);
    [turning, other]
}

/// The cabinet that a way from a has reached after so many steps.
fn cabinet_at(a: usize, steps: &[Step], count: usize) -> usize {
    if count == 0 {
        a
    } else {
        steps[count - 1].to
    }
}

/// After how many steps a way from a is at a cabinet; none if it does not meet it.
fn place(a: usize, steps: &[Step], cabinet: usize) -> Option<usize> {
    (0..=steps.len()).find(|&count| cabinet_at(a, steps, count) == cabinet)
}

/// Which of the pairs that serve is given.
#[derive(Clone, Copy, PartialEq, Eq, Debug, Default)]
pub enum Choice {
    /// That of `pair`.
    #[default]
    Own,
    /// Its two routes exchanged.
    Exchanged,
    /// The one from b to a, with both routes turned round.
    Turned,
    /// The greatest mate of each of its spans.
    GreatestMates,
}

/// All but the first.
pub const OTHER_CHOICES: [Choice; 3] = [Choice::Exchanged, Choice::Turned, Choice::GreatestMates];

impl Choice {
    pub fn pair(self, network: &Network, a: usize, b: usize) -> Option<Pair> {
        match self {
            Choice::Own => pair(network, a, b),
            Choice::Exchanged => pair(network, a, b).map(|[one, other]| [other, one]),
            Choice::Turned => pair(network, b, a).map(turned_round),
            Choice::GreatestMates => {
                let greatest = |route: Vec<usize>| {
                    route.into_iter().map(|span| greatest_mate(network, span)).collect()
                };
                pair(network, a, b).map(|two| two.map(greatest))
            }
        }
    }
}

fn turned_round(pair: Pair) -> Pair {
    pair.map(|route| route.into_iter().rev().collect())
}

fn greatest_mate(network: &Network, span: usize) -> usize {
    let is_mate = |&other: &usize| network.rightly_mates(span, other);
    (span + 1..network.spans.len()).rev().find(is_mate).unwrap_or(span)
}

/// A fault put in on purpose, to see that it is found.
#[derive(Clone, Copy, PartialEq, Eq, Debug)]
pub enum Misroute {
    /// A span of the first route is in the second too.
    SpanInBoth,
    /// A mate of a span of the first route is in the second.
    MateInOther,
    /// A route comes back to its first cabinet.
    Loop,
    /// A route takes its first span there, back and there again.
    ThereAndBack,
    /// The spans of each route are given from b to a.
    FromTheEnd,
    /// Two spans of a route are exchanged.
    OutOfOrder,
    /// The second route is given twice.
    SecondTwice,
    /// The second route is empty.
    OneRoute,
    /// A route lacks its last span.
    EndsEarly,
    /// The routes are those from b to a.
    OtherWay,
    /// The first count is one too great.
    CountTooGreat,
    /// The second count is one too small.
    CountTooSmall,
    /// The first count counts both lists.
    CountOfBoth,
    /// The pair depends on how much room is left.
    ByRoom,
    /// A longer pair is given where it fits.
    ThatFits,
    /// The pair depends on what was asked before.
    ByHistory,
    /// 14 is always given.
    Always14,
    /// 14 is never given.
    Never14,
    /// 14 is given across districts only.
    ByDistrict,
    /// 10 is given across districts.
    TenAcross,
    /// Equal cabinets are answered with two empty lists.
    EqualAnswered,
}

impl Misroute {
    /// The refusal of a command, given the right one.
    pub fn refusal(self, command: Command, book: &Book, right: Option<u32>) -> Option<u32> {
        let Command::Routes(a, b) = command else {
            return right;
        };
        let across = || book.groups.district[a] != book.groups.district[b];
        match (self, right) {
            (Misroute::Always14, None) => Some(14),
            (Misroute::Never14, Some(14)) => None,
            (Misroute::ByDistrict, Some(14)) if !across() => None,
            (Misroute::TenAcross, Some(14)) if across() => Some(10),
            (Misroute::EqualAnswered, Some(8)) => None,
            _ => right,
        }
    }

    /// The pair that is given in place of the right one.
    pub fn pair(self, asked: &Asked, right: Pair) -> Pair {
        let Asked { network, a, b, .. } = *asked;
        let [one, other] = right.clone();
        match self {
            Misroute::SpanInBoth => beside(asked, &one, Some).unwrap_or(right),
            Misroute::MateInOther => {
                let mate = |span| Some(greatest_mate(network, span)).filter(|mate| *mate != span);
                beside(asked, &one, mate).unwrap_or(right)
            }
            Misroute::Loop => match loop_at(asked, &right) {
                Some(round) => [[round, one].concat(), other],
                None => right,
            },
            Misroute::ThereAndBack => [[one[..1].repeat(2), one].concat(), other],
            Misroute::FromTheEnd => turned_round(right),
            Misroute::OutOfOrder => [one, swapped(other)],
            Misroute::SecondTwice => [other.clone(), other],
            Misroute::OneRoute => [one, Vec::new()],
            Misroute::EndsEarly => [one, other[..other.len() - 1].to_vec()],
            Misroute::OtherWay => pair(network, b, a).unwrap_or_default(),
            Misroute::ByRoom if asked.left % 2 == 1 => [other, one],
            Misroute::ByHistory if asked.written % 2 == 1 => [other, one],
            Misroute::ThatFits => longer(asked, &right).unwrap_or(right),
            Misroute::Never14 | Misroute::ByDistrict if one.is_empty() => {
                let way = route(network, a, b).unwrap_or_default();
                let way: Vec<usize> = way.iter().map(|step| step.span).collect();
                [way.clone(), way]
            }
            _ => right,
        }
    }

    /// Changes a count in an answer 8C, which has fewer than 256 spans in each list; other answers
    /// are as before.
    pub fn spoil(self, answer: &mut [u8]) {
        if answer[0] != 0x8C {
            return;
        }
        let other = 3 + 2 * usize::from(answer[2]) + 1;
        match self {
            Misroute::CountTooGreat => answer[2] += 1,
            Misroute::CountTooSmall => answer[other] -= 1,
            Misroute::CountOfBoth => answer[2] += answer[other],
            _ => {}
        }
    }
}

/// A longer pair than this one, that does without its first span and fits; none if there is none.
fn longer(asked: &Asked, right: &Pair) -> Option<Pair> {
    let Asked { network, a, b, left, .. } = *asked;
    let first = right[0][0];
    let spared = |span: usize| span != first && !network.rightly_mates(span, first);
    let count = |[one, other]: &Pair| one.len() + other.len();
    let other = pair_over(network, a, b, &spared)?;
    (count(&other) > count(right) && 5 + 2 * count(&other) <= left).then_some(other)
}

fn swapped(mut route: Vec<usize>) -> Vec<usize> {
    let last = route.len() - 1;
    route.swap(0, last);
    route
}

/// A first route, and another whose first span is made from that of the first route, which are apart
/// otherwise; none if there is none.
fn beside(asked: &Asked, one: &[usize], first: impl Fn(usize) -> Option<usize>) -> Option<Pair> {
    let Asked { network, a, b, .. } = *asked;
    let spans = &network.spans;
    let first = first(one[0])?;
    let there = if spans[first].a == a { spans[first].b } else { spans[first].a };
    let is_free = |span: usize| {
        !spans[span].touches(a)
            && one[1..].iter().all(|&s| s != span && !network.rightly_mates(s, span))
    };
    let rest = route_over(&Near::of(network), there, b, &is_free)?;
    let rest: Vec<usize> = rest.iter().map(|step| step.span).collect();
    Some([one.to_vec(), [vec![first], rest].concat()])
}

/// A way from a back to it over spans that are in neither route, nor mates of theirs; none if there
/// is none.
fn loop_at(asked: &Asked, right: &Pair) -> Option<Vec<usize>> {
    let Asked { network, a, .. } = *asked;
    let near = Near::of(network);
    let apart = |s: usize, t: usize| s != t && !network.rightly_mates(s, t);
    let is_free = |span: usize| right.iter().flatten().all(|&s| apart(s, span));
    near.from(a).iter().filter(|step| is_free(step.span)).find_map(|out| {
        let back = |span: usize| is_free(span) && apart(span, out.span);
        let back = route_over(&near, out.to, a, &back)?;
        Some([vec![out.span], back.iter().map(|step| step.span).collect()].concat())
    })
}
