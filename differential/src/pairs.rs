//! Pairs of routes: what document 02's fifth request says of a pair, and the pairs that an engine
//! gives.
//!
//! Which pair 0C is answered with is not settled, so no pair is held against another one. A pair
//! that is read from an engine's answers must serve; then the second implementation takes it as its
//! own.

use crate::literal::{mates, Mates};
use crate::names::{decode, Answer};
use crate::second::routes::{self, Asked};
use crate::spans::Span;
use std::collections::{BTreeMap, BTreeSet};

/// Two routes, each as its spans in travelling order.
pub type Pair = [Vec<usize>; 2];

/// Is this pair what 0C may answer, from a to b over these spans, by this rule of mates? The error says
/// why it is not.
pub fn serve(mates: Mates, spans: &[Span], a: usize, b: usize, pair: &Pair) -> Result<(), String> {
    pair.iter().try_for_each(|route| is_route(spans, a, b, route))?;
    are_apart(mates, spans, pair)
}

/// In travelling order, and without a repeated cabinet.
fn is_route(spans: &[Span], a: usize, b: usize, route: &[usize]) -> Result<(), String> {
    let mut met = BTreeSet::from([a]);
    let mut here = a;
    for number in route {
        let span = spans.get(*number).ok_or(format!("span {number} is not there"))?;
        if !span.touches(here) {
            return Err(format!("span {number} does not go on from cabinet {here}"));
        }
        here = if span.a == here { span.b } else { span.a };
        if !met.insert(here) {
            return Err(format!("cabinet {here} is met twice"));
        }
    }
    if here != b {
        return Err(format!("a route ends at cabinet {here}"));
    }
    Ok(())
}

/// No span of one route is a span of the other, nor a mate of one.
fn are_apart(mates: Mates, spans: &[Span], [one, other]: &Pair) -> Result<(), String> {
    for &s in one {
        for &t in other {
            if s == t {
                return Err(format!("span {s} is in both routes"));
            }
            if mates(spans[s], spans[t]) {
                return Err(format!("the mates {s} and {t} are in the two routes"));
            }
        }
    }
    Ok(())
}

/// The pairs in an engine's answers, read one after the other.
pub struct Pairs<'a> {
    answers: &'a [u8],
    read: Vec<Pair>,
    /// What was given for two cabinets, by the numbers of cabinets and spans by then.
    given: BTreeMap<[usize; 4], Pair>,
    fault: Option<String>,
}

impl<'a> Pairs<'a> {
    pub fn of(answers: &'a [u8]) -> Pairs<'a> {
        Pairs { answers, read: Vec::new(), given: BTreeMap::new(), fault: None }
    }

    /// The pair that stands where this 0C must be answered; where none stands, or one that does not
    /// serve, some other.
    pub fn next(&mut self, asked: &Asked) -> Pair {
        let pair = self.given_for(asked).unwrap_or_else(|why| {
            let Asked { a, b, .. } = asked;
            self.fault.get_or_insert(format!("0C {a} {b} is answered by no pair: {why}"));
            routes::pair(asked.network, *a, *b).unwrap_or_default()
        });
        self.read.push(pair.clone());
        pair
    }

    /// The choice is one for the network and the two cabinets: asked again, it is the same.
    fn given_for(&mut self, asked: &Asked) -> Result<Pair, String> {
        let Asked { network, a, b, written, .. } = *asked;
        let bytes = self.answers.get(written..).unwrap_or(&[]);
        let Some((Answer::Routes(pair), _)) = decode(bytes) else {
            return Err("there are no two lists".to_string());
        };
        serve(mates(network.rule), &network.spans, a, b, &pair)?;
        let key = [network.cabinets, network.spans.len(), a, b];
        let before = self.given.entry(key).or_insert_with(|| pair.clone());
        if *before != pair {
            return Err(format!("{pair:?} is given where {before:?} was before"));
        }
        Ok(pair)
    }

    /// All pairs that were read, or what is wrong with the first that is none.
    pub fn result(self) -> Result<Vec<Pair>, String> {
        match self.fault {
            Some(fault) => Err(fault),
            None => Ok(self.read),
        }
    }
}
