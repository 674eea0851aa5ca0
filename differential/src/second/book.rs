//! The naming book of document 01.

use super::groups::{groups, Labels, Network, NONE};
use super::mates::{Misduct, Rule};
use crate::kinds::{ByKind, Kind, KINDS};
use crate::spans::Span;

/// A fault put in on purpose for one kind of group, to see that it is found.
#[derive(Clone, Copy, PartialEq, Eq, Debug)]
pub enum Fault {
    /// Among groups of one size the greatest name wins.
    GreatestName(Kind),
    /// The smallest group gives the name.
    SmallestGroup(Kind),
    /// No notices are sent.
    NoNotices(Kind),
    /// Each notice is sent ten times.
    TenNotices(Kind),
}

/// The network, a name for each of its items, and the groups of the network as it is.
#[derive(Clone)]
pub struct Book {
    pub network: Network,
    pub names: ByKind<Vec<usize>>,
    pub groups: ByKind<Labels>,
    fault: Option<Fault>,
}

impl Book {
    pub fn empty(rule: Rule, fault: Option<Fault>, misduct: Option<Misduct>) -> Book {
        Book {
            network: Network { rule, fault: misduct, ..Network::default() },
            names: ByKind::default(),
            groups: ByKind::default(),
            fault,
        }
    }

    /// Command 01 adds the next cabinet; both its names are its number.
    pub fn with_cabinet(&self) -> Book {
        let mut book = self.clone();
        let number = book.network.cabinets;
        book.network.cabinets += 1;
        book.names.district.push(number);
        book.names.ring.push(number);
        book.groups = groups(&book.network);
        book
    }

    /// Adds the next span, its mesh name at first its number; then each kind is named anew. The
    /// groups without the span are those before it: its mates stay in.
    pub fn with_span(&self, span: Span) -> Book {
        let mut book = self.clone();
        let number = book.network.spans.len();
        book.network.spans.push(span);
        book.names.mesh.push(number);
        book.groups = groups(&book.network);
        let (mut without, mut with) = (self.groups.clone(), book.groups.clone());
        without.mesh.push(number);
        book.network.spoil(&mut without, &mut with);
        for kind in KINDS {
            let wins = book.contest(kind);
            rename(&without[kind], &with[kind], &mut book.names[kind], wins);
        }
        book
    }

    /// How often a notice of this kind is sent.
    pub fn sendings(&self, kind: Kind) -> usize {
        match self.fault {
            Some(Fault::NoNotices(of)) if of == kind => 0,
            Some(Fault::TenNotices(of)) if of == kind => 10,
            _ => 1,
        }
    }

    /// When one candidate wins over another: the largest group; among equals, the least name.
    fn contest(&self, kind: Kind) -> fn(Candidate, Candidate) -> bool {
        match self.fault {
            Some(Fault::GreatestName(of)) if of == kind => |one, other| {
                one.size > other.size || (one.size == other.size && one.name > other.name)
            },
            Some(Fault::SmallestGroup(of)) if of == kind => |one, other| one.size < other.size,
            _ => |one, other| {
                one.size > other.size || (one.size == other.size && one.name < other.name)
            },
        }
    }
}

/// A group taken without the span, as a candidate for the name.
#[derive(Clone, Copy)]
struct Candidate {
    group: usize,
    size: usize,
    name: usize,
}

/// Wherever one group taken with the span holds several taken without it, each item of that one
/// group gets the name of the largest of the several; among equals, the least name. All other
/// names stay.
fn rename(
    without: &Labels,
    with: &Labels,
    names: &mut [usize],
    wins: fn(Candidate, Candidate) -> bool,
) {
    let sizes = sizes(without);
    let mut best: Vec<Option<Candidate>> = vec![None; names.len()];
    let mut several = vec![false; names.len()];
    for item in (0..names.len()).filter(|&item| without[item] != NONE) {
        let group = without[item];
        let other = Candidate { group, size: sizes[group], name: names[item] };
        let so_far = best[with[item]].get_or_insert(other);
        several[with[item]] |= so_far.group != group;
        if wins(other, *so_far) {
            *so_far = other;
        }
    }
    for item in 0..names.len() {
        if let (Some(winner), true) = (best[with[item]], several[with[item]]) {
            names[item] = winner.name;
        }
    }
}

/// The number of items under each label.
pub fn sizes(labels: &Labels) -> Vec<usize> {
    let mut sizes = vec![0; labels.len()];
    for &label in labels.iter().filter(|&&label| label != NONE) {
        sizes[label] += 1;
    }
    sizes
}
