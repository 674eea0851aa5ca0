//! The sizes of document 02's eighth request: how many cabinets a district or a ring has. Every question
//! counts them anew. Also the faults that can be put into what is made of them.

use super::book::Book;
use super::command::Command;
use super::groups::Labels;
use crate::kinds::{ByKind, Kind};
use std::collections::BTreeSet;

/// The kinds that are measured in cabinets.
const IN_CABINETS: [Kind; 2] = [Kind::District, Kind::Ring];

/// What is kept for the sizes from one command to the next: nothing, but where a fault keeps a table.
#[derive(Clone, Default)]
pub struct Sizes {
    fault: Option<Missize>,
    /// A size for each cabinet number, or for each name, as the fault has it.
    table: ByKind<Vec<usize>>,
}

impl Sizes {
    pub fn none(fault: Option<Missize>) -> Sizes {
        Sizes { fault, ..Sizes::default() }
    }

    /// The name and the size of a cabinet's district or ring.
    pub fn look_up(&self, book: &Book, kind: Kind, cabinet: usize) -> [usize; 2] {
        let size = match self.fault {
            None => size(&book.groups[kind], cabinet),
            Some(fault) => fault.size(&self.table[kind], book, kind, cabinet),
        };
        [book.names[kind][cabinet], size]
    }

    /// The same after a cabinet.
    pub fn with_cabinet(&self) -> Sizes {
        let mut sizes = self.clone();
        if self.fault.is_some() {
            IN_CABINETS.into_iter().for_each(|kind| sizes.table[kind].push(1));
        }
        sizes
    }

    /// The same after a span, given the book before it and after it.
    pub fn after_span(&self, before: &Book, after: &Book) -> Sizes {
        let mut sizes = self.clone();
        if let Some(fault) = self.fault {
            for kind in IN_CABINETS {
                fault.keep(&mut sizes.table[kind], &before.names[kind], &after.names[kind]);
            }
        }
        sizes
    }
}

/// How many cabinets share the group of this one.
pub fn size(groups: &Labels, cabinet: usize) -> usize {
    groups.iter().filter(|&&group| group == groups[cabinet]).count()
}

/// How many cabinets bear each name.
fn bearers(names: &[usize]) -> Vec<usize> {
    let mut bearers = vec![0; names.len()];
    names.iter().for_each(|&name| bearers[name] += 1);
    bearers
}

/// A fault put in on purpose, to see that it is found.
#[derive(Clone, Copy, PartialEq, Eq, Debug)]
pub enum Missize {
    /// 83 tells the size of the ring.
    RingInDistrict,
    /// 84 tells the size of the district.
    DistrictInRing,
    /// 83 tells the size of the ring, 84 that of the district.
    OtherKind,
    /// The size that the group had before its last join.
    BeforeLastJoin,
    /// The size of the cabinet's group before the last span.
    BeforeLastSpan,
    /// Sizes are kept under the groups' names, and looked up under the cabinet that is asked about.
    ByItem,
    /// The size comes first, then the name.
    SizeFirst,
    /// The low byte of the size comes first.
    LowByteFirst,
    /// The high byte of the size is always 0.
    LowByteAlone,
    /// The size is told in one byte.
    OneByte,
    /// One is added to the size.
    PlusOne,
    /// Districts and rings are measured in spans.
    InSpans,
    /// Districts are measured in rings.
    InRings,
    /// No size is told.
    NoSize,
}

impl Missize {
    /// The size that is told in place of the right one.
    fn size(self, table: &[usize], book: &Book, kind: Kind, cabinet: usize) -> usize {
        let of = |kind: Kind| size(&book.groups[kind], cabinet);
        let groups = &book.groups[kind];
        let shares = |other: usize| groups[other] == groups[cabinet];
        match (self, kind) {
            (Missize::RingInDistrict | Missize::OtherKind, Kind::District) => of(Kind::Ring),
            (Missize::DistrictInRing | Missize::OtherKind, Kind::Ring) => of(Kind::District),
            (Missize::BeforeLastJoin, _) => table[book.names[kind][cabinet]],
            (Missize::BeforeLastSpan | Missize::ByItem, _) => table[cabinet],
            (Missize::PlusOne, _) => of(kind) + 1,
            (Missize::InSpans, _) => {
                let inside = book.network.spans.iter().filter(|span| shares(span.a));
                inside.filter(|span| shares(span.b)).count()
            }
            (Missize::InRings, Kind::District) => {
                let cabinets = (0..groups.len()).filter(|&other| shares(other));
                cabinets.map(|other| book.groups.ring[other]).collect::<BTreeSet<usize>>().len()
            }
            _ => of(kind),
        }
    }

    /// Brings the table up to date, given the names before a span and after it.
    fn keep(self, table: &mut [usize], before: &[usize], after: &[usize]) {
        let (old, new) = (bearers(before), bearers(after));
        for cabinet in 0..after.len() {
            let name = after[cabinet];
            match self {
                Missize::BeforeLastJoin if old[name] != new[name] => table[name] = old[name],
                Missize::BeforeLastSpan => table[cabinet] = old[before[cabinet]],
                Missize::ByItem => table[name] = new[name],
                _ => {}
            }
        }
    }

    /// Changes an answer 83 or 84; other answers are as before.
    pub fn spoil(self, command: Command, answer: &mut Vec<u8>) {
        if !matches!(command, Command::DistrictName(_) | Command::RingName(_)) {
            return;
        }
        match self {
            Missize::SizeFirst => answer[1..].rotate_left(2),
            Missize::LowByteFirst => answer.swap(3, 4),
            Missize::LowByteAlone => answer[3] = 0,
            Missize::OneByte => drop(answer.remove(3)),
            Missize::NoSize => answer.truncate(3),
            _ => {}
        }
    }
}
