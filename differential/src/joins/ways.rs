//! The ways to each number of a joining, and which of them came up.

use super::case::{Couple, Joining};
use crate::engine::join::{Seam, JOIN_WORK};
use crate::engine::LONGEST_JOURNAL;
use crate::second::join::{is_bad, Both};
use std::collections::BTreeMap;

/// How many seams are many.
const MANY: usize = 10;

/// How often each number was returned by each way to it.
#[derive(Clone, Default)]
pub struct Ways {
    came: BTreeMap<(u32, String), usize>,
}

/// What the order of the numbers is tested by: a number, and one behind it whose cause is there too.
const ORDER: [(u32, &str); 6] = [
    (2, "17 besides"),
    (2, "18 besides"),
    (2, "19 besides"),
    (17, "18 besides"),
    (17, "19 besides"),
    (18, "19 besides"),
];

const OTHERS: [(u32, &str); 24] = [
    (0, "no seam"),
    (0, "seams"),
    (0, "equal seams"),
    (0, "the first empty"),
    (0, "the second empty"),
    (0, "both empty"),
    (0, "an output buffer that just fits"),
    (0, "a longer output buffer"),
    (0, "65,536 bytes"),
    (0, "too many cabinets together"),
    (0, "too many spans together"),
    (0, "too many spans with the seams"),
    (0, "a table of W numbers"),
    (0, "a longer table"),
    (2, "one number too few"),
    (2, "no number"),
    (18, "a cabinet of the first"),
    (18, "a cabinet of the second"),
    (18, "duct 0"),
    (18, "only the last of many"),
    (18, "no cabinet at all"),
    (19, "more than 65,536 bytes"),
    (19, "a byte more than the output buffer"),
    (19, "no output buffer"),
];

/// The numbers by which a run can refuse a journal, when it has ample room and is not refused at the start,
/// and 3.
const REFUSALS: [u32; 11] = [3, 4, 5, 6, 7, 8, 9, 10, 12, 13, 14];

impl Ways {
    /// One joining more that returned this number.
    pub fn count(&mut self, number: u32, couple: &Couple, both: Both, joining: &Joining) {
        let facts = Facts { couple, both, joining, size: couple.size(&joining.seams) };
        let ways = match number {
            0 => facts.accepted(),
            2 => facts.short_table(),
            17 => facts.refused_run(),
            18 => facts.bad_seam(),
            _ => facts.no_room(),
        };
        for way in ways {
            *self.came.entry((number, way)).or_default() += 1;
        }
        for (later, applies) in facts.later() {
            if later > number && number != 0 && applies {
                *self.came.entry((number, format!("{later} besides"))).or_default() += 1;
            }
        }
    }

    /// The first way that did not come up.
    pub fn missing(&self) -> Option<String> {
        let named = ORDER.into_iter().chain(OTHERS).map(|(number, way)| (number, way.to_string()));
        let runs = REFUSALS.into_iter().flat_map(|by| {
            ["first", "second", "only the second"].map(|which| (17, format!("{which}, by {by}")))
        });
        let mut all = named.chain(runs).chain([(17, "both".to_string())]);
        all.find(|way| !self.came.contains_key(way)).map(|(number, way)| format!("{number}: {way}"))
    }

    /// The ways to one number, with how often each came up.
    pub fn told(&self, number: u32) -> String {
        let of = self.came.iter().filter(|((by, _), _)| *by == number);
        of.map(|((_, way), count)| format!("{way} {count}")).collect::<Vec<String>>().join(", ")
    }
}

/// A joining, and the bytes that its result takes.
struct Facts<'a> {
    couple: &'a Couple,
    both: Both,
    joining: &'a Joining,
    size: usize,
}

/// Those of these that hold.
fn holding(facts: &[(bool, &str)]) -> Vec<String> {
    facts.iter().filter(|fact| fact.0).map(|fact| fact.1.to_string()).collect()
}

impl Facts<'_> {
    fn room(&self) -> usize {
        self.joining.out.bytes(self.size)
    }

    fn accepted(&self) -> Vec<String> {
        let [first, second] = self.both;
        let seams = &self.joining.seams;
        let equal = |(i, seam): (usize, &Seam)| seams[..i].contains(seam);
        let spans = first.spans + second.spans;
        let (no_first, no_second) = (self.couple.first.is_empty(), self.couple.second.is_empty());
        holding(&[
            (seams.is_empty(), "no seam"),
            (!seams.is_empty(), "seams"),
            (seams.iter().take(100).enumerate().any(equal), "equal seams"),
            (no_first && !no_second, "the first empty"),
            (no_second && !no_first, "the second empty"),
            (no_first && no_second, "both empty"),
            (self.room() == self.size, "an output buffer that just fits"),
            (self.room() > self.size, "a longer output buffer"),
            (self.size == LONGEST_JOURNAL, "65,536 bytes"),
            (first.cabinets + second.cabinets > 4096, "too many cabinets together"),
            (spans > 8192, "too many spans together"),
            (spans <= 8192 && spans + seams.len() > 8192, "too many spans with the seams"),
            (self.joining.work == JOIN_WORK, "a table of W numbers"),
            (self.joining.work > JOIN_WORK, "a longer table"),
        ])
    }

    fn short_table(&self) -> Vec<String> {
        let work = self.joining.work;
        holding(&[(work == JOIN_WORK - 1, "one number too few"), (work == 0, "no number")])
    }

    fn refused_run(&self) -> Vec<String> {
        let [first, second] = self.both.map(|judged| judged.refusal);
        let mut ways = holding(&[(first != 0 && second != 0, "both")]);
        if first != 0 {
            ways.push(format!("first, by {first}"));
        }
        if second != 0 {
            ways.push(format!("second, by {second}"));
        }
        if first == 0 {
            ways.push(format!("only the second, by {second}"));
        }
        ways
    }

    fn bad_seam(&self) -> Vec<String> {
        let [first, second] = self.both.map(|judged| judged.cabinets);
        let seams = &self.joining.seams;
        let only = |wrong: &dyn Fn(&Seam) -> [bool; 3], which: usize| {
            let mut bad = seams.iter().map(wrong).filter(|wrong| wrong.contains(&true));
            bad.all(|wrong| (0..3).all(|i| wrong[i] == (i == which)))
        };
        let wrong = |seam: &Seam| {
            let lacks = |cabinet: u16, cabinets: usize| usize::from(cabinet) >= cabinets;
            [lacks(seam.first, first), lacks(seam.second, second), seam.duct == 0]
        };
        let at = seams.iter().position(|&seam| is_bad(self.both, seam));
        let is_last = at.is_some_and(|at| at + 1 == seams.len() && at >= MANY);
        holding(&[
            (only(&wrong, 0), "a cabinet of the first"),
            (only(&wrong, 1), "a cabinet of the second"),
            (only(&wrong, 2), "duct 0"),
            (is_last, "only the last of many"),
            (first + second == 0, "no cabinet at all"),
        ])
    }

    fn no_room(&self) -> Vec<String> {
        let exceeds = self.size > LONGEST_JOURNAL;
        holding(&[
            (exceeds && self.room() >= self.size, "more than 65,536 bytes"),
            (!exceeds && self.room() + 1 == self.size, "a byte more than the output buffer"),
            (!exceeds && self.room() == 0, "no output buffer"),
        ])
    }

    /// The causes of the later numbers.
    fn later(&self) -> [(u32, bool); 3] {
        let refused = self.both.iter().any(|judged| judged.refusal != 0);
        let is_bad = self.joining.seams.iter().any(|&seam| is_bad(self.both, seam));
        let exceeds = self.size > LONGEST_JOURNAL || self.size > self.room();
        [(17, refused), (18, is_bad), (19, exceeds)]
    }
}
