//! The exchanges of document 02's second request: the cabinets that 09 has marked, and which rings
//! they stand in. Every question counts them anew. Shares are rounded as its tenth request has it.

use super::groups::Labels;
use crate::kinds::ByKind;
use std::cmp::Ordering;

/// A fault put in on purpose, to see that it is found.
#[derive(Clone, Copy, PartialEq, Eq, Debug)]
pub enum Misfeed {
    /// The exchanges of a ring are lost when it loses its name.
    LostInJoins,
    /// An exchange feeds its whole district.
    ByDistrict,
    /// The share is one of rings.
    ShareOfRings,
    /// Of the cabinets only the exchanges are counted as fed.
    ShareOfExchanges,
    /// The share is one of the exchanges, and not of all cabinets.
    ShareAmongExchanges,
    /// The share is rounded up.
    RoundedUp,
    /// The share is rounded down.
    RoundedDown,
    /// The share is rounded to the nearest thousandth, an exact half up.
    HalvesUp,
    /// The same, an exact half down.
    HalvesDown,
    /// The same, an exact half to the odd one.
    HalvesToOdd,
    /// A cabinet may be marked twice.
    MarkedTwice,
}

#[derive(Clone, Default)]
pub struct Exchanges {
    /// The cabinets of the accepted 09 commands, in their order.
    marked: Vec<usize>,
    fault: Option<Misfeed>,
}

impl Exchanges {
    pub fn none(fault: Option<Misfeed>) -> Exchanges {
        Exchanges { marked: Vec::new(), fault }
    }

    /// Is this cabinet an exchange already?
    pub fn hold(&self, cabinet: usize) -> bool {
        self.marked.contains(&cabinet) && self.fault != Some(Misfeed::MarkedTwice)
    }

    pub fn with(&self, cabinet: usize) -> Exchanges {
        let mut exchanges = self.clone();
        exchanges.marked.push(cabinet);
        exchanges
    }

    /// The same after a span, given the ring names before it and after it.
    pub fn after_span(&self, before: &[usize], after: &[usize]) -> Exchanges {
        let mut exchanges = self.clone();
        if self.fault == Some(Misfeed::LostInJoins) {
            exchanges.marked.retain(|&cabinet| before[cabinet] == after[cabinet]);
        }
        exchanges
    }

    /// Does the cabinet's ring hold an exchange?
    pub fn feed(&self, groups: &ByKind<Labels>, cabinet: usize) -> bool {
        self.fed(groups)[cabinet]
    }

    /// For each cabinet whether its ring holds an exchange.
    fn fed(&self, groups: &ByKind<Labels>) -> Vec<bool> {
        let by_district = self.fault == Some(Misfeed::ByDistrict);
        let rings = if by_district { &groups.district } else { &groups.ring };
        let counts = counts(rings, &self.marked);
        rings.iter().map(|&ring| counts[ring] > 0).collect()
    }

    /// The share of all cabinets whose ring holds an exchange, in thousandths.
    pub fn share(&self, groups: &ByKind<Labels>) -> usize {
        let fed = self.fed(groups);
        let part = fed.iter().filter(|&&is_fed| is_fed).count();
        match self.fault {
            None => thousandths(part, fed.len()),
            Some(fault) => self.wrong_share(fault, &fed, &groups.ring),
        }
    }

    /// The share with a fault. The label of a ring is the least of its cabinets.
    fn wrong_share(&self, fault: Misfeed, fed: &[bool], rings: &Labels) -> usize {
        let part = (0..fed.len()).filter(|&cabinet| fed[cabinet]);
        let whole = 0..fed.len();
        let is_label = |&cabinet: &usize| rings[cabinet] == cabinet;
        let marked = self.marked.len();
        match fault {
            Misfeed::ShareOfRings => {
                thousandths(part.filter(is_label).count(), whole.filter(is_label).count())
            }
            Misfeed::ShareOfExchanges => thousandths(marked, whole.len()),
            Misfeed::ShareAmongExchanges => thousandths(marked, marked),
            _ => misrounded(fault, part.count(), whole.len()),
        }
    }
}

/// How many exchanges each ring holds, by the ring's label.
pub fn counts(rings: &Labels, exchanges: &[usize]) -> Vec<usize> {
    let mut counts = vec![0; rings.len()];
    for &cabinet in exchanges {
        counts[rings[cabinet]] += 1;
    }
    counts
}

/// So many of so many in thousandths, rounded to the nearest, an exact half to the even one; 0 of 0 is 0.
pub fn thousandths(part: usize, whole: usize) -> usize {
    if whole == 0 {
        return 0;
    }
    let (below, rest) = (1000 * part / whole, 1000 * part % whole);
    match (2 * rest).cmp(&whole) {
        Ordering::Less => below,
        Ordering::Equal => below + below % 2,
        Ordering::Greater => below + 1,
    }
}

/// The same with a fault; right where the fault is not in the rounding.
pub fn misrounded(fault: Misfeed, part: usize, whole: usize) -> usize {
    let right = thousandths(part, whole);
    let down = (1000 * part).checked_div(whole).unwrap_or(0);
    let up = (1000 * part).div_ceil(whole.max(1));
    let is_half = down < up && 2000 * part == (down + up) * whole;
    match fault {
        Misfeed::RoundedUp => up,
        Misfeed::RoundedDown => down,
        Misfeed::HalvesUp if is_half => up,
        Misfeed::HalvesDown if is_half => down,
        Misfeed::HalvesToOdd if is_half => down + up - right,
        _ => right,
    }
}
