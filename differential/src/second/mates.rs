//! The mates of document 02's third and seventh requests, and the faults that can be put into what is
//! made of them.

use super::groups::{Labels, Near, Network, NONE};
use crate::kinds::ByKind;
use crate::spans::Span;

/// Which spans are mates. Of 0B spans it is those of one duct between the same two cabinets, in either
/// direction, whatever the rule.
#[derive(Clone, Copy, PartialEq, Eq, Debug, Default)]
pub enum Rule {
    /// The seventh request: all 02 spans between the same two cabinets are mates of each other, and of
    /// no 0B span.
    #[default]
    OneDuct,
    /// The third request: a span from 02 has no mate.
    NoMate,
}

impl Rule {
    pub fn are_mates(self, one: Span, other: Span) -> bool {
        let of_one_kind = match (one.duct, other.duct) {
            (0, 0) => self == Rule::OneDuct,
            (0, _) | (_, 0) => false,
            (duct, other) => duct == other,
        };
        of_one_kind && one.lies_beside(other)
    }
}

/// A fault put in on purpose, to see that it is found.
#[derive(Clone, Copy, PartialEq, Eq, Debug)]
pub enum Misduct {
    /// 0B spans of one duct are mates though their ends differ: where they meet at a cabinet, or on the
    /// way from one cabinet to another.
    ByDuctAlone,
    /// 0B spans between the same two cabinets are mates, whatever their ducts.
    ByEndsAlone,
    /// 0B spans are mates only where they are entered in one direction.
    OneDirection,
    /// Ducts are told apart by their low byte alone.
    LowByte,
    /// 02 spans have no mates.
    NoMateBy02,
    /// 02 spans are mates wherever they lie.
    By02Alone,
    /// 02 spans are mates only where they are entered in one direction.
    OneDirectionBy02,
    /// 02 spans are mates of every 0B span between the same two cabinets.
    MatesOf0B,
    /// 02 spans lie in duct 1.
    By02InDuctOne,
    /// 02 spans lie in duct 65,535.
    By02InLastDuct,
    /// Ducts whose low byte is 0 are that of the 02 spans.
    LowByteNought,
    /// A span is lost without its mates.
    LostAlone,
    /// Mates that are on no simple cycle share no mesh.
    ApartInMeshes,
    /// A mate makes the rings of its two ends one name.
    RingOfMates,
    /// 08 answers 1 exactly for the spans that are not sole.
    SoleInverted,
    /// 06 lists every span of a set of mates.
    EveryMate,
    /// 06 lists a set of mates by its greatest number.
    GreatestMate,
    /// Meshes are measured in sets of mates.
    MeasuredInSets,
    /// The book takes the meshes without the new span's mates.
    TakenWithoutMates,
    /// 0B is answered by 8B.
    AnsweredByItsOwn,
    /// 13 comes before 6.
    DuctFirst,
    /// 13 comes before 8.
    DuctBeforeEnds,
    /// 13 comes after 9.
    DuctAfterCapacity,
}

impl Network {
    /// Are these two spans mates by the network's rule, whatever the fault?
    pub fn rightly_mates(&self, s: usize, t: usize) -> bool {
        self.rule.are_mates(self.spans[s], self.spans[t])
    }

    /// Are these two spans mates, or one span?
    pub fn are_mates(&self, s: usize, t: usize) -> bool {
        s == t
            || match self.fault {
                None => self.rightly_mates(s, t),
                Some(fault) => self.wrongly_mates(fault, s, t),
            }
    }

    /// The same of two different spans, where there is a fault.
    fn wrongly_mates(&self, fault: Misduct, s: usize, t: usize) -> bool {
        let (one, other) = (self.spans[s], self.spans[t]);
        let beside = one.lies_beside(other);
        let right = self.rightly_mates(s, t);
        let laid = |duct: usize| {
            let span = |span: Span| if span.duct == 0 { duct } else { span.duct };
            span(one) == span(other)
        };
        match (fault, one.duct != 0, other.duct != 0) {
            (Misduct::ByDuctAlone, true, true) => one.duct == other.duct,
            (Misduct::ByEndsAlone, true, true) => beside,
            (Misduct::OneDirection, true, true) => one == other,
            (Misduct::LowByte, true, true) => one.duct % 256 == other.duct % 256 && beside,
            (Misduct::NoMateBy02, false, false) => false,
            (Misduct::By02Alone, false, false) => true,
            (Misduct::OneDirectionBy02, false, false) => one == other,
            (Misduct::MatesOf0B, true, false) | (Misduct::MatesOf0B, false, true) => beside,
            (Misduct::By02InDuctOne, _, _) => laid(1) && beside,
            (Misduct::By02InLastDuct, _, _) => laid(0xFFFF) && beside,
            (Misduct::LowByteNought, _, _) => {
                let told = |span: Span| if span.duct.is_multiple_of(256) { 0 } else { span.duct };
                told(one) == told(other) && beside
            }
            _ => right,
        }
    }

    /// To lose a span is to lose its mates with it.
    pub fn lost_with(&self, s: usize, t: usize) -> bool {
        match self.fault {
            Some(Misduct::LostAlone) => s == t,
            _ => self.are_mates(s, t),
        }
    }

    /// What 06 lists for a span whose loss parts the pair: its set of mates, once and by its least
    /// number. Mates are at one cabinet, so those of its first end are all of them.
    pub fn listed(&self, near: &Near, span: usize) -> Vec<usize> {
        let beside = near.from(self.spans[span].a).iter().map(|step| step.span);
        let set = beside.filter(|&other| self.are_mates(span, other));
        match self.fault {
            Some(Misduct::EveryMate) => set.collect(),
            Some(Misduct::GreatestMate) => set.max().into_iter().collect(),
            _ => set.min().into_iter().collect(),
        }
    }

    /// The groups without the newest span and with it, as the book takes them: changed where there
    /// is a fault in that. A span whose mesh is `NONE` is in none.
    pub fn spoil(&self, without: &mut ByKind<Labels>, with: &mut ByKind<Labels>) {
        let newest = self.spans.len() - 1;
        let has_lesser = |span: usize| (0..span).any(|other| self.are_mates(span, other));
        match self.fault {
            Some(Misduct::TakenWithoutMates) => {
                let mates = (0..newest).filter(|&span| self.are_mates(span, newest));
                mates.for_each(|mate| without.mesh[mate] = NONE);
            }
            Some(Misduct::MeasuredInSets) => {
                let uncounted = (0..newest).filter(|&span| has_lesser(span));
                uncounted.for_each(|mate| without.mesh[mate] = NONE);
            }
            Some(Misduct::RingOfMates) if has_lesser(newest) => {
                let Span { a, b, .. } = self.spans[newest];
                let (kept, lost) = (with.ring[a], with.ring[b]);
                let joined = with.ring.iter_mut().filter(|ring| **ring == lost);
                joined.for_each(|ring| *ring = kept);
            }
            _ => {}
        }
    }
}
