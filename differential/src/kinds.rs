//! The three kinds of group, and values held for each of them.

use std::ops::{Index, IndexMut};

#[derive(Clone, Copy, PartialEq, Eq, Debug)]
pub enum Kind {
    District,
    Ring,
    Mesh,
}

pub const KINDS: [Kind; 3] = [Kind::District, Kind::Ring, Kind::Mesh];

impl Kind {
    /// The byte of this kind in a notice.
    pub fn byte(self) -> u8 {
        match self {
            Kind::District => 1,
            Kind::Ring => 2,
            Kind::Mesh => 3,
        }
    }

    pub fn from_byte(byte: u8) -> Option<Kind> {
        KINDS.into_iter().find(|kind| kind.byte() == byte)
    }
}

/// One value for each kind.
#[derive(Clone, Default, PartialEq, Eq, Debug)]
pub struct ByKind<T> {
    pub district: T,
    pub ring: T,
    pub mesh: T,
}

impl<T> Index<Kind> for ByKind<T> {
    type Output = T;

    fn index(&self, kind: Kind) -> &T {
        match kind {
            Kind::District => &self.district,
            Kind::Ring => &self.ring,
            Kind::Mesh => &self.mesh,
        }
    }
}

impl<T> IndexMut<Kind> for ByKind<T> {
    fn index_mut(&mut self, kind: Kind) -> &mut T {
        match kind {
            Kind::District => &mut self.district,
            Kind::Ring => &mut self.ring,
            Kind::Mesh => &mut self.mesh,
        }
    }
}
