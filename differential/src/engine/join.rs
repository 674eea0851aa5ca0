//! What every implementation of the joining of document 02's ninth request is given and fills.

use super::{MOST_CABINETS, MOST_SPANS};

/// A cabinet of the first journal, a cabinet of the second, and a duct; laid out as C has it.
#[repr(C)]
#[derive(Clone, Copy, PartialEq, Eq, Debug)]
pub struct Seam {
    pub first: u16,
    pub second: u16,
    pub duct: u16,
}

/// W of the greatest capacities: the numbers of the working table that a joining uses.
pub const JOIN_WORK: usize = 24 * MOST_CABINETS as usize + 8 * MOST_SPANS as usize + 64;

/// The bytes of the 0B that a seam becomes.
pub const SEAM_BYTES: usize = 7;

/// The call: the two journals, the seams, and the buffers that the caller lends.
pub struct Join<'a> {
    pub first: &'a [u8],
    pub second: &'a [u8],
    pub seams: &'a [Seam],
    pub work: &'a mut [u32],
    pub out: &'a mut [u8],
    pub length: &'a mut u32,
}

impl Seam {
    pub fn new(first: u16, second: u16, duct: u16) -> Seam {
        Seam { first, second, duct }
    }
}

impl Join<'_> {
    /// The same call, lent on.
    pub fn lend(&mut self) -> Join<'_> {
        let Join { first, second, seams, ref mut work, ref mut out, ref mut length } = *self;
        Join { first, second, seams, work, out, length }
    }

    /// The bytes that the result takes.
    pub fn size(&self) -> usize {
        self.first.len() + self.second.len() + SEAM_BYTES * self.seams.len()
    }

    /// What a joining leaves. Refused with 2 it leaves all but the length, which is 0; else the table's first
    /// W numbers are 0, and of the output buffer nothing but the result is changed, which is empty on a
    /// refusal. Gives the number that is returned.
    pub fn ends(self, number: u32, result: &[u8]) -> u32 {
        if number != 2 {
            self.work[..JOIN_WORK].fill(0);
        }
        self.out[..result.len()].copy_from_slice(result);
        *self.length = u32::try_from(result.len()).expect("every length fits 32 bits");
        number
    }
}
