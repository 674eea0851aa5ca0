//! What every implementation of the forecast to the byte, document 02's eleventh request, is given and fills.

use super::{start_refusal, work_needed, Forecast, REPORT_NUMBERS};

/// The call: the capacities C and S, the journal, the working table that the caller lends, and the two numbers
/// that are filled.
pub struct Exact<'a> {
    pub c: u32,
    pub s: u32,
    pub journal: &'a [u8],
    pub work: &'a mut [u32],
    pub place: &'a mut u32,
    pub length: &'a mut u32,
}

impl Exact<'_> {
    /// The same call, lent on.
    pub fn lend(&mut self) -> Exact<'_> {
        let Exact { c, s, journal, ref mut work, ref mut place, ref mut length } = *self;
        Exact { c, s, journal, work, place, length }
    }

    /// The refusals at the start: those of a run whose report is long enough.
    pub fn start_refusal(&self) -> u32 {
        start_refusal((self.c, self.s), self.journal, self.work, REPORT_NUMBERS)
    }

    /// What a forecast leaves: the table as before if it is refused at the start, else its first W numbers are 0;
    /// place and length are filled. Gives the number that is returned.
    pub fn ends(self, told: Forecast) -> u32 {
        if !told.refused_at_start() {
            self.work[..work_needed(self.c, self.s)].fill(0);
        }
        told.tell(self.place, self.length)
    }
}
