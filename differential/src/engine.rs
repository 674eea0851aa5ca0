//! What every implementation of the register offers: the run of document 01, with the commands of
//! document 02's requests 2, 3, 5 and 6, the mates of its seventh, the sizes of its eighth and the rounding of
//! its tenth, the forecast of its first, the rewriting of its seventh, the joining of its ninth and the forecast
//! to the byte of its eleventh.

pub mod exact;
pub mod join;

use exact::Exact;
use join::Join;

/// The call: the capacities C and S, the journal, and the buffers that the caller lends.
pub struct Call<'a> {
    pub c: u32,
    pub s: u32,
    pub journal: &'a [u8],
    pub work: &'a mut [u32],
    pub answers: &'a mut [u8],
    pub report: &'a mut [u32],
}

/// What a forecast gives, from the journal alone or to the byte.
#[derive(Clone, Copy, PartialEq, Eq, Debug)]
pub struct Forecast {
    /// 0 if the journal is accepted.
    pub number: u32,
    /// The journal's length, or the refused command's first byte; 0 for the numbers 1 to 3.
    pub place: u32,
    /// A length of the answer buffer that suffices, or the one that just does; 0 on a refusal.
    pub length: u32,
}

/// What a rewriting tells beside the result that it writes.
#[derive(Clone, Copy, PartialEq, Eq, Debug)]
pub struct Rewriting {
    /// 0 if the journal is rewritten.
    pub number: u32,
    /// The journal's length, or the refused command's first byte; 0 for the numbers 3 and 16.
    pub place: u32,
    /// The length of the result; 0 on a refusal.
    pub length: u32,
}

pub trait Engine {
    fn name(&self) -> &'static str;

    /// Runs one journal from an empty network. Returns 0, or the number of the refusal.
    fn run(&self, call: Call) -> u32;

    /// Forecasts the length of the answer buffer from the journal alone. Returns 0, or the number
    /// of the refusal; the caller's place and length are filled either way.
    fn forecast(&self, journal: &[u8], place: &mut u32, length: &mut u32) -> u32;

    /// Rewrites a journal so that no two of its 02 spans are mates, into the output buffer. Returns 0, or
    /// the number of the refusal; the caller's place and length are filled either way.
    fn rewrite(&self, journal: &[u8], out: &mut [u8], place: &mut u32, length: &mut u32) -> u32;

    /// Joins two journals by seams, into the output buffer. Returns 0, or the number of the refusal; the
    /// caller's length is filled either way.
    fn join(&self, call: Join) -> u32;

    /// Forecasts to the byte what a run with ample room writes. Returns 0, or the number of the refusal; the
    /// caller's place and length are filled either way.
    fn forecast_exact(&self, call: Exact) -> u32;
}

pub const MOST_CABINETS: u32 = 4096;
pub const MOST_SPANS: u32 = 8192;
pub const LONGEST_JOURNAL: usize = 65_536;
pub const REPORT_NUMBERS: usize = 6;

/// W: the numbers of the working table that a run uses, for capacities inside their ranges.
pub fn work_needed(c: u32, s: u32) -> usize {
    24 * c as usize + 8 * s as usize + 64
}

impl Forecast {
    pub fn accepted(journal: &[u8], length: usize) -> Forecast {
        Forecast { number: 0, place: fit(journal.len()), length: fit(length) }
    }

    pub fn refused(number: u32, place: usize) -> Forecast {
        Forecast { number, place: fit(place), length: 0 }
    }

    /// Is it refused with 1, 2 or 3?
    pub fn refused_at_start(self) -> bool {
        (1..=3).contains(&self.number)
    }

    /// Fills the caller's place and length. Gives the number that is returned.
    pub fn tell(self, place: &mut u32, length: &mut u32) -> u32 {
        *place = self.place;
        *length = self.length;
        self.number
    }
}

impl Rewriting {
    pub fn accepted(journal: &[u8], length: usize) -> Rewriting {
        Rewriting { number: 0, place: fit(journal.len()), length: fit(length) }
    }

    pub fn refused(number: u32, place: usize) -> Rewriting {
        Rewriting { number, place: fit(place), length: 0 }
    }

    /// Fills the caller's place and length. Gives the number that is returned.
    pub fn tell(self, place: &mut u32, length: &mut u32) -> u32 {
        *place = self.place;
        *length = self.length;
        self.number
    }
}

/// The refusals at the start, in the order of the table, with a report of so many numbers: 0 if none applies.
fn start_refusal((c, s): (u32, u32), journal: &[u8], work: &[u32], report: usize) -> u32 {
    if !(1..=MOST_CABINETS).contains(&c) || !(1..=MOST_SPANS).contains(&s) {
        return 1;
    }
    if work.len() < work_needed(c, s) || report < REPORT_NUMBERS {
        return 2;
    }
    if journal.len() > LONGEST_JOURNAL {
        return 3;
    }
    0
}

fn fit(number: usize) -> u32 {
    u32::try_from(number).expect("every place and length fits 32 bits")
}

impl Call<'_> {
    /// The same call, lent on.
    pub fn lend(&mut self) -> Call<'_> {
        let Call { c, s, journal, ref mut work, ref mut answers, ref mut report } = *self;
        Call { c, s, journal, work, answers, report }
    }

    /// The refusals at the start.
    pub fn start_refusal(&self) -> u32 {
        start_refusal((self.c, self.s), self.journal, self.work, self.report.len())
    }

    /// What a run leaves beside its answers: the table's first W numbers are 0, the report is
    /// filled. Gives the number that is returned.
    pub fn ends(self, report: [u32; REPORT_NUMBERS]) -> u32 {
        self.work[..work_needed(self.c, self.s)].fill(0);
        self.report[..REPORT_NUMBERS].copy_from_slice(&report);
        report[0]
    }
}
