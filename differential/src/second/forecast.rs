//! The forecast of document 02's first request: a sufficient length of the answer buffer, from the
//! journal only, without running it. Later commands join it with the greatest length that their
//! answer can have.

use super::command::read;
use crate::engine::{Forecast, LONGEST_JOURNAL};

/// How many commands there are of each byte, up to 0F.
pub type Counts = [usize; 16];

/// L(k): the place of the highest one bit of k, counted from 0, and L(0) is 0.
fn highest_bit(k: usize) -> usize {
    let is_one = |place: &usize| k >> place & 1 == 1;
    (0..usize::BITS as usize).rev().find(is_one).unwrap_or(0)
}

/// The commands of a journal, or the number and the place of the first one that has an unknown byte
/// or cut-off operands.
pub fn counts(journal: &[u8]) -> Result<Counts, (u32, usize)> {
    let mut counts = [0; 16];
    let mut place = 0;
    while place < journal.len() {
        let (_, length) = read(&journal[place..]).map_err(|number| (number, place))?;
        counts[usize::from(journal[place])] += 1;
        place += length;
    }
    Ok(counts)
}

/// The length, with c cabinet and s span commands; 0B is one of these. By the eighth request 03 and 04 count
/// 5 each, for a name and a size.
pub fn length(counts: &Counts) -> usize {
    let (c, s) = (counts[1], counts[2] + counts[0x0B]);
    3 * c
        + 7 * s
        + 5 * (2 * c * highest_bit(c) + s * highest_bit(s))
        + 5 * (counts[3] + counts[4])
        + 4 * counts[5]
        + (3 + 2 * s) * counts[6]
        + (3 + 2 * c) * counts[7]
        + 2 * counts[8]
        + counts[0x09]
        + 2 * counts[0x0A]
        + (5 + 2 * s) * counts[0x0C]
        + counts[0x0D]
        + 4 * counts[0x0E]
        + 3 * counts[0x0F]
}

pub fn forecast(journal: &[u8]) -> Forecast {
    if journal.len() > LONGEST_JOURNAL {
        return Forecast::refused(3, 0);
    }
    match counts(journal) {
        Ok(counts) => Forecast::accepted(journal, length(&counts)),
        Err((number, place)) => Forecast::refused(number, place),
    }
}
