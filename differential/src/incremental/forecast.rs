//! The forecast by one pass over the journal: each command is counted by its byte, and its operands
//! are stepped over unread.

use crate::engine::{Forecast, LONGEST_JOURNAL};

/// The lengths of the commands 03 to 0F, each a hexadecimal digit at its byte's place.
pub const LENGTHS: u64 = 0x1375_7333_5553_3000;

/// The whole part of log2 k, and 0 for 0.
fn log(k: usize) -> usize {
    (usize::BITS - 1 - (k | 1).leading_zeros()) as usize
}

pub fn forecast(journal: &[u8]) -> Forecast {
    if journal.len() > LONGEST_JOURNAL {
        return Forecast::refused(3, 0);
    }
    let (mut c, mut s, mut asked) = (0, 0, [0; 16]);
    let (mut last, mut place) = (0, 0);
    while place < journal.len() {
        last = place;
        let byte = journal[place];
        match byte {
            0x01 => {
                c += 1;
                place += 1;
            }
            0x02 => {
                s += 1;
                place += 5;
            }
            // These come in any order: their length is taken without a branch.
            0x03..=0x0F => {
                asked[usize::from(byte)] += 1;
                place += (LENGTHS >> (4 * byte)) as usize & 0xF;
            }
            _ => return Forecast::refused(4, place),
        }
    }
    if place > journal.len() {
        return Forecast::refused(5, last);
    }
    Forecast::accepted(journal, length(c, s, asked))
}

/// The length, with c commands 01, s commands 02 and so many of each other byte. A command 0B adds a
/// span too.
fn length(c: usize, s: usize, asked: [usize; 16]) -> usize {
    let [_, _, _, district, ring, mesh, sole, cut, is_sole, rest @ ..] = asked;
    let [mark, is_fed, in_duct, routes, record, survey, share] = rest;
    let s = s + in_duct;
    let added = 3 * c + 7 * s + 5 * (2 * c * log(c) + s * log(s));
    let names = 5 * (district + ring) + 4 * mesh + 2 * is_sole;
    let lists = (3 + 2 * s) * sole + (3 + 2 * c) * cut + (5 + 2 * s) * routes;
    let exchanges = mark + 2 * is_fed + 3 * share;
    let surveys = record + 4 * survey;
    added + names + lists + exchanges + surveys
}
