//! The rewriting by one pass over the journal, which makes the result beside it; a result that is not
//! refused is copied into the output buffer.

use super::forecast::LENGTHS;
use crate::engine::{Rewriting, LONGEST_JOURNAL};

/// The result as far as it is made: the journal's bytes from `kept` on are not in it yet.
struct Made<'a> {
    journal: &'a [u8],
    kept: usize,
    duct: u16,
    bytes: Vec<u8>,
}

impl Made<'_> {
    /// Takes in the span at this place, all of which is there.
    fn span(&mut self, place: usize) {
        self.duct += 1;
        let [high, low] = self.duct.to_be_bytes();
        let operands = &self.journal[place + 1..place + 5];
        self.bytes.extend_from_slice(&self.journal[self.kept..place]);
        let [a, b, c, d] = [operands[0], operands[1], operands[2], operands[3]];
        self.bytes.extend_from_slice(&[0x0B, a, b, c, d, high, low]);
        self.kept = place + 5;
    }

    fn rest(&mut self) {
        self.bytes.extend_from_slice(&self.journal[self.kept..]);
    }
}

pub fn rewrite(journal: &[u8], out: &mut [u8]) -> Rewriting {
    if journal.len() > LONGEST_JOURNAL {
        return Rewriting::refused(3, 0);
    }
    let bytes = Vec::with_capacity(journal.len() / 5 * 7 + 7);
    let mut made = Made { journal, kept: 0, duct: 0, bytes };
    let (mut in_duct, mut last, mut place) = (None, 0, 0);
    while place < journal.len() {
        last = place;
        match journal[place] {
            0x01 => place += 1,
            0x02 if journal.len() - place >= 5 => {
                made.span(place);
                place += 5;
            }
            0x02 => place += 5,
            byte @ 0x03..=0x0F => {
                if byte == 0x0B {
                    in_duct = in_duct.or(Some(place));
                }
                place += (LENGTHS >> (4 * byte)) as usize & 0xF;
            }
            _ => return Rewriting::refused(4, place),
        }
    }
    if place > journal.len() {
        return Rewriting::refused(5, last);
    }
    if let Some(first) = in_duct {
        return Rewriting::refused(15, first);
    }
    made.rest();
    put(journal, &made.bytes, out)
}

fn put(journal: &[u8], result: &[u8], out: &mut [u8]) -> Rewriting {
    if result.len() > LONGEST_JOURNAL || result.len() > out.len() {
        return Rewriting::refused(16, 0);
    }
    out[..result.len()].copy_from_slice(result);
    Rewriting::accepted(journal, result.len())
}
