//! The rewriting of document 02's seventh request: each 02 becomes 0B with its span number plus 1 as
//! duct. It reads the journal as the forecast does, and knows nothing of a run.

use super::command::read;
use crate::engine::{Rewriting, LONGEST_JOURNAL};

/// The commands of a journal, each with its place and its bytes.
pub type Text<'a> = Vec<(usize, &'a [u8])>;

/// The commands of a journal, or the number and the place of the refusal: 3 for a journal that is too
/// long, 4 or 5 for the first command with an unknown byte or cut-off operands.
pub fn text(journal: &[u8]) -> Result<Text<'_>, (u32, usize)> {
    if journal.len() > LONGEST_JOURNAL {
        return Err((3, 0));
    }
    let mut text = Vec::new();
    let mut place = 0;
    while place < journal.len() {
        let (_, length) = read(&journal[place..]).map_err(|number| (number, place))?;
        text.push((place, &journal[place..place + length]));
        place += length;
    }
    Ok(text)
}

/// The place of the first 0B.
pub fn first_in_duct(text: &Text) -> Option<usize> {
    text.iter().find(|(_, bytes)| bytes[0] == 0x0B).map(|&(place, _)| place)
}

/// Every command as it was, but for the 02. The number of a span is the count of 02 before it.
pub fn rewritten(text: &Text) -> Vec<u8> {
    let mut result = Vec::new();
    let mut spans: u16 = 0;
    for (_, bytes) in text {
        if bytes[0] == 0x02 {
            result.push(0x0B);
            result.extend(&bytes[1..]);
            result.extend((spans + 1).to_be_bytes());
            spans += 1;
        } else {
            result.extend(*bytes);
        }
    }
    result
}

/// The result for an output buffer of so many bytes, or the number and the place of the refusal.
pub fn result(journal: &[u8], room: usize) -> Result<Vec<u8>, (u32, usize)> {
    let text = text(journal)?;
    if let Some(place) = first_in_duct(&text) {
        return Err((15, place));
    }
    let result = rewritten(&text);
    if result.len() > LONGEST_JOURNAL || result.len() > room {
        return Err((16, 0));
    }
    Ok(result)
}

/// Writes the result, or nothing.
pub fn rewrite(journal: &[u8], out: &mut [u8]) -> Rewriting {
    match result(journal, out.len()) {
        Ok(result) => {
            out[..result.len()].copy_from_slice(&result);
            Rewriting::accepted(journal, result.len())
        }
        Err((number, place)) => Rewriting::refused(number, place),
    }
}
