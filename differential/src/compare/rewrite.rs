//! The rewriting of a case's journal by an engine and by the second implementation, with output buffers of
//! several lengths.

use super::{bytes, guarded, inner, same, words, Tally, GUARD};
use crate::cases::Case;
use crate::engine::{Engine, Rewriting, LONGEST_JOURNAL};
use crate::random::Random;
use crate::second::forecast::counts;
use crate::second::Second;

/// With results of up to so many bytes, every length of the output buffer is tried.
const SHORT: usize = 24;

/// The journal of a rewriting, the output buffer and the two numbers that it fills, which hold anything
/// before; each between guards.
#[derive(Clone)]
struct Asked {
    journal: Vec<u8>,
    out: Vec<u8>,
    place: Vec<u32>,
    length: Vec<u32>,
}

impl Asked {
    /// With the longest of the output buffers.
    fn new(journal: &[u8], longest: usize, random: &mut Random) -> Asked {
        Asked {
            journal: guarded(journal, random),
            out: bytes(longest, random),
            place: words(1, random),
            length: words(1, random),
        }
    }

    /// The same with an output buffer of so many bytes.
    fn with_room(&self, room: usize) -> Asked {
        Asked {
            journal: self.journal.clone(),
            out: self.out[..room + 2 * GUARD].to_vec(),
            place: self.place.clone(),
            length: self.length.clone(),
        }
    }

    fn rewrite(&mut self, engine: &dyn Engine) -> Rewriting {
        let (place, length) = (&mut self.place[GUARD], &mut self.length[GUARD]);
        let (journal, out) = (inner(&mut self.journal), inner(&mut self.out));
        let number = engine.rewrite(journal, out, place, length);
        Rewriting { number, place: *place, length: *length }
    }
}

/// Compares engine and second implementation on the rewriting of a case's journal, with several lengths
/// of the output buffer.
pub fn compare(
    engine: &dyn Engine,
    second: &Second,
    case: &Case,
    random: &mut Random,
    tally: &mut Tally,
) -> Result<(), String> {
    let mut rooms = rooms(&case.journal);
    rooms.extend(case.rewriting.as_ref().map(|known| known.room));
    let longest = rooms.iter().copied().max().unwrap_or(0);
    let asked = Asked::new(&case.journal, longest, random);
    for room in rooms {
        let told = same_rewriting(engine, second, case, asked.with_room(room))
            .map_err(|fault| format!("with {room} bytes for the result: {fault}"))?;
        tally.rewritten[told.number as usize] += 1;
    }
    Ok(())
}

/// Every length of the output buffer up to three more than a short result takes; else none, and those
/// around what it takes. Where there is none, for a 0B or damage, it is what it would take as far as the
/// journal can be read; then none and this are enough.
fn rooms(journal: &[u8]) -> Vec<usize> {
    let counted = counts(journal);
    let has_result = counted.is_ok_and(|counts| counts[0x0B] == 0);
    let read = counted.map_or_else(|(_, place)| place, |_| journal.len());
    let spans = counts(&journal[..read]).map_or(0, |counts| counts[0x02]);
    let taken = journal.len() + 2 * spans;
    match taken {
        0..=SHORT => (0..=taken + 3).collect(),
        _ if !has_result => vec![0, taken],
        _ if taken > LONGEST_JOURNAL => vec![0, LONGEST_JOURNAL, taken, taken + 1],
        _ => vec![0, taken - 1, taken, taken + 1],
    }
}

fn same_rewriting(
    engine: &dyn Engine,
    second: &Second,
    case: &Case,
    asked: Asked,
) -> Result<Rewriting, String> {
    let mut got = asked.clone();
    let told = got.rewrite(engine);
    let mut wanted = asked.clone();
    let wanted_told = wanted.rewrite(second);
    known_beforehand(case, wanted_told, &asked, &wanted)?;
    if told != wanted_told {
        return Err(format!("the rewriting tells {told:?}, second has {wanted_told:?}"));
    }
    same("the rewriting's journal", &got.journal, &wanted.journal)?;
    same("the result", &got.out, &wanted.out)?;
    same("the rewriting's place", &got.place, &wanted.place)?;
    same("the rewriting's length", &got.length, &wanted.length)?;
    Ok(told)
}

/// What is known beforehand of a rewriting with an output buffer of this length is held against the second
/// implementation: what it tells, the result, and that all else is as before.
fn known_beforehand(
    case: &Case,
    told: Rewriting,
    before: &Asked,
    left: &Asked,
) -> Result<(), String> {
    let room = left.out.len() - 2 * GUARD;
    let Some(known) = case.rewriting.as_ref().filter(|known| known.room == room) else {
        return Ok(());
    };
    if told != known.told {
        let known = known.told;
        return Err(format!("second's rewriting tells {told:?}, {known:?} was known beforehand"));
    }
    let mut out = before.out.clone();
    out[GUARD..GUARD + known.result.len()].copy_from_slice(&known.result);
    if left.out != out {
        return Err("second writes another result than was known beforehand".to_string());
    }
    Ok(())
}
