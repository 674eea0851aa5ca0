//! One joining by an engine and by the second implementation, and every byte of every buffer compared.

use super::{bytes, guarded, inner, same, words, GUARD};
use crate::engine::join::{Join, Seam, JOIN_WORK};
use crate::engine::Engine;
use crate::joins::case::{Couple, Joining};
use crate::random::Random;
use crate::second::join::Both;
use crate::second::Second;

/// The most numbers that a working table has beyond W.
pub const BEYOND: usize = 128;

/// The working tables of all comparisons, made once since they are long: contents to begin with, and one
/// table for each side, all with guards.
pub struct Tables {
    contents: Vec<Vec<u32>>,
    got: Vec<u32>,
    wanted: Vec<u32>,
}

impl Tables {
    /// The contents are random numbers, small ones that could be taken for names and sizes, zeros and ones.
    pub fn new(random: &mut Random) -> Tables {
        let any = words(JOIN_WORK + BEYOND, random);
        let of = |make: fn(u32) -> u32| any.iter().map(|&number| make(number)).collect();
        let contents = vec![any.clone(), of(|number| number % 32), of(|_| 0), of(|_| u32::MAX)];
        Tables { contents, got: any.clone(), wanted: any }
    }

    /// Fills both tables with the same contents, and tells which.
    fn fill(&mut self, random: &mut Random) -> usize {
        let which = random.below(self.contents.len());
        self.got.copy_from_slice(&self.contents[which]);
        self.wanted.copy_from_slice(&self.contents[which]);
        which
    }
}

/// The buffers of one joining but for the working table, each between guards, with random contents.
#[derive(Clone)]
struct Lent {
    first: Vec<u8>,
    second: Vec<u8>,
    seams: Vec<Seam>,
    out: Vec<u8>,
    length: Vec<u32>,
}

impl Lent {
    fn new(couple: &Couple, joining: &Joining, random: &mut Random) -> Lent {
        let room = joining.out.bytes(couple.size(&joining.seams));
        Lent {
            first: guarded(&couple.first, random),
            second: guarded(&couple.second, random),
            seams: [any_seams(random), joining.seams.clone(), any_seams(random)].concat(),
            out: bytes(room, random),
            length: words(1, random),
        }
    }

    /// The call with these buffers, and with a table of so many numbers out of a longer one.
    fn call<'a>(&'a mut self, table: &'a mut [u32], work: usize) -> Join<'a> {
        Join {
            first: inner(&mut self.first),
            second: inner(&mut self.second),
            seams: inner(&mut self.seams),
            work: &mut table[GUARD..GUARD + work],
            out: inner(&mut self.out),
            length: &mut self.length[GUARD],
        }
    }
}

fn any_seams(random: &mut Random) -> Vec<Seam> {
    let mut any = || random.number() as u16;
    (0..GUARD).map(|_| Seam::new(any(), any(), any())).collect()
}

/// Compares engine and second implementation on one joining of two journals, whose runs in the second
/// implementation are given. Gives the number that is returned; the error says what differs.
pub fn compare(
    engine: &dyn Engine,
    second: &Second,
    (couple, both): (&Couple, Both),
    joining: &Joining,
    tables: &mut Tables,
    random: &mut Random,
) -> Result<u32, String> {
    let lent = Lent::new(couple, joining, random);
    let filled = tables.fill(random);
    let mut got = lent.clone();
    let number = engine.join(got.call(&mut tables.got, joining.work));
    let mut wanted = lent.clone();
    let wanted_number = second.join_judged(both, wanted.call(&mut tables.wanted, joining.work));
    let before = (&lent, &tables.contents[filled][..]);
    known_beforehand(joining, wanted_number, before, (&wanted, &tables.wanted))?;
    if number != wanted_number {
        return Err(format!("the joining returns {number}, second has {wanted_number}"));
    }
    same("the joining's length", &got.length, &wanted.length)?;
    same("the joined journal", &got.out, &wanted.out)?;
    same("the joining's table", &tables.got, &tables.wanted)?;
    same("the first journal", &got.first, &lent.first)?;
    same("the second journal", &got.second, &lent.second)?;
    same("the seams", &got.seams, &lent.seams)?;
    Ok(number)
}

/// What is known beforehand is held against the second implementation: the number, the length, the result,
/// the table, and that all else is as before.
fn known_beforehand(
    joining: &Joining,
    number: u32,
    (before, filled): (&Lent, &[u32]),
    (left, table): (&Lent, &[u32]),
) -> Result<(), String> {
    let Some(known) = &joining.known else {
        return Ok(());
    };
    let (mut out, mut length) = (before.out.clone(), before.length.clone());
    out[GUARD..GUARD + known.result.len()].copy_from_slice(&known.result);
    length[GUARD] = known.result.len() as u32;
    let cleared = GUARD..GUARD + if known.number == 2 { 0 } else { JOIN_WORK };
    let is_left = table[..GUARD] == filled[..GUARD]
        && table[cleared.clone()].iter().all(|&number| number == 0)
        && table[cleared.end..] == filled[cleared.end..];
    let differs = [
        ("number", number != known.number),
        ("length", left.length != length),
        ("result", left.out != out),
        ("table", !is_left),
    ];
    match differs.iter().find(|(_, differs)| *differs) {
        None => Ok(()),
        Some((what, _)) => Err(format!(
            "second's joining returns {number} and leaves another {what} than was known beforehand, \
             which is {} with {} bytes",
            known.number,
            known.result.len()
        )),
    }
}
