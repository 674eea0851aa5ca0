//! Two journals and joinings of them by seed.

use super::case::{Couple, Joining};
use crate::cases::Room;
use crate::compare::join::BEYOND;
use crate::engine::join::{Seam, JOIN_WORK};
use crate::journals::{random_case, small, styled, Writer};
use crate::layouts::DUCTS;
use crate::random::Random;
use crate::second::join::Both;
use crate::second::Second;

/// A journal: an empty one, a small one, one of any style, one that may be damaged or refused, or cabinets
/// with marks and shares.
fn journal(random: &mut Random) -> Vec<u8> {
    let seed = random.number();
    match random.below(20) {
        0 => Vec::new(),
        1..=5 => small(seed).journal,
        6..=8 => random_case(seed).journal,
        9..=11 => marked(random),
        _ => styled(random).1.bytes,
    }
}

/// Some cabinets, some of them marked, with shares between.
fn marked(random: &mut Random) -> Vec<u8> {
    let mut writer = Writer::new();
    for cabinet in 0..random.between(1, 40) {
        writer.cabinet();
        if random.chance(30) {
            writer.mark(cabinet);
        }
        if random.chance(30) {
            writer.command(0x0F, &[]);
        }
    }
    writer.bytes
}

/// Two journals, now and then the same one twice, with several joinings, and what their runs come to in the
/// second implementation.
pub fn couple(seed: u64, judge: &Second) -> (Couple, Both) {
    let random = &mut Random::new(seed);
    let label = format!("random journals, seed {seed}");
    let first = journal(random);
    let second = if random.chance(5) { first.clone() } else { journal(random) };
    let both = [judge.judge(&first), judge.judge(&second)];
    let mut couple = Couple::new(&label, first, second);
    let good = seams(random, both);
    let mut bad = good.clone();
    spoil(random, both, &mut bad);
    couple.joinings.push(Joining::by(good.clone()).with_work(work(random)));
    for seams in [good, bad] {
        let joining = Joining::by(seams).with_out(room(random));
        couple.joinings.push(joining.with_work(work(random)));
    }
    (couple, both)
}

/// Seams between cabinets that are there, in few ducts, some of them several times; none if one of the
/// networks has no cabinets.
fn seams(random: &mut Random, [first, second]: Both) -> Vec<Seam> {
    if first.cabinets == 0 || second.cabinets == 0 {
        return Vec::new();
    }
    let ducts = *random.pick(&DUCTS);
    let most = *random.pick(&[0, 1, 2, 5, 20, 60]);
    let mut seams: Vec<Seam> = Vec::new();
    for _ in 0..random.between(0, most) {
        let of = |random: &mut Random, cabinets: usize| random.below(cabinets) as u16;
        let any = Seam {
            first: of(random, first.cabinets),
            second: of(random, second.cabinets),
            duct: *random.pick(ducts) as u16,
        };
        let again = !seams.is_empty() && random.chance(25);
        seams.push(if again { *random.pick(&seams) } else { any });
    }
    seams
}

/// One bad seam at some place or at the end, or more: a cabinet behind the last, one that only the other
/// network has, any number, or duct 0.
fn spoil(random: &mut Random, both: Both, seams: &mut Vec<Seam>) {
    let [first, second] = both.map(|judged| judged.cabinets as u16);
    for _ in 0..random.between(1, 2) {
        let good = seams.first().copied().unwrap_or(Seam::new(0, 0, 1));
        let bad = match random.below(6) {
            0 => Seam { first, ..good },
            1 => Seam { second, ..good },
            2 => Seam { first: first.max(second), ..good },
            3 => Seam { second: first.max(second), ..good },
            4 => Seam { first: random.number() as u16, second: random.number() as u16, ..good },
            _ => Seam { duct: 0, ..good },
        };
        let place = if random.chance(50) { seams.len() } else { random.below(seams.len() + 1) };
        seams.insert(place, bad);
    }
}

/// W numbers, some more, one fewer, or any number fewer.
fn work(random: &mut Random) -> usize {
    match random.below(20) {
        0..=11 => JOIN_WORK,
        12 => JOIN_WORK - 1,
        13 => random.below(JOIN_WORK),
        _ => JOIN_WORK + random.between(1, BEYOND),
    }
}

/// Around what the result takes, or no more than some of it.
fn room(random: &mut Random) -> Room {
    match random.below(8) {
        0 => Room::Bytes(0),
        1..=2 => Room::Under(1),
        3 => Room::Part(random.number()),
        4 => Room::Over(0),
        _ => Room::Over(random.between(1, 40)),
    }
}
