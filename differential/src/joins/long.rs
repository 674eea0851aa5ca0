//! Joinings known beforehand of long journals and many seams, made by what is in them.

use super::case::{Couple, Joining};
use crate::cases::Room;
use crate::engine::join::Seam;
use crate::engine::LONGEST_JOURNAL;
use crate::journals::Writer;
use crate::layouts::random_spans;
use crate::random::Random;
use crate::second::surveys::Record;

/// All of them.
pub fn long() -> Vec<Couple> {
    [many_seams(), longest(), too_long(), over_capacity(), together()].concat()
}

/// Two large networks with marks, records and questions, and seams between them: a journal of more than 50,000
/// bytes that a run accepts.
pub fn large() -> Couple {
    let random = &mut Random::new(12);
    let first = asked(random, 1_500, 2_100, 16_000);
    let second = asked(random, 1_100, 1_700, 36_000);
    let seam = |random: &mut Random| Seam {
        first: random.below(1_500) as u16,
        second: random.below(1_100) as u16,
        duct: random.between(1, 3) as u16,
    };
    let seams = (0..300).map(|_| seam(random)).collect();
    Couple::new("two large networks", first, second).asked(Joining::by(seams))
}

/// So many cabinets and random spans, every other one in a duct, with as many records and questions as make so
/// many bytes.
fn asked(random: &mut Random, cabinets: usize, spans: usize, bytes: usize) -> Vec<u8> {
    let mut layout = random_spans(random, cabinets, spans);
    layout.lay(random, 50, &[1, 2]);
    let marked = [(); 20].map(|_| random.below(cabinets));
    let mut writer = Writer::new();
    writer.enter_marked(&layout, &marked);
    while writer.bytes.len() < bytes {
        let span = random.below(spans);
        writer.record(Record { span, day: random.below(5), metres: random.below(65_536) });
        (0..9).for_each(|_| writer.question(random));
    }
    writer.bytes
}

/// So many cabinets, and spans by 02 between the first two of them, or between neighbours.
fn network(cabinets: usize, spans: usize) -> Vec<u8> {
    let span = |i: usize| {
        let a = i % cabinets.saturating_sub(1).max(1);
        command(0x02, &[a, a + 1])
    };
    [vec![0x01; cabinets], (0..spans).flat_map(span).collect()].concat()
}

fn command(byte: u8, operands: &[usize]) -> Vec<u8> {
    let fields = operands.iter().flat_map(|&operand| (operand as u16).to_be_bytes());
    [byte].into_iter().chain(fields).collect()
}

/// The same network behind so many cabinets.
fn behind(before: usize, cabinets: usize, spans: usize) -> Vec<u8> {
    let span = |i: usize| {
        let a = before + i % cabinets.saturating_sub(1).max(1);
        command(0x02, &[a, a + 1])
    };
    [vec![0x01; cabinets], (0..spans).flat_map(span).collect()].concat()
}

/// So many seams, all between the first cabinets, in ducts 1 to 7.
fn seams(count: usize) -> Vec<Seam> {
    (0..count).map(|i| Seam::new(0, 0, 1 + i as u16 % 7)).collect()
}

/// What these seams become behind so many cabinets.
fn sewn(count: usize, cabinets: usize) -> Vec<u8> {
    (0..count).flat_map(|i| command(0x0B, &[0, cabinets, 1 + i % 7])).collect()
}

/// Two cabinets and 9,362 seams are just 65,536 bytes; one seam more is too many. A bad one at the end of many
/// is found.
fn many_seams() -> Vec<Couple> {
    let couple = |label: &str| Couple::new(label, vec![0x01], vec![0x01]);
    let most = [vec![0x01; 2], sewn(9_362, 1)].concat();
    assert_eq!(most.len(), LONGEST_JOURNAL, "65,536 bytes");
    let joining = |count: usize| Joining::by(seams(count));
    let too_many = |count: usize| joining(count).refused(19);
    let mut bad = couple("many seams, the last of them bad");
    for count in [9_361, 9_999] {
        for last in [Seam::new(0, 0, 0), Seam::new(1, 0, 1), Seam::new(0, 1, 1)] {
            let joining = || Joining::by([seams(count), vec![last]].concat()).refused(18);
            bad = bad.asked(joining()).asked(joining().with_out(Room::Bytes(0)));
        }
    }
    vec![
        couple("9,362 seams")
            .asked(joining(9_362).gives(most.clone()))
            .asked(joining(9_362).with_out(Room::Over(9)).gives(most))
            .asked(joining(9_362).with_out(Room::Under(1)).refused(19)),
        couple("9,363 seams")
            .asked(too_many(9_363))
            .asked(too_many(9_363).with_out(Room::Bytes(LONGEST_JOURNAL)))
            .asked(too_many(9_363).with_out(Room::Over(7)))
            .asked(too_many(10_000)),
        bad,
    ]
}

/// A cabinet, and the question about its district again and again: just so many bytes, 1 more than a multiple
/// of 3.
fn questions(bytes: usize, cabinet: usize) -> Vec<u8> {
    [vec![0x01], command(0x03, &[cabinet]).repeat(bytes / 3)].concat()
}

/// Results of 65,536 bytes and of one to seven more.
fn longest() -> Vec<Couple> {
    let whole = questions(LONGEST_JOURNAL, 0);
    assert_eq!(whole.len(), LONGEST_JOURNAL, "65,536 bytes");
    let half = questions(32_767, 0);
    let joined = [half.clone(), questions(32_767, 1)].concat();
    let alone = |label: &str, first: &[u8], second: &[u8]| {
        Couple::new(label, first.to_vec(), second.to_vec())
    };
    let too_long = |label: &str, first: &[u8], second: &[u8], sewn: usize| {
        let joining = || Joining::by(seams(sewn)).refused(19);
        let couple = alone(label, first, second).asked(joining());
        couple.asked(joining().with_out(Room::Bytes(2 * LONGEST_JOURNAL)))
    };
    let fits = |result: &[u8]| Joining::by(Vec::new()).gives(result.to_vec());
    vec![
        alone("65,536 bytes and none", &whole, &[]).asked(fits(&whole)),
        alone("none and 65,536 bytes", &[], &whole).asked(fits(&whole)),
        alone("two halves", &half, &half).asked(fits(&joined)),
        too_long("65,536 bytes and one", &whole, &[0x01], 0),
        too_long("one and 65,536 bytes", &[0x01], &whole, 0),
        too_long("65,536 bytes twice", &whole, &whole, 0),
        too_long("two halves and a seam", &half, &half, 1),
    ]
}

/// A journal of 65,537 bytes, which has a cabinet, as the first, as the second and as both; a bad seam does
/// not matter.
fn too_long() -> Vec<Couple> {
    let long = [questions(LONGEST_JOURNAL, 0), vec![0x0F]].concat();
    let one = vec![0x01];
    let bad = vec![Seam::new(7, 7, 0)];
    [[&long, &one], [&one, &long], [&long, &long], [&long, &Vec::new()]]
        .into_iter()
        .map(|[first, second]| {
            let couple = Couple::new("65,537 bytes", first.clone(), second.clone());
            let couple = couple.asked(Joining::by(Vec::new()).refused(17));
            let couple = couple.asked(Joining::by(seams(1)).with_out(Room::Bytes(0)).refused(17));
            couple.asked(Joining::by(bad.clone()).refused(17))
        })
        .collect()
}

/// One journal that is over a capacity by itself.
fn over_capacity() -> Vec<Couple> {
    let couple = |first: Vec<u8>, second: Vec<u8>| {
        let joining = Joining::by(seams(1)).refused(17);
        Couple::new("a journal over a capacity", first, second).asked(joining)
    };
    let one = || network(1, 0);
    vec![
        couple(network(4_097, 0), one()),
        couple(one(), network(4_097, 0)),
        couple(network(2, 8_193), one()),
        couple(one(), network(2, 8_193)),
    ]
}

/// Journals that are within the capacities each, and together within, just within, or not.
fn together() -> Vec<Couple> {
    let sizes = [
        ([2_100, 0], [1_996, 0], 3),
        ([2_100, 0], [1_997, 0], 3),
        ([2_100, 9], [2_000, 5], 1),
        ([4_096, 0], [4_096, 0], 2),
        ([3, 4_200], [2, 3_990], 2),
        ([3, 4_200], [2, 3_991], 2),
        ([3, 4_200], [2, 3_992], 0),
        ([2, 4_200], [3, 4_200], 1),
        ([1, 0], [2, 8_192], 0),
        ([2, 8_192], [1, 0], 1),
    ];
    sizes
        .into_iter()
        .map(|(first, second, count)| {
            let label = format!("{first:?} and {second:?}, {count} seams");
            let one = network(first[0], first[1]);
            let result = [one.clone(), behind(first[0], second[0], second[1])].concat();
            let result = [result, sewn(count, first[0])].concat();
            let other = network(second[0], second[1]);
            Couple::new(&label, one, other).asked(Joining::by(seams(count)).gives(result))
        })
        .collect()
}
