//! Journals whose rewriting is known beforehand, worked out by hand from document 02's seventh request:
//! each 02 becomes 0B with its span number plus 1 as duct. The number is the count of 02 before it in the
//! text, also where a run would stop earlier.

use crate::cases::{unhex, Case};
use crate::engine::{Rewriting, LONGEST_JOURNAL, MOST_CABINETS, MOST_SPANS};
use crate::histories::TRIANGLE;
use crate::journals::{unknown_bytes, Writer, COMMANDS};
use crate::layouts;
use crate::random::Random;

/// What a journal is, its bytes, and the result.
type Known = (&'static str, &'static str, &'static str);

const REWRITTEN: [Known; 16] = [
    ("empty journal", "", ""),
    ("01 alone", "01", "01"),
    ("0F alone", "0F", "0F"),
    (
        "every command but 02 and 0B",
        "01 01 03 0000 04 0000 05 0000 0001 06 0000 0001 07 0000 0001 08 0000 09 0000 0A 0000 \
         0C 0000 0001 0D 0000 0001 0005 0E 0000 0F",
        "01 01 03 0000 04 0000 05 0000 0001 06 0000 0001 07 0000 0001 08 0000 09 0000 0A 0000 \
         0C 0000 0001 0D 0000 0001 0005 0E 0000 0F",
    ),
    ("02 alone", "02 0000 0001", "0B 0000 0001 0001"),
    ("one span", "01 01 02 0000 0001", "01 01 0B 0000 0001 0001"),
    (
        "two spans, there and back",
        "01 01 02 0000 0001 02 0001 0000",
        "01 01 0B 0000 0001 0001 0B 0001 0000 0002",
    ),
    ("triangle", TRIANGLE, "01 01 01 0B 0000 0001 0001 0B 0001 0002 0002 0B 0002 0000 0003"),
    // Neither the commands between nor the cabinets count.
    (
        "spans with other commands between",
        "01 01 02 0000 0001 03 0000 01 02 0001 0002 08 0000 0F 02 0002 0000",
        "01 01 0B 0000 0001 0001 03 0000 01 0B 0001 0002 0002 08 0000 0F 0B 0002 0000 0003",
    ),
    (
        "every command but 0B, each behind a span",
        "02 0001 0000 01 02 0001 0000 03 0000 02 0001 0000 04 0000 02 0001 0000 05 0000 0001 \
         02 0001 0000 06 0000 0001 02 0001 0000 07 0000 0001 02 0001 0000 08 0000 \
         02 0001 0000 09 0000 02 0001 0000 0A 0000 02 0001 0000 0C 0000 0001 \
         02 0001 0000 0D 0000 0001 0005 02 0001 0000 0E 0000 02 0001 0000 0F",
        "0B 0001 0000 0001 01 0B 0001 0000 0002 03 0000 0B 0001 0000 0003 04 0000 \
         0B 0001 0000 0004 05 0000 0001 0B 0001 0000 0005 06 0000 0001 \
         0B 0001 0000 0006 07 0000 0001 0B 0001 0000 0007 08 0000 0B 0001 0000 0008 09 0000 \
         0B 0001 0000 0009 0A 0000 0B 0001 0000 000A 0C 0000 0001 \
         0B 0001 0000 000B 0D 0000 0001 0005 0B 0001 0000 000C 0E 0000 0B 0001 0000 000D 0F",
    ),
    // A run refuses the first of these already: equal cabinets, unknown ones, or both.
    (
        "spans that a run refuses",
        "02 0000 0000 02 0005 0006 01 02 0000 0000 02 FFFF FFFF 02 0000 0009",
        "0B 0000 0000 0001 0B 0005 0006 0002 01 0B 0000 0000 0003 0B FFFF FFFF 0004 \
         0B 0000 0009 0005",
    ),
    (
        "spans behind a span of equal cabinets",
        "01 01 02 0001 0001 02 0000 0001 02 0000 0001",
        "01 01 0B 0001 0001 0001 0B 0000 0001 0002 0B 0000 0001 0003",
    ),
    (
        "spans behind an unknown span and equal cabinets",
        "08 0007 02 0000 0001 0C 0000 0000 02 0001 0000",
        "08 0007 0B 0000 0001 0001 0C 0000 0000 0B 0001 0000 0002",
    ),
    (
        "spans behind a cabinet marked twice",
        "01 01 09 0000 09 0000 02 0000 0001",
        "01 01 09 0000 09 0000 0B 0000 0001 0001",
    ),
    // No 0B is a command here, and no 02 among operands is one.
    (
        "commands for operands",
        "02 0202 0B0B 03 0B02 0D 0B02 020B 0202 02 0B0B 0202",
        "0B 0202 0B0B 0001 03 0B02 0D 0B02 020B 0202 0B 0B0B 0202 0002",
    ),
    (
        "records of spans by their numbers",
        "01 01 02 0000 0001 0D 0000 0001 0005 02 0000 0001 0D 0001 0002 0006 0E 0001",
        "01 01 0B 0000 0001 0001 0D 0000 0001 0005 0B 0000 0001 0002 0D 0001 0002 0006 0E 0001",
    ),
];

/// What a journal is, its bytes, and the number and the place with which it is refused, whatever the
/// output buffer.
type Refused = (&'static str, &'static str, [u32; 2]);

const REFUSED: [Refused; 26] = [
    ("0B alone", "0B 0000 0001 0005", [15, 0]),
    ("0B behind a span", "01 01 02 0000 0001 0B 0000 0001 0001", [15, 7]),
    ("0B before a span", "01 01 0B 0000 0001 0001 02 0000 0001", [15, 2]),
    (
        "15 at the first 0B of three",
        "01 01 0B 0000 0001 0005 02 0000 0001 0B 0001 0000 0006 01 0B 0000 0001 0005",
        [15, 2],
    ),
    ("0B that a run refuses for its duct", "01 01 0B 0000 0001 0000", [15, 2]),
    ("0B that a run refuses for its cabinets", "0B 0007 0007 0001 01", [15, 0]),
    ("0B behind a command that a run refuses", "08 0007 0B 0000 0001 0001", [15, 3]),
    ("0B behind 0B for operands", "03 0B0B 02 0B0B 0B0B 0B 0000 0001 0001", [15, 8]),
    ("unknown byte", "02 0000 0001 10", [4, 5]),
    ("unknown byte first", "FF 02 0000 0001", [4, 0]),
    ("unknown byte, then 0B", "01 FF 0B 0000 0001 0001", [4, 1]),
    ("two unknown bytes", "01 00 FF", [4, 1]),
    ("4 behind 0B", "0B 0000 0001 0005 10", [4, 7]),
    ("4 behind 0B and a span", "01 0B 0000 0001 0005 02 0000 0001 00", [4, 13]),
    ("4 behind two 0B", "0B 0000 0001 0005 0B 0000 0001 0006 FF 02 00", [4, 14]),
    ("4 behind a command that a run refuses", "02 0000 0000 8B 0000", [4, 5]),
    ("02 cut off", "02 0000 00", [5, 0]),
    ("02 cut off behind a span", "01 02 0000 0001 02 0000", [5, 6]),
    ("02 without operands", "01 01 02", [5, 2]),
    ("5 behind 0B", "0B 0000 0001 0005 02 0000", [5, 7]),
    ("5 behind 0B and a span", "01 0B 0000 0001 0005 02 0000 0001 03", [5, 13]),
    ("0B cut off", "0B 0000 0001", [5, 0]),
    ("0B with half a duct", "01 0B 0000 0001 00", [5, 1]),
    ("0B cut off behind 0B", "01 0B 0000 0001 0001 0B 0000 0001 00", [5, 8]),
    ("5 behind a command that a run refuses", "02 0007 0007 0D 0000 0001 00", [5, 5]),
    ("the length of a 02 taken for that of a 0B", "01 01 0B 0000 0001", [5, 2]),
];

/// What stands before a damaged place, and how many bytes that is.
const BEFORE: [(&str, u32); 4] = [
    ("", 0),
    ("01 01 02 0000 0001", 7),
    ("0B 0000 0001 0005", 7),
    ("01 0B 0000 0001 0005 02 0000 0001", 13),
];

/// All of them.
pub fn known() -> Vec<Case> {
    let parts = [small(), refused(), damaged(), two_bytes(), longest(), too_long(), long_refused()];
    parts.into_iter().flatten().collect()
}

/// A journal with its result: with room to the byte and more, and with a byte less, where a byte is
/// needed.
fn around(label: &str, journal: &[u8], result: &[u8]) -> Vec<Case> {
    let taken = result.len();
    let case = || Case::with_room(label, 2, 64, journal.to_vec(), 0);
    let mut cases = Vec::new();
    for room in [taken, taken + 100] {
        let told = Rewriting::accepted(journal, taken);
        cases.push(case().rewrites(room, told, result.to_vec()));
    }
    if let Some(less) = taken.checked_sub(1) {
        cases.push(case().rewrites(less, Rewriting::refused(16, 0), Vec::new()));
    }
    cases
}

/// A journal that is refused with this number and place, whatever the room.
fn refused_at(label: &str, journal: &[u8], [number, place]: [u32; 2]) -> Vec<Case> {
    let rooms = [0, 2 * journal.len()];
    let case = |room: usize| {
        let told = Rewriting { number, place, length: 0 };
        Case::with_room(label, 2, 64, journal.to_vec(), 0).rewrites(room, told, Vec::new())
    };
    rooms.into_iter().map(case).collect()
}

fn small() -> Vec<Case> {
    let cases = |(label, journal, result): Known| around(label, &unhex(journal), &unhex(result));
    REWRITTEN.into_iter().flat_map(cases).collect()
}

fn refused() -> Vec<Case> {
    let cases = |(label, journal, told): Refused| refused_at(label, &unhex(journal), told);
    REFUSED.into_iter().flat_map(cases).collect()
}

/// Every unknown byte and every cut of each command, behind each of the beginnings: a 0B before does not
/// matter.
fn damaged() -> Vec<Case> {
    let mut cases = Vec::new();
    for (before, place) in BEFORE {
        let behind = |bytes: &[u8]| [&unhex(before), bytes].concat();
        let case = |journal: Vec<u8>, number| {
            let told = Rewriting { number, place, length: 0 };
            let room = 2 * journal.len();
            Case::with_room("damaged", 2, 64, journal, 0).rewrites(room, told, Vec::new())
        };
        for byte in unknown_bytes() {
            cases.push(case(behind(&[byte]), 4));
            cases.push(case(behind(&[byte, 0, 0, 0, 1, 0x0B]), 4));
        }
        for (byte, operands) in COMMANDS {
            for kept in 0..2 * operands {
                cases.push(case(behind(&[vec![byte], vec![0; kept]].concat()), 5));
            }
        }
    }
    cases
}

/// So many spans by 02, and what becomes of them.
fn spans(count: u16) -> (Vec<u8>, Vec<u8>) {
    let result = |number: u16| {
        let [high, low] = (number + 1).to_be_bytes();
        [0x0B, 0, 0, 0, 1, high, low]
    };
    let journal = [0x02, 0, 0, 0, 1].repeat(count.into());
    (journal, (0..count).flat_map(result).collect())
}

/// Ducts 255, 256 and 257, and up to 300, with cabinets before and between.
fn two_bytes() -> Vec<Case> {
    let mut cases = Vec::new();
    for count in [254, 255, 256, 257, 300] {
        let (journal, result) = spans(count);
        let before = |bytes: Vec<u8>| [vec![0x01; 2], bytes, vec![0x0F]].concat();
        cases.extend(around("ducts of two bytes", &before(journal), &before(result)));
    }
    cases
}

/// Results of 65,536 bytes, and of one to some thousand more: 9,362 spans become 65,534 bytes.
fn longest() -> Vec<Case> {
    let with = |(journal, result): (Vec<u8>, Vec<u8>), cabinets: usize| {
        let ends = vec![0x01; cabinets];
        ([journal, ends.clone()].concat(), [result, ends].concat())
    };
    let mut cases = Vec::new();
    let exactly = [
        with(spans(9_362), 2),
        with(spans(1), 65_529),
        with(spans(0), 65_536),
        with(spans(8_192), 8_192),
    ];
    for (journal, result) in exactly {
        assert_eq!(result.len(), LONGEST_JOURNAL, "65,536 bytes");
        cases.extend(around("a result of 65,536 bytes", &journal, &result));
    }
    let too_many = [
        (with(spans(9_362), 3), 65_537),
        (with(spans(1), 65_530), 65_537),
        (with(spans(1), 65_531), 65_538),
        (with(spans(9_363), 0), 65_541),
        (with(spans(13_107), 1), 91_750),
    ];
    for ((journal, result), taken) in too_many {
        assert_eq!(result.len(), taken, "the bytes that it would take");
        for room in [taken, 100_000] {
            let case = Case::with_room("a result too long", 2, 64, journal.clone(), 0);
            cases.push(case.rewrites(room, Rewriting::refused(16, 0), Vec::new()));
        }
    }
    cases
}

/// 3 comes before all else.
fn too_long() -> Vec<Case> {
    let longer = LONGEST_JOURNAL + 1;
    let in_duct = [unhex("0B 0000 0001 0001"), vec![0x01; longer - 7]].concat();
    let cut_off = [spans(13_107).0, vec![0x02, 0x00]].concat();
    let journals = [vec![0x01; longer], vec![0x00; longer], vec![0x01; 100_000], in_duct, cut_off];
    journals.iter().flat_map(|journal| refused_at("65,537 bytes", journal, [3, 0])).collect()
}

/// 15 comes before 16, where the result is longer than the output buffer and where it is longer than
/// 65,536 bytes; 4 and 5 come before both.
fn long_refused() -> Vec<Case> {
    let mut cases = Vec::new();
    let in_duct = unhex("0B 0000 0001 0001");
    for (count, place) in [(9_360, 46_800), (13_105, 65_525)] {
        let journal = [spans(count).0, in_duct.clone()].concat();
        cases.extend(refused_at("15 behind many spans", &journal, [15, place]));
        let unknown = [journal.clone(), vec![0x10]].concat();
        cases.extend(refused_at("4 behind all", &unknown, [4, place + 7]));
        let cut = [journal, vec![0x02, 0x00]].concat();
        cases.extend(refused_at("5 behind all", &cut, [5, place + 7]));
    }
    let before = [in_duct, spans(13_105).0].concat();
    cases.extend(refused_at("15 before many spans", &before, [15, 0]));
    cases
}

/// 4,096 cabinets and 8,190 spans by 02, the first of them doubled, with as many questions about two
/// cabinets as the result has bytes for.
pub fn greatest() -> Case {
    let mut random = Random::new(11);
    let cabinets = MOST_CABINETS as usize;
    let mut writer = Writer::new();
    writer.enter(&layouts::doubling(&mut random, cabinets, 2));
    let added = 2 * writer.spans.len();
    while writer.bytes.len() + added + 5 <= LONGEST_JOURNAL {
        let a = random.below(cabinets);
        let b = (a + random.between(1, cabinets - 1)) % cabinets;
        writer.command(*random.pick(&[0x05, 0x06, 0x07]), &[a, b]);
    }
    let label = "greatest size, rewritten";
    Case::with_room(label, MOST_CABINETS, MOST_SPANS, writer.bytes, 8 << 20).returns(0)
}
