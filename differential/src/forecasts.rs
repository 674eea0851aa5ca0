//! Journals whose forecast is known beforehand, worked out by hand from document 02's first request
//! and from what its second request has 09, 0A and 0F answer: 1, 2 and 3 bytes. Command 0B of its
//! third request counts as a span command, so it lengthens what 02 lengthens. Command 0C of its fifth
//! counts 5 and 2 for each span command. Of its sixth, 0D counts 1 and 0E counts 4. By its eighth, 03 and
//! 04 count 5 each.

use crate::cases::{unhex, Case};
use crate::engine::LONGEST_JOURNAL;
use crate::histories::TRIANGLE;
use crate::journals::{operand_count, unknown_bytes, Writer, COMMANDS};

/// What a journal is, its bytes, and its forecast: number, place and length.
type Known = (&'static str, &'static str, [u32; 3]);

const SMALL: [Known; 41] = [
    ("empty journal", "", [0, 0, 0]),
    ("01 alone", "01", [0, 1, 3]),
    ("02 alone", "02 0000 0001", [0, 5, 7]),
    ("03 alone", "03 0000", [0, 3, 5]),
    ("04 alone", "04 0000", [0, 3, 5]),
    ("05 alone", "05 0000 0001", [0, 5, 4]),
    ("06 alone", "06 0000 0000", [0, 5, 3]),
    ("07 alone", "07 0000 0000", [0, 5, 3]),
    ("08 alone", "08 0000", [0, 3, 2]),
    ("09 alone", "09 0000", [0, 3, 1]),
    ("0A alone", "0A 0000", [0, 3, 2]),
    ("0B alone", "0B 0000 0001 0005", [0, 7, 7]),
    ("0C alone", "0C 0000 0001", [0, 5, 5]),
    ("0D alone", "0D 0000 0001 0005", [0, 7, 1]),
    ("0E alone", "0E 0000", [0, 3, 4]),
    ("0F alone", "0F", [0, 1, 3]),
    ("an exchange and the questions about it", "01 09 0000 0A 0000 0F", [0, 8, 9]),
    ("triangle", TRIANGLE, [0, 18, 75]),
    ("a cabinet is no span: 06 with one cabinet", "01 06 0000 0000", [0, 6, 6]),
    ("a span is no cabinet: 07 with one span", "02 0000 0001 07 0000 0000", [0, 10, 10]),
    (
        "every command, all accepted",
        "01 01 02 0000 0001 0B 0001 0000 0005 03 0000 04 0001 05 0000 0001 06 0000 0001 \
         07 0000 0001 08 0000 09 0000 0A 0001 0C 0000 0001 0D 0000 0001 0005 0E 0000 0F",
        [0, 60, 100],
    ),
    ("06 before the spans that it counts", "06 0000 0001 02 0000 0001 02 0000 0001", [0, 15, 31]),
    ("07 before the cabinets that it counts", "07 0000 0001 01 01 01", [0, 8, 48]),
    (
        "every command, the questions first",
        "0F 0E 0000 0D 0000 0001 0005 0C 0000 0001 0A 0000 09 0000 08 0000 07 0000 0001 \
         06 0000 0001 05 0000 0001 04 0000 03 0000 02 0000 0001 02 0000 0001 0B 0000 0001 0005 \
         01 01 01 01 01",
        [0, 68, 211],
    ),
    ("an exchange lengthens no list", "09 0000 09 0001 06 0000 0001 07 0000 0001", [0, 16, 8]),
    ("unknown bytes for operands", "03 FFFF 05 1010 0000 09 1011 0A 1000 0F 01", [0, 16, 18]),
    // s is 2: 14, and 5 × 2 × L(2).
    ("02 and 0B are both span commands", "02 0000 0001 0B 0000 0001 0005", [0, 12, 24]),
    // s is 4, of which three are mates: 28, 5 × 4 × L(4), and 3 + 2 × 4 for 06.
    (
        "06 counts every mate",
        "0B 0000 0001 0005 0B 0000 0001 0005 06 0000 0001 0B 0001 0000 0005 02 0000 0001",
        [0, 31, 79],
    ),
    // s is 1 and c is 0: 7, then 3 + 2 and 3.
    ("0B is no cabinet", "0B 0000 0001 0005 06 0000 0001 07 0000 0001", [0, 17, 15]),
    // A forecast knows nothing of 6, 8 and 13.
    ("0B that a run refuses", "0B 0007 0007 0000", [0, 7, 7]),
    // s is 3, of which two are mates: 21, 5 × 3 × L(3), and 5 + 2 × 3 for 0C.
    (
        "0C counts every span, and every mate",
        "0C 0000 0001 02 0000 0001 0B 0000 0001 0005 0B 0000 0001 0005",
        [0, 24, 47],
    ),
    // c is 3 and s is 0: 9, 5 × 2 × 3 × L(3), and 5 for 0C.
    ("a cabinet is no span: 0C with three cabinets", "01 01 01 0C 0000 0001", [0, 8, 44]),
    // A forecast knows nothing of 6, 8 and 14.
    ("0C that a run refuses", "0C 0007 0007 01 01 0C 0000 0001", [0, 12, 36]),
    ("commands for operands of 0C", "0C 0102 0B0C 01", [0, 6, 8]),
    ("a record and the question about it", "0D 0000 0001 0005 0E 0000", [0, 10, 5]),
    // A second record of a span counts as the first, whatever its day.
    ("records of one day", "0D 0000 0001 0005 0D 0000 0001 0005 0D 0000 0000 0005", [0, 21, 3]),
    // s and c are 0: 3 for 06, 3 for 07 and 5 for 0C.
    (
        "a record is no span and no cabinet",
        "0D 0000 0001 0005 0D 0001 0001 0005 06 0000 0001 07 0000 0001 0C 0000 0001",
        [0, 29, 13],
    ),
    // A forecast knows nothing of 7.
    ("0D and 0E that a run refuses", "0D 0007 0001 0005 0E 0007", [0, 10, 5]),
    ("commands for operands of 0D", "0D 0102 0B0F 0101 01", [0, 8, 4]),
    ("commands for operands of 0E", "0E 0D0E 01", [0, 4, 7]),
    // 0B with the bytes of other commands as operands, then 01.
    ("commands for operands of 0B", "0B 0102 0B0F 0101 01", [0, 8, 10]),
];

/// Journals of one command alone: its byte, how often it stands there, the place and the length.
const ALIKE: [(u8, usize, u32, u32); 52] = [
    (0x01, 2, 2, 26),
    (0x01, 3, 3, 39),
    (0x01, 4, 4, 92),
    (0x01, 7, 7, 161),
    (0x01, 8, 8, 264),
    (0x01, 255, 255, 18_615),
    (0x01, 256, 256, 21_248),
    (0x01, 4_095, 4_095, 462_735),
    (0x01, 4_096, 4_096, 503_808),
    (0x01, 32_767, 32_767, 4_685_681),
    (0x01, 32_768, 32_768, 5_013_504),
    (0x01, 65_535, 65_535, 10_026_855),
    (0x01, 65_536, 65_536, 10_682_368),
    (0x02, 2, 10, 24),
    (0x02, 3, 15, 36),
    (0x02, 4, 20, 68),
    (0x02, 7, 35, 119),
    (0x02, 8, 40, 176),
    (0x02, 8_191, 40_955, 548_797),
    (0x02, 8_192, 40_960, 589_824),
    (0x02, 13_107, 65_535, 943_704),
    (0x03, 4, 12, 20),
    (0x03, 21_845, 65_535, 109_225),
    (0x04, 4, 12, 20),
    (0x04, 21_845, 65_535, 109_225),
    (0x05, 13_107, 65_535, 52_428),
    (0x06, 4, 20, 12),
    (0x06, 13_107, 65_535, 39_321),
    (0x07, 4, 20, 12),
    (0x07, 13_107, 65_535, 39_321),
    (0x08, 21_845, 65_535, 43_690),
    (0x09, 4, 12, 4),
    (0x09, 21_845, 65_535, 21_845),
    (0x0A, 4, 12, 8),
    (0x0A, 21_845, 65_535, 43_690),
    (0x0B, 2, 14, 24),
    (0x0B, 3, 21, 36),
    (0x0B, 4, 28, 68),
    (0x0B, 7, 49, 119),
    (0x0B, 8, 56, 176),
    (0x0B, 4_096, 28_672, 274_432),
    (0x0B, 8_191, 57_337, 548_797),
    (0x0B, 8_192, 57_344, 589_824),
    (0x0B, 9_362, 65_534, 674_064),
    (0x0C, 4, 20, 20),
    (0x0C, 13_107, 65_535, 65_535),
    (0x0D, 4, 28, 4),
    (0x0D, 9_362, 65_534, 9_362),
    (0x0E, 4, 12, 16),
    (0x0E, 21_845, 65_535, 87_380),
    (0x0F, 4, 4, 12),
    (0x0F, 65_536, 65_536, 196_608),
];

/// A damaged journal, what it is, and its bytes; the number and the place of its forecast; the
/// answers and the report of its run.
type Damaged = (&'static str, &'static str, [u32; 2], &'static str, [u32; 6]);

const DAMAGED: [Damaged; 20] = [
    ("02 00 00 alone", "02 00 00", [5, 0], "", [5, 0, 0, 0, 0, 0]),
    (
        "02 00 00 behind accepted commands",
        "01 01 02 0000 0001 02 00 00",
        [5, 7],
        "81 0000 81 0001 82 0000 0000 0001 01 0001 0000",
        [5, 7, 3, 18, 2, 1],
    ),
    ("damaged twice", "01 FF 02 00", [4, 1], "81 0000", [4, 1, 1, 3, 1, 0]),
    ("unknown byte behind an unknown span", "08 0005 FF", [4, 3], "", [7, 0, 0, 0, 0, 0]),
    ("cut off behind unknown cabinets", "02 0000 0001 03 00", [5, 5], "", [6, 0, 0, 0, 0, 0]),
    (
        "unknown byte behind equal cabinets",
        "01 02 0000 0000 00",
        [4, 6],
        "81 0000",
        [8, 1, 1, 3, 1, 0],
    ),
    (
        "cut off behind two districts",
        "01 01 06 0000 0001 02 0000 00",
        [5, 7],
        "81 0000 81 0001",
        [10, 2, 2, 6, 2, 0],
    ),
    (
        "cut off behind a cabinet marked twice",
        "01 09 0000 09 0000 0A 00",
        [5, 7],
        "81 0000 89",
        [12, 4, 2, 4, 1, 0],
    ),
    (
        "unknown byte behind a cabinet marked twice",
        "01 09 0000 09 0000 10",
        [4, 7],
        "81 0000 89",
        [12, 4, 2, 4, 1, 0],
    ),
    ("unknown byte behind a full register", "01 01 10", [4, 2], "81 0000", [9, 1, 1, 3, 1, 0]),
    (
        "unknown byte behind duct 0",
        "01 01 0B 0000 0001 0000 8B",
        [4, 9],
        "81 0000 81 0001",
        [13, 2, 2, 6, 2, 0],
    ),
    (
        "cut off behind duct 0",
        "01 01 0B 0000 0001 0000 0B 0000 0001 00",
        [5, 9],
        "81 0000 81 0001",
        [13, 2, 2, 6, 2, 0],
    ),
    ("a duct of one byte", "01 0B 0000 0000 00", [5, 1], "81 0000", [5, 1, 1, 3, 1, 0]),
    (
        "unknown byte behind two rings",
        "01 01 0C 0000 0001 8C",
        [4, 7],
        "81 0000 81 0001",
        [14, 2, 2, 6, 2, 0],
    ),
    (
        "cut off behind two rings",
        "01 01 0C 0000 0001 0C 0000 00",
        [5, 7],
        "81 0000 81 0001",
        [14, 2, 2, 6, 2, 0],
    ),
    (
        "unknown byte behind a record of no span",
        "0D 0000 0001 0005 8D",
        [4, 7],
        "",
        [7, 0, 0, 0, 0, 0],
    ),
    (
        "cut off behind a record of no span",
        "0D 0000 0001 0005 0E 00",
        [5, 7],
        "",
        [7, 0, 0, 0, 0, 0],
    ),
    (
        "unknown byte behind a length of no span",
        "01 0E 0000 8E",
        [4, 4],
        "81 0000",
        [7, 1, 1, 3, 1, 0],
    ),
    ("metres of one byte", "01 0D 0000 0001 00", [5, 1], "81 0000", [5, 1, 1, 3, 1, 0]),
    ("10 is none yet", "01 10 0000 0001", [4, 1], "81 0000", [4, 1, 1, 3, 1, 0]),
];

/// What stands before a damaged place, and how many bytes that is: nothing, commands that a run
/// accepts, and one that it refuses.
const BEFORE: [(&str, u32); 3] = [("", 0), ("01 01 02 0000 0001", 7), ("08 0005", 3)];

/// All of them.
pub fn known() -> Vec<Case> {
    let parts = [small(), alike(), longest(), too_long(), damaged(), unknown(), cut_off()];
    parts.into_iter().flatten().collect()
}

fn small() -> Vec<Case> {
    let case = |(label, journal, forecast): Known| {
        Case::new(label, 256, 512, unhex(journal)).forecasts(forecast)
    };
    SMALL.into_iter().map(case).collect()
}

/// A case that is refused at the start for its capacities, as far as its own run goes: the one with
/// the room that is forecast has the greatest.
fn without_capacities(label: &str, journal: Vec<u8>) -> Case {
    Case::with_room(label, 0, 0, journal, 0).returns(1)
}

/// So many commands with this byte.
fn repeated(byte: u8, count: usize) -> Vec<u8> {
    let operands = &[0, 1, 5][..operand_count(byte)];
    let mut writer = Writer::new();
    (0..count).for_each(|_| writer.command(byte, operands));
    writer.bytes
}

fn alike() -> Vec<Case> {
    let case = |(byte, count, place, length): (u8, usize, u32, u32)| {
        let label = format!("{byte:02x} alone, {count} times");
        without_capacities(&label, repeated(byte, count)).forecasts([0, place, length])
    };
    ALIKE.into_iter().map(case).collect()
}

/// Journals of 65,536 bytes: some that a run accepts, one with the longest lists.
fn longest() -> Vec<Case> {
    let names = [repeated(0x01, 1), repeated(0x03, 21_845)].concat();
    let fed = [repeated(0x01, 1), repeated(0x09, 1), repeated(0x0A, 21_844)].concat();
    let shares = [repeated(0x01, 1), repeated(0x0F, 65_535)].concat();
    let spans = [repeated(0x01, 2), repeated(0x02, 1)].concat();
    let records = [spans.clone(), repeated(0x0D, 9_361), repeated(0x0F, 2)].concat();
    let lengths = [spans, repeated(0x0E, 21_843)].concat();
    let lists = [repeated(0x01, 32_771), repeated(0x07, 6_553)].concat();
    let sole = [repeated(0x0B, 4_681), repeated(0x06, 6_553), repeated(0x01, 4)].concat();
    let routes = [repeated(0x02, 6_553), repeated(0x0C, 6_554), repeated(0x01, 1)].concat();
    vec![
        // 3, and 21,845 × 5.
        Case::new("65,536 bytes", 1, 1, names).returns(0).forecasts([0, 65_536, 109_228]),
        Case::new("65,536 bytes, 0A", 1, 1, fed).returns(0).forecasts([0, 65_536, 43_692]),
        Case::new("65,536 bytes, 0F", 1, 1, shares).returns(0).forecasts([0, 65_536, 196_608]),
        // 6, 7, 5 × 2 × 2, 9,361, and 2 × 3.
        Case::new("65,536 bytes, 0D", 2, 1, records).returns(0).forecasts([0, 65_536, 9_400]),
        // 6, 7, 5 × 2 × 2, and 21,843 × 4.
        Case::new("65,536 bytes, 0E", 2, 1, lengths).returns(0).forecasts([0, 65_536, 87_405]),
        without_capacities("65,536 bytes, long lists", lists).forecasts([0, 65_536, 434_530_348]),
        without_capacities("65,536 bytes, 0B and 06", sole).forecasts([0, 65_536, 61_682_564]),
        // 3, 7 × 6,553, 5 × 6,553 × 12, and 6,554 × (5 + 2 × 6,553).
        without_capacities("65,536 bytes, 02 and 0C", routes).forecasts([0, 65_536, 86_368_548]),
    ]
}

/// 3 comes before 4 and 5.
fn too_long() -> Vec<Case> {
    let cut_off = [repeated(0x02, 13_107), vec![0x02, 0x00]].concat();
    let longer = LONGEST_JOURNAL + 1;
    let journals = [vec![0x01; longer], vec![0x00; longer], vec![0xFF; longer], cut_off];
    let case = |journal| {
        Case::with_room("65,537 bytes", 1, 1, journal, 100).returns(3).forecasts([3, 0, 0])
    };
    journals.into_iter().map(case).collect()
}

/// Each with the report of its run, also where that stops earlier for another cause.
fn damaged() -> Vec<Case> {
    let case = |(label, journal, [number, place], answers, report): Damaged| {
        let c = if report[0] == 9 { 1 } else { 256 };
        let case = Case::with_room(label, c, 512, unhex(journal), 0);
        case.leaves(unhex(answers), report).forecasts([number, place, 0])
    };
    let mut cases: Vec<Case> = DAMAGED.into_iter().map(case).collect();
    let no_room = Case::with_room("unknown byte behind no room", 1, 1, unhex("01 FF"), 0);
    cases.push(no_room.returns(11).forecasts([4, 1, 0]));
    cases
}

/// These bytes, of which the first is damaged, behind each of the beginnings.
fn behind_each(label: &str, bytes: &[u8], number: u32) -> [Case; 3] {
    BEFORE.map(|(before, place)| {
        let journal = [&unhex(before), bytes].concat();
        Case::new(label, 256, 512, journal).forecasts([number, place, 0])
    })
}

fn unknown() -> Vec<Case> {
    let mut cases = Vec::new();
    for byte in unknown_bytes() {
        cases.extend(behind_each("unknown byte", &[byte], 4));
        cases.extend(behind_each("unknown byte and more", &[byte, 0, 0, 0, 0, 0x01], 4));
    }
    cases
}

fn cut_off() -> Vec<Case> {
    let mut cases = Vec::new();
    for (byte, _) in COMMANDS {
        let whole = repeated(byte, 1);
        for kept in 1..whole.len() {
            cases.extend(behind_each("cut off", &whole[..kept], 5));
        }
    }
    cases
}
