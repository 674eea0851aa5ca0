//! Joinings known beforehand, worked out by hand from document 02's ninth request.

use super::case::{Couple, Joining};
use super::histories;
use crate::cases::{unhex, Room};
use crate::compare::join::BEYOND;
use crate::engine::join::{Seam, JOIN_WORK};

/// What the two journals are, their bytes, the seams, and the result.
type Known = (&'static str, [&'static str; 2], &'static [[u16; 3]], &'static str);

/// Three cabinets and one span.
const CHAIN: &str = "01 01 01 02 0000 0001";

/// Two cabinets that share a ring, with every command.
const EVERY: &str =
    "01 01 02 0001 0000 03 0001 04 0000 05 0000 0001 06 0001 0000 07 0000 0001 08 0000 \
                     09 0001 0A 0000 0B 0000 0001 0007 0C 0001 0000 0D 0001 0002 0003 0E 0000 0F";

/// The same behind three cabinets and one span.
const EVERY_RAISED: &str =
    "01 01 02 0004 0003 03 0004 04 0003 05 0003 0004 06 0004 0003 07 0003 0004 \
                            08 0001 09 0004 0A 0003 0B 0003 0004 0007 0C 0004 0003 \
                            0D 0002 0002 0003 0E 0001 0F";

const JOINED: [Known; 15] = [
    ("both empty", ["", ""], &[], ""),
    ("the first empty", ["", CHAIN], &[], CHAIN),
    ("the second empty", [CHAIN, ""], &[], CHAIN),
    ("one cabinet each", ["01", "01"], &[], "01 01"),
    ("one cabinet each and a seam", ["01", "01"], &[[0, 0, 1]], "01 01 0B 0000 0001 0001"),
    (
        "equal seams",
        ["01", "01 01"],
        &[[0, 1, 5], [0, 1, 5], [0, 0, 5], [0, 1, 5]],
        "01 01 01 0B 0000 0002 0005 0B 0000 0002 0005 0B 0000 0001 0005 0B 0000 0002 0005",
    ),
    (
        "the last cabinets, and ducts of two bytes",
        [CHAIN, "01 01"],
        &[[2, 1, 0xFFFF], [0, 0, 0x0100], [2, 0, 0x00FF]],
        "01 01 01 02 0000 0001 01 01 0B 0002 0004 FFFF 0B 0000 0003 0100 0B 0002 0003 00FF",
    ),
    (
        "no share, no mesh, no length in the second",
        [CHAIN, "0F 01 01 05 0000 0001 02 0000 0001 0E 0000 0F 01 05 0002 0000 0F"],
        &[],
        "01 01 01 02 0000 0001 0F 01 01 05 0003 0004 02 0003 0004 0E 0001 0F 01 05 0005 0003 0F",
    ),
    (
        "spans of 0B counted, and of no other command",
        ["01 01 02 0000 0001 0B 0000 0001 0002 0D 0001 0001 0001 08 0000 0B 0001 0000 0002", EVERY],
        &[],
        "01 01 02 0000 0001 0B 0000 0001 0002 0D 0001 0001 0001 08 0000 0B 0001 0000 0002 \
         01 01 02 0003 0002 03 0003 04 0002 05 0002 0003 06 0003 0002 07 0002 0003 08 0003 \
         09 0003 0A 0002 0B 0002 0003 0007 0C 0003 0002 0D 0004 0002 0003 0E 0003 0F",
    ),
    (
        "commands for operands in the first",
        ["01 01 0B 0000 0001 0101 0D 0000 0102 010B 0F", "01 01 0B 0000 0001 0102 08 0000"],
        &[[1, 1, 0x0101]],
        "01 01 0B 0000 0001 0101 0D 0000 0102 010B 0F 01 01 0B 0002 0003 0102 08 0001 \
         0B 0001 0003 0101",
    ),
    (
        "questions alone in the first",
        ["0F 01 03 0000 04 0000 0F", "01 01 02 0000 0001 0E 0000"],
        &[[0, 1, 3]],
        "0F 01 03 0000 04 0000 0F 01 01 02 0001 0002 0E 0000 0B 0000 0002 0003",
    ),
    (
        "spans of one pair in the second, and records on days and of metres like numbers",
        [CHAIN, "01 01 02 0000 0001 02 0000 0001 0D 0001 0000 0001 0D 0000 0001 0000 0E 0001"],
        &[[0, 0, 1], [1, 1, 1]],
        "01 01 01 02 0000 0001 01 01 02 0003 0004 02 0003 0004 0D 0002 0000 0001 \
         0D 0001 0001 0000 0E 0002 0B 0000 0003 0001 0B 0001 0004 0001",
    ),
    (
        "marks in both",
        ["01 01 09 0000 0A 0001 0F", "01 09 0000 0F 01 09 0001 0A 0000"],
        &[[1, 0, 2]],
        "01 01 09 0000 0A 0001 0F 01 09 0002 0F 01 09 0003 0A 0002 0B 0001 0002 0002",
    ),
    (
        "greatest days and metres",
        [CHAIN, "01 01 02 0001 0000 0D 0000 FFFF FFFF 0D 0000 00FF FF00 0B 0000 0001 FFFF"],
        &[],
        "01 01 01 02 0000 0001 01 01 02 0004 0003 0D 0001 FFFF FFFF 0D 0001 00FF FF00 \
         0B 0003 0004 FFFF",
    ),
    (
        "more spans than cabinets in the first",
        [
            "01 01 02 0000 0001 02 0001 0000 0B 0000 0001 0001 0B 0000 0001 0002",
            "01 01 02 0000 0001 08 0000 06 0000 0001 05 0000 0001",
        ],
        &[[1, 0, 9]],
        "01 01 02 0000 0001 02 0001 0000 0B 0000 0001 0001 0B 0000 0001 0002 \
         01 01 02 0002 0003 08 0004 06 0002 0003 05 0002 0003 0B 0001 0002 0009",
    ),
];

/// A journal that a run refuses, one for each way.
const REFUSED: [(&str, &str); 20] = [
    ("4 at once", "00"),
    ("4 behind cabinets", "01 01 10"),
    ("4 for an answer's byte", "01 8B"),
    ("5 at once", "02"),
    ("5 for a duct cut off", "01 01 0B 0000 0001 00"),
    ("5 for a record cut off", "01 01 02 0000 0001 0D 0000 0001"),
    ("6 in an empty network", "03 0000"),
    ("6 for a cabinet behind the last", "01 01 02 0000 0002"),
    ("6 for a mark", "01 09 0001"),
    ("6 for 0C", "01 0C 0000 0001"),
    ("7 without a span", "01 01 08 0000"),
    ("7 for a record", "01 01 02 0000 0001 0D 0001 0001 0001"),
    ("7 for a length", "01 01 02 0000 0001 0E 0001"),
    ("8 for 02", "01 02 0000 0000"),
    ("8 for 0B", "01 0B 0000 0000 0001"),
    ("12", "01 09 0000 09 0000"),
    ("13", "01 01 0B 0000 0001 0000"),
    ("10 for 06", "01 01 06 0000 0001"),
    ("10 for 07", "01 01 07 0001 0000"),
    ("14", "01 01 02 0000 0001 02 0000 0001 0C 0000 0001"),
];

/// Seams that are bad, between three cabinets of the first and two of the second.
const BAD: [(&str, &[[u16; 3]]); 14] = [
    ("the cabinet behind the last of the first", &[[3, 0, 1]]),
    ("the cabinet behind the last of the second", &[[0, 2, 1]]),
    ("duct 0", &[[0, 0, 0]]),
    ("a cabinet of the first that would be one of the whole", &[[4, 0, 1]]),
    ("a cabinet of the second that is there raised", &[[0, 3, 1]]),
    ("a cabinet of the second that only the first has", &[[0, 2, 7]]),
    ("the greatest number for the first", &[[0xFFFF, 0, 1]]),
    ("the greatest number for the second", &[[0, 0xFFFF, 1]]),
    ("all three", &[[9, 9, 0]]),
    ("the first of two", &[[3, 0, 1], [0, 0, 1]]),
    ("the last of two", &[[0, 0, 1], [0, 2, 1]]),
    ("the middle of three", &[[0, 0, 1], [2, 1, 0], [1, 1, 1]]),
    ("two, for two causes", &[[0, 0, 0], [3, 0, 1]]),
    ("the last of four, equal ones before it", &[[0, 0, 5], [0, 0, 5], [0, 0, 5], [2, 1, 0]]),
];

fn seams(of: &[[u16; 3]]) -> Vec<Seam> {
    of.iter().map(|&[first, second, duct]| Seam::new(first, second, duct)).collect()
}

/// All of them.
pub fn known() -> Vec<Couple> {
    let mut known: Vec<Couple> = JOINED.into_iter().map(joined).collect();
    known.push(joined(("every command", [CHAIN, EVERY], &[[2, 1, 4]], &every())));
    known.extend(REFUSED.into_iter().flat_map(refused));
    known.extend(BAD.into_iter().map(bad));
    known.extend([without_cabinets("", ""), without_cabinets(CHAIN, "")]);
    known.extend([without_cabinets("", CHAIN), without_cabinets("0F", CHAIN)]);
    known.extend(histories::couples());
    known.push(two_bytes());
    known
}

fn every() -> String {
    format!("{CHAIN} {EVERY_RAISED} 0B 0002 0004 0004")
}

/// A result with every length of the table and of the output buffer that matters.
fn joined((label, [first, second], sewn, result): (&str, [&str; 2], &[[u16; 3]], &str)) -> Couple {
    let result = unhex(result);
    let joining = || Joining::by(seams(sewn));
    let mut couple = Couple::new(label, unhex(first), unhex(second));
    for out in [Room::Over(0), Room::Over(1), Room::Over(100)] {
        couple = couple.asked(joining().with_out(out).gives(result.clone()));
    }
    let longer = joining().with_work(JOIN_WORK + BEYOND).gives(result.clone());
    couple = couple.asked(longer).asked(joining().with_work(JOIN_WORK - 1).refused(2));
    couple = couple.asked(joining().with_out(Room::Bytes(0)).with_work(0).refused(2));
    if !result.is_empty() {
        for out in [Room::Under(1), Room::Bytes(0)] {
            couple = couple.asked(joining().with_out(out).refused(19));
        }
    }
    couple
}

/// A journal that is refused: as the first, as the second, and as both, with good and bad seams and whatever
/// the output buffer.
fn refused((label, journal): (&str, &str)) -> [Couple; 3] {
    let journals = [[journal, CHAIN], [CHAIN, journal], [journal, journal]];
    journals.map(|[first, second]| {
        let couple = Couple::new(label, unhex(first), unhex(second));
        refused_with(couple, 17, [&[], &[[0, 0, 1]], &[[0, 0, 0]]])
    })
}

/// This number comes for each of these lists of seams, with output buffers and tables of several lengths, and 2
/// before it.
fn refused_with(couple: Couple, number: u32, lists: [&[[u16; 3]]; 3]) -> Couple {
    let joining = |i: usize| Joining::by(seams(lists[i])).refused(number);
    couple
        .asked(joining(0))
        .asked(joining(1).with_out(Room::Over(30)).with_work(JOIN_WORK + 3))
        .asked(joining(2).with_out(Room::Bytes(0)))
        .asked(joining(2).with_work(JOIN_WORK - 1).refused(2))
}

fn bad((label, list): (&str, &[[u16; 3]])) -> Couple {
    refused_with(Couple::new(label, unhex(CHAIN), unhex("01 01")), 18, [list; 3])
}

/// 255 cabinets and 511 spans in the first: the numbers of the second cross the end of a byte.
fn two_bytes() -> Couple {
    let span = |i: usize| [0x02, 0, (i % 254) as u8, 0, (i % 254) as u8 + 1];
    let first: Vec<u8> = vec![0x01; 255].into_iter().chain((0..511).flat_map(span)).collect();
    let second =
        "01 01 02 0100 00FF 03 0100 04 00FF 05 00FF 0100 06 0100 00FF 07 00FF 0100 08 01FF \
                  09 0100 0A 00FF 0B 00FF 0100 0007 0C 0100 00FF 0D 0200 0002 0003 0E 01FF 0F \
                  0B 00FE 0100 00FF";
    let result = [first.clone(), unhex(second)].concat();
    let joining = Joining::by(seams(&[[0xFE, 1, 0xFF]])).gives(result);
    Couple::new("numbers that cross the end of a byte", first, unhex(EVERY)).asked(joining)
}

/// A network without cabinets: every seam is bad.
fn without_cabinets(first: &str, second: &str) -> Couple {
    let couple = Couple::new("a seam of a network without cabinets", unhex(first), unhex(second));
    refused_with(couple, 18, [&[[0, 0, 1]], &[[0, 0, 0]], &[[2, 2, 1], [0, 0, 1]]])
}
