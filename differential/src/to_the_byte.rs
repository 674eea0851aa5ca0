//! Journals whose forecast to the byte is known beforehand, worked out by hand from document 02's eleventh request
//! and from what the commands answer: 3 bytes for a cabinet, 7 for a span and 5 for each of its notices, 5 for 03
//! and 04, 4 for 05 and 0E, 3 and 2 for each item for 06 and 07, 2 for 08 and 0A, 1 for 09 and 0D, 5 and 2 for each
//! span for 0C, 3 for 0F.

use crate::cases::{unhex, Case};
use crate::engine::{work_needed, LONGEST_JOURNAL, MOST_CABINETS, MOST_SPANS};
use crate::histories::TRIANGLE;

/// What a journal is, its bytes, its place and its length, with room to spare in the capacities.
type Accepted = (&'static str, &'static str, [u32; 2]);

const ACCEPTED: [Accepted; 17] = [
    ("empty journal", "", [0, 0]),
    ("a cabinet", "01", [1, 3]),
    ("a share alone", "0F", [1, 3]),
    // 3 × 3; a district notice with each of the first two spans; two ring notices and a mesh notice with the third.
    ("triangle: notices of all three kinds", TRIANGLE, [18, 55]),
    // 4 × 3, 12 for each of two spans, and two district notices with the third.
    (
        "two districts of two become one",
        "01 01 01 01 02 0000 0001 02 0002 0003 02 0001 0002",
        [19, 53],
    ),
    // 9, 24, twice two spans, twice one cabinet.
    (
        "lists both ways along a chain",
        "01 01 01 02 0000 0001 02 0001 0002 06 0000 0002 06 0002 0000 07 0000 0002 07 0002 0000",
        [33, 57],
    ),
    ("empty lists", "01 06 0000 0000 07 0000 0000", [11, 9]),
    // 9, 24, and 4 each: it does not matter that there is nothing to tell.
    (
        "no shared mesh, and no length",
        "01 01 01 02 0000 0001 02 0001 0002 05 0000 0002 0E 0001",
        [21, 41],
    ),
    ("one byte for an exchange", "01 09 0000", [4, 4]),
    // 6, 12, and one byte for each of four commands.
    (
        "answers of one byte",
        "01 01 02 0000 0001 09 0000 0D 0000 0001 0005 09 0001 0D 0000 0001 0006",
        [27, 22],
    ),
    // 6, 12 and 7 for the two mates, and one span for 06.
    (
        "a set of mates is listed once",
        "01 01 0B 0000 0001 0005 0B 0001 0000 0005 06 0000 0001",
        [21, 30],
    ),
    // 6, 12 and 12 for two spans that are no mates; 5 and 5; 4; 3; 3; 2; 1; 2; two routes of one span; 1; 4; 3.
    (
        "every command",
        "01 01 02 0000 0001 0B 0001 0000 0005 03 0000 04 0001 05 0000 0001 06 0000 0001 \
         07 0000 0001 08 0000 09 0000 0A 0001 0C 0000 0001 0D 0000 0001 0005 0E 0000 0F",
        [60, 72],
    ),
    // 24, 60 for five spans, seven notices, 24 for two spans, six notices, and 21 for each pair: the shortest way
    // from 0 to 3 has three spans, and each of the only two routes that are apart has four.
    (
        "routes that are not the shortest",
        "01 01 01 01 01 01 01 01 02 0000 0001 02 0001 0002 02 0002 0003 02 0001 0004 02 0004 0005 \
         02 0005 0003 02 0000 0006 02 0006 0007 02 0007 0002 0C 0000 0003 0C 0003 0000",
        [63, 229],
    ),
    // 18, 48 for the rails, 22, 32 and 27 for the rungs; then a route of two spans and one of four, and two of
    // three.
    (
        "a ladder of three rungs, along it and across",
        "01 01 01 01 01 01 02 0000 0001 02 0001 0002 02 0003 0004 02 0004 0005 02 0000 0003 \
         02 0001 0004 02 0002 0005 0C 0000 0002 0C 0000 0005",
        [51, 181],
    ),
    // 6, 12, then 6 × 5.
    (
        "names and sizes",
        "01 01 03 0000 04 0001 02 0000 0001 03 0000 03 0001 04 0000 04 0001",
        [25, 48],
    ),
    ("exchange questions", "01 0A 0000 0F 09 0000 0A 0000 0F", [12, 14]),
    ("a length that is told", "01 01 02 0000 0001 0D 0000 0001 0005 0E 0000 08 0000", [20, 25]),
];

/// What a journal is, the capacities, its bytes, and the number and the place with which a run refuses it.
type Stopped = (&'static str, [u32; 2], &'static str, [u32; 2]);

const STOPPED: [Stopped; 26] = [
    ("unknown byte", [1, 1], "01 FF", [4, 1]),
    ("unknown byte first", [1, 1], "FF 01", [4, 0]),
    ("cut off", [1, 1], "01 02 00 00", [5, 1]),
    ("cut off first", [1, 1], "02 00 00", [5, 0]),
    ("unknown cabinet", [1, 1], "01 03 0001", [6, 1]),
    ("unknown cabinet first", [1, 1], "03 0000", [6, 0]),
    ("unknown span", [1, 1], "01 08 0000", [7, 1]),
    ("equal cabinets", [1, 1], "01 02 0000 0000", [8, 1]),
    ("9 at the last command, for its cabinets", [2, 1], "01 01 01", [9, 2]),
    ("9 at the last command, for its spans", [2, 1], "01 01 02 0000 0001 02 0000 0001", [9, 7]),
    ("9 in the middle", [2, 1], "01 01 01 03 0000", [9, 2]),
    ("9 behind questions", [1, 1], "01 03 0000 0F 01", [9, 5]),
    ("two districts", [2, 1], "01 01 06 0000 0001", [10, 2]),
    ("two districts, 07", [2, 1], "01 01 07 0001 0000 01", [10, 2]),
    ("an exchange already", [1, 1], "01 09 0000 09 0000", [12, 4]),
    ("duct 0", [2, 1], "01 01 0B 0000 0001 0000", [13, 2]),
    (
        "14 at the last command",
        [4, 3],
        "01 01 01 02 0000 0001 02 0001 0002 02 0002 0000 01 0C 0001 0003",
        [14, 19],
    ),
    ("14 for two mates", [2, 2], "01 01 02 0000 0001 02 0001 0000 0C 0000 0001", [14, 12]),
    ("4 behind 7", [1, 1], "01 08 0005 FF", [7, 1]),
    ("4 behind 9", [1, 1], "01 01 FF", [9, 1]),
    ("5 behind 14", [2, 1], "01 01 0C 0000 0001 0C 0000 00", [14, 2]),
    ("5 behind 12", [1, 1], "01 09 0000 09 0000 03 00", [12, 4]),
    ("7 behind 4", [1, 1], "01 FF 08 0005", [4, 1]),
    ("two refusals", [1, 1], "01 08 0000 03 0007", [7, 1]),
    (
        "behind a long answer",
        [3, 2],
        "01 01 01 02 0000 0001 02 0001 0002 07 0000 0002 06 0000 0002 08 0002 01",
        [7, 23],
    ),
    (
        "behind answers of one byte",
        [2, 1],
        "01 01 02 0000 0001 0D 0000 0001 0005 09 0000 09 0000",
        [12, 17],
    ),
];

/// All of them.
pub fn known() -> Vec<Case> {
    let parts = [accepted(), stopped(), at_start(), tables(), capacities(), longest()];
    parts.into_iter().flatten().collect()
}

/// Each with room to the byte and, where a byte is needed, with one byte less.
fn accepted() -> Vec<Case> {
    ACCEPTED
        .into_iter()
        .flat_map(|(label, journal, told)| fits(label, unhex(journal), told))
        .collect()
}

fn fits(label: &str, journal: Vec<u8>, [place, length]: [u32; 2]) -> Vec<Case> {
    let case = |room: u32, number| {
        let case = Case::with_room(label, 256, 512, journal.clone(), room as usize);
        case.returns(number).exactly([0, place, length])
    };
    let less = length.checked_sub(1).map(|room| case(room, 11));
    [case(length, 0)].into_iter().chain(less).collect()
}

/// What their forecast from the journal alone is makes no difference.
fn stopped() -> Vec<Case> {
    let case = |(label, [c, s], journal, [number, place]): Stopped| {
        let case = Case::new(label, c, s, unhex(journal));
        case.returns(number).exactly([number, place, 0])
    };
    let mut cases: Vec<Case> = STOPPED.into_iter().map(case).collect();
    let alone = Case::new("4 behind 7, and alone", 1, 1, unhex("01 08 0005 FF"));
    cases.push(alone.returns(7).forecasts([4, 4, 0]).exactly([7, 1, 0]));
    cases
}

/// The causes 1, 2 and 3, one by one and together.
fn at_start() -> Vec<Case> {
    let mut cases = Vec::new();
    let triangle = || unhex(TRIANGLE);
    let too_long = || vec![0x00; LONGEST_JOURNAL + 1];
    let outside = [(0, 1), (1, 0), (0, 0), (MOST_CABINETS + 1, 1), (1, MOST_SPANS + 1)];
    for (c, s) in outside.into_iter().chain([(u32::MAX, 1), (1, u32::MAX)]) {
        for (label, work, journal) in [
            ("1 alone", 200_000, triangle()),
            ("1 and 2", 0, triangle()),
            ("1 and 3", 200_000, too_long()),
            ("1, 2 and 3", 0, too_long()),
        ] {
            let case = Case::with_room(label, c, s, journal, 0);
            cases.push(Case { work, ..case }.returns(1).exactly([1, 0, 0]));
        }
    }
    for (c, s) in [(1, 1), (3, 3), (256, 512)] {
        let w = work_needed(c, s);
        for (label, work, journal, number) in [
            ("2 alone", w - 1, triangle(), 2),
            ("2 alone, with no table", 0, triangle(), 2),
            ("2 and 3", w - 1, too_long(), 2),
            ("3 alone", w, too_long(), 3),
            ("3 alone, with a longer table", w + 7, too_long(), 3),
        ] {
            let case = Case::with_room(label, c, s, journal, 0);
            cases.push(Case { work, ..case }.returns(number).exactly([number, 0, 0]));
        }
    }
    cases
}

/// Tables of W numbers and of more, accepted and stopped; and no report, which a run refuses with 2.
fn tables() -> Vec<Case> {
    let mut cases = Vec::new();
    for more in [0, 1, 2, 5, 6, 7, 64, 1000] {
        let accepted = Case::with_room("triangle in a longer table", 3, 3, unhex(TRIANGLE), 55);
        let work = accepted.work + more;
        cases.push(Case { work, ..accepted }.returns(0).exactly([0, 18, 55]));
        let stopped = Case::with_room("9 in a longer table", 2, 3, unhex(TRIANGLE), 55);
        let work = stopped.work + more;
        cases.push(Case { work, ..stopped }.returns(9).exactly([9, 2, 0]));
    }
    for report in [0, 5] {
        let without = Case::with_room("triangle with a short report", 3, 3, unhex(TRIANGLE), 55);
        cases.push(Case { report, ..without }.returns(2).exactly([0, 18, 55]));
        let without = Case::with_room("8 with a short report", 1, 1, unhex("01 02 0000 0000"), 3);
        cases.push(Case { report, ..without }.returns(2).exactly([8, 1, 0]));
    }
    cases
}

/// C and S are just enough, the greatest, or one too small.
fn capacities() -> Vec<Case> {
    let triangle = |c, s| Case::with_room("triangle", c, s, unhex(TRIANGLE), 55);
    let accepted = [(3, 3), (4, 3), (3, 4), (MOST_CABINETS, 3), (3, MOST_SPANS)];
    let mut cases: Vec<Case> = accepted
        .into_iter()
        .chain([(MOST_CABINETS, MOST_SPANS)])
        .map(|(c, s)| triangle(c, s).returns(0).exactly([0, 18, 55]))
        .collect();
    cases.push(triangle(2, 3).returns(9).exactly([9, 2, 0]));
    cases.push(triangle(3, 2).returns(9).exactly([9, 13, 0]));
    cases
}

/// Journals of 65,536 bytes whose answers take more: a cabinet, then 21,845 × 5 or 65,535 × 3 bytes.
fn longest() -> Vec<Case> {
    let names = [vec![0x01], unhex("03 0000").repeat(21_845)].concat();
    let shares = [vec![0x01], vec![0x0F; 65_535]].concat();
    let mut cases = fits("65,536 bytes, 03", names, [65_536, 109_228]);
    cases.extend(fits("65,536 bytes, 0F", shares, [65_536, 196_608]));
    cases
}
