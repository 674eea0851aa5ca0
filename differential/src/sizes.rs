//! Histories with the sizes of districts and rings. Their answers are worked out by hand from document 02's
//! eighth request, and are document 01's where its spans are entered.

use crate::cases::Case;
use crate::engine::MOST_CABINETS;
use crate::exchanges::fields;
use crate::histories::{worked_out, Known, Line};
use crate::journals::Writer;
use crate::layouts;
use crate::spans::Span;

const TWO_CABINETS: Line = ("01 01", "81 0000 81 0001");
const FOUR_CABINETS: Line = ("01 01 01 01", "81 0000 81 0001 81 0002 81 0003");
const FIVE_CABINETS: Line = ("01 01 01 01 01", "81 0000 81 0001 81 0002 81 0003 81 0004");

/// Both questions about all of one, two, three, four or five cabinets.
const ASKED_OF_1: &str = "03 0000 04 0000";
const ASKED_OF_2: &str = "03 0000 04 0000 03 0001 04 0001";
const ASKED_OF_3: &str = "03 0000 04 0000 03 0001 04 0001 03 0002 04 0002";
const ASKED_OF_4: &str = "03 0000 04 0000 03 0001 04 0001 03 0002 04 0002 03 0003 04 0003";
const ASKED_OF_5: &str =
    "03 0000 04 0000 03 0001 04 0001 03 0002 04 0002 03 0003 04 0003 03 0004 04 0004";

/// The first span between cabinets 0 and 1: they become one district, of name 0.
const FIRST: &str = "82 0000 0000 0001 01 0001 0000";

/// Each of two cabinets is a ring of its own; a district has one of them, or both.
const APART: &str = "83 0000 0001 84 0000 0001 83 0001 0001 84 0001 0001";
const JOINED: &str = "83 0000 0002 84 0000 0001 83 0000 0002 84 0001 0001";

/// The two are one ring.
const ONE_RING: &str = "83 0000 0002 84 0000 0002 83 0000 0002 84 0000 0002";

/// The triangle of document 01, closed: a district and a ring of 3.
const CLOSED: &str =
    "83 0000 0003 84 0000 0003 83 0000 0003 84 0000 0003 83 0000 0003 84 0000 0003";

const KNOWN: [Known; 14] = [
    ("03 last", &[("01", "81 0000"), ("03 0000", "83 0000 0001")], [0, 4, 2, 8, 1, 0]),
    ("04 last", &[("01", "81 0000"), ("04 0000", "84 0000 0001")], [0, 4, 2, 8, 1, 0]),
    (
        "one cabinet alone: a district of 1, a ring of 1",
        &[("01", "81 0000"), (ASKED_OF_1, "83 0000 0001 84 0000 0001")],
        [0, 7, 3, 13, 1, 0],
    ),
    (
        "two cabinets, one span: a district of 2, two rings of 1",
        &[TWO_CABINETS, (ASKED_OF_2, APART), ("02 0000 0001", FIRST), (ASKED_OF_2, JOINED)],
        [0, 31, 11, 58, 2, 1],
    ),
    // The second span joins a district of 2 and one of 1. The rings stay three until the last span makes
    // them one.
    (
        "the triangle, step by step",
        &[
            ("01", "81 0000"),
            (ASKED_OF_1, "83 0000 0001 84 0000 0001"),
            ("01", "81 0001"),
            (ASKED_OF_2, APART),
            ("01", "81 0002"),
            (
                ASKED_OF_3,
                "83 0000 0001 84 0000 0001 83 0001 0001 84 0001 0001 83 0002 0001 84 0002 0001",
            ),
            ("02 0000 0001", FIRST),
            (
                ASKED_OF_3,
                "83 0000 0002 84 0000 0001 83 0000 0002 84 0001 0001 83 0002 0001 84 0002 0001",
            ),
            ("02 0001 0002", "82 0001 0001 0001 01 0002 0000"),
            (
                ASKED_OF_3,
                "83 0000 0003 84 0000 0001 83 0000 0003 84 0001 0001 83 0000 0003 84 0002 0001",
            ),
            ("02 0002 0000", "82 0002 0000 0003 02 0001 0000 02 0002 0000 03 0001 0000"),
            (ASKED_OF_3, CLOSED),
        ],
        [0, 108, 36, 205, 3, 3],
    ),
    // District 0 has the cabinets 0 and 4, district 1 the others. The greater gives the name, and the size
    // is the sum of both, also for cabinet 0, whose own name is gone.
    (
        "two districts of unequal size joined",
        &[
            FIVE_CABINETS,
            ("02 0001 0002", "82 0000 0000 0001 01 0002 0001"),
            ("02 0002 0003", "82 0001 0001 0001 01 0003 0001"),
            ("02 0000 0004", "82 0002 0002 0001 01 0004 0000"),
            (
                ASKED_OF_5,
                "83 0000 0002 84 0000 0001 83 0001 0003 84 0001 0001 83 0001 0003 84 0002 0001 \
                 83 0001 0003 84 0003 0001 83 0000 0002 84 0004 0001",
            ),
            ("02 0004 0003", "82 0003 0003 0002 01 0000 0001 01 0004 0001"),
            (
                ASKED_OF_5,
                "83 0001 0005 84 0000 0001 83 0001 0005 84 0001 0001 83 0001 0005 84 0002 0001 \
                 83 0001 0005 84 0003 0001 83 0001 0005 84 0004 0001",
            ),
        ],
        [0, 85, 29, 168, 5, 4],
    ),
    // The least name, 0, stays.
    (
        "two districts of equal size joined",
        &[
            FOUR_CABINETS,
            ("02 0002 0003", "82 0000 0000 0001 01 0003 0002"),
            ("02 0001 0000", "82 0001 0001 0001 01 0001 0000"),
            (
                ASKED_OF_4,
                "83 0000 0002 84 0000 0001 83 0000 0002 84 0001 0001 \
                 83 0002 0002 84 0002 0001 83 0002 0002 84 0003 0001",
            ),
            ("02 0003 0000", "82 0002 0002 0002 01 0002 0000 01 0003 0000"),
            (
                ASKED_OF_4,
                "83 0000 0004 84 0000 0001 83 0000 0004 84 0001 0001 \
                 83 0000 0004 84 0002 0001 83 0000 0004 84 0003 0001",
            ),
        ],
        [0, 67, 23, 133, 4, 3],
    ),
    // Spans 0 and 1, in two ducts, are a ring of 2; spans 2, 3 and 4 are a ring of 3. Span 5 joins the
    // districts and is sole: 2 and 3 are 5. Span 6 closes the loop 0, 1, 2, 4: one ring of 5. The mesh of
    // spans 2, 3 and 4 is the largest.
    (
        "a ring of 3 that hangs on a ring of 2, and one ring of both",
        &[
            FIVE_CABINETS,
            ("0B 0000 0001 0001", FIRST),
            ("0B 0001 0000 0002", "82 0001 0000 0001 02 0001 0000"),
            (
                "02 0002 0003 02 0003 0004",
                "82 0002 0002 0001 01 0003 0002 82 0003 0003 0001 01 0004 0002",
            ),
            ("02 0004 0002", "82 0004 0002 0003 02 0003 0002 02 0004 0002 03 0003 0002"),
            (
                ASKED_OF_5,
                "83 0000 0002 84 0000 0002 83 0000 0002 84 0000 0002 83 0002 0003 84 0002 0003 \
                 83 0002 0003 84 0002 0003 83 0002 0003 84 0002 0003",
            ),
            ("02 0001 0002", "82 0005 0005 0002 01 0000 0002 01 0001 0002"),
            (
                ASKED_OF_5,
                "83 0002 0005 84 0000 0002 83 0002 0005 84 0000 0002 83 0002 0005 84 0002 0003 \
                 83 0002 0005 84 0002 0003 83 0002 0005 84 0002 0003",
            ),
            (
                "02 0000 0004",
                "82 0006 0002 0005 02 0000 0002 02 0001 0002 \
                 03 0000 0002 03 0001 0002 03 0005 0002",
            ),
            (
                ASKED_OF_5,
                "83 0002 0005 84 0002 0005 83 0002 0005 84 0002 0005 83 0002 0005 84 0002 0005 \
                 83 0002 0005 84 0002 0005 83 0002 0005 84 0002 0005",
            ),
        ],
        [0, 134, 42, 284, 5, 7],
    ),
    // Span 1 is a mate of span 0, and changes no size. Span 2 is none, and makes one ring. Span 3, a mate of
    // span 2, finds one ring.
    (
        "mates in a duct make no ring",
        &[
            TWO_CABINETS,
            ("0B 0000 0001 0005", FIRST),
            (ASKED_OF_2, JOINED),
            ("0B 0001 0000 0005", "82 0001 0000 0000"),
            (ASKED_OF_2, JOINED),
            ("02 0000 0001", "82 0002 0000 0001 02 0001 0000"),
            (ASKED_OF_2, ONE_RING),
            ("02 0001 0000", "82 0003 0000 0000"),
            (ASKED_OF_2, ONE_RING),
        ],
        [0, 74, 22, 124, 2, 4],
    ),
    (
        "mates from 02 make no ring",
        &[
            TWO_CABINETS,
            ("02 0000 0001", FIRST),
            (ASKED_OF_2, JOINED),
            ("02 0000 0001", "82 0001 0000 0000"),
            (ASKED_OF_2, JOINED),
        ],
        [0, 36, 12, 65, 2, 2],
    ),
    // Neither a mark nor a record nor a question changes a size.
    (
        "the triangle with a mark, a record and two routes",
        &[
            (
                "01 01 01 02 0000 0001 02 0001 0002 02 0002 0000",
                "81 0000 81 0001 81 0002 82 0000 0000 0001 01 0001 0000 \
                 82 0001 0001 0001 01 0002 0000 \
                 82 0002 0000 0003 02 0001 0000 02 0002 0000 03 0001 0000",
            ),
            (ASKED_OF_3, CLOSED),
            ("09 0001 0D 0000 0003 00FA", "89 8D"),
            ("0C 0000 0001", "8C 0001 0000 0002 0002 0001 | 8C 0002 0002 0001 0001 0000"),
            (ASKED_OF_3, CLOSED),
        ],
        [0, 69, 21, 128, 3, 3],
    ),
    ("03 of an unknown cabinet", &[("01", "81 0000"), ("03 0001", "")], [6, 1, 1, 3, 1, 0]),
    (
        "04 of an unknown cabinet, behind a size",
        &[("01", "81 0000"), ("03 0000", "83 0000 0001"), ("04 0001", "")],
        [6, 4, 2, 8, 1, 0],
    ),
    ("03 without cabinets", &[("03 0000", "")], [6, 0, 0, 0, 0, 0]),
];

/// All of them, each with room to the byte and, where a byte is needed, with one byte less.
pub fn known() -> Vec<Case> {
    let mut cases = worked_out(&KNOWN);
    cases.extend(four_bytes_left());
    cases.push(growing_to_300());
    cases
}

/// 03 and 04 with four bytes left of the five that they need, behind one cabinet, and behind the other
/// question.
fn four_bytes_left() -> [Case; 4] {
    let stopped = |first: &[u8], byte: u8| {
        let mut writer = Writer::new();
        let mut answers = fields(0x81, &[0]);
        writer.cabinet();
        for &asked in first {
            writer.command(asked, &[0]);
            answers.extend(fields(0x80 + asked, &[0, 1]));
        }
        let (place, bytes) = (writer.bytes.len() as u32, answers.len() as u32);
        writer.command(byte, &[0]);
        let case = Case::with_room("four bytes left", 1, 1, writer.bytes, 0);
        case.leaves(answers, [11, place, 1 + first.len() as u32, bytes, 1, 0]).with_more(4)
    };
    [stopped(&[], 3), stopped(&[], 4), stopped(&[4], 3), stopped(&[3], 4)]
}

/// Cabinet 0, and one cabinet after the other that is joined to it by two spans in two ducts: the first
/// makes the district one greater, the second the ring. So every size from 1 to 300 is told, with each
/// byte of it.
fn growing_to_300() -> Case {
    let mut writer = Writer::new();
    writer.cabinet();
    let mut answers = fields(0x81, &[0]);
    for cabinet in 1..300u16 {
        let (span, size) = (2 * (cabinet - 1), cabinet + 1);
        writer.cabinet();
        writer.add(Span::in_duct(0, cabinet.into(), 1));
        writer.command(0x03, &[cabinet.into()]);
        writer.command(0x04, &[cabinet.into()]);
        writer.add(Span::in_duct(0, cabinet.into(), 2));
        writer.command(0x04, &[cabinet.into()]);
        answers.extend(fields(0x81, &[cabinet]));
        answers.extend([fields(0x82, &[span, span, 1]), fields(0x01, &[cabinet, 0])].concat());
        answers.extend([fields(0x83, &[0, size]), fields(0x84, &[cabinet, 1])].concat());
        answers.extend([fields(0x82, &[span + 1, span, 1]), fields(0x02, &[cabinet, 0])].concat());
        answers.extend(fields(0x84, &[0, size]));
    }
    // 1 byte, answered by 3; then 1 + 7 + 3 + 3 + 7 + 3 each time, answered by 3 + 12 + 5 + 5 + 12 + 5.
    let case = Case::with_room("a district and a ring that grow to 300", 300, 598, writer.bytes, 0);
    case.leaves(answers, [0, 1 + 299 * 24, 1 + 299 * 6, 3 + 299 * 42, 300, 598])
}

/// As many cabinets as there can be, in one chain: a district of 4,096, rings of 1. Then the chain is
/// closed: a ring of 4,096, which is 1000 in hexadecimal.
pub fn whole_plant() -> Case {
    let links = MOST_CABINETS as u16 - 1;
    let last = usize::from(links);
    let mut writer = Writer::new();
    writer.enter(&layouts::chain(MOST_CABINETS as usize));
    let mut answers: Vec<u8> = (0..=links).flat_map(|cabinet| fields(0x81, &[cabinet])).collect();
    for link in 0..links {
        answers.extend([fields(0x82, &[link, link, 1]), fields(0x01, &[link + 1, 0])].concat());
    }
    writer.command(0x03, &[last]);
    writer.command(0x04, &[last]);
    answers.extend([fields(0x83, &[0, 0x1000]), fields(0x84, &[links, 1])].concat());
    writer.span(last, 0);
    // A notice for every ring but the first, and for every mesh but the first.
    answers.extend(fields(0x82, &[links, 0, 2 * links - 1]));
    answers.extend((1..=links).flat_map(|cabinet| fields(0x02, &[cabinet, 0])));
    answers.extend((1..links).flat_map(|span| fields(0x03, &[span, 0])));
    writer.command(0x03, &[last]);
    writer.command(0x04, &[last]);
    answers.extend([fields(0x83, &[0, 0x1000]), fields(0x84, &[0, 0x1000])].concat());
    // 4,096 of 01, 4,096 of 02 and four questions: 4,096 × (1 + 5) + 4 × 3 bytes, answered by
    // 4,096 × 3, 4,095 × 12, 7 + 8,189 × 5 and 4 × 5.
    let case = Case::with_room("4,096 cabinets", MOST_CABINETS, MOST_CABINETS, writer.bytes, 0);
    case.leaves(answers, [0, 24_588, 8_196, 102_400, 4_096, 4_096])
}
