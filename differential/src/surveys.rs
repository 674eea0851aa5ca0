//! Histories with survey lengths. Their answers are worked out by hand from document 02's sixth request,
//! and are document 01's where its spans are entered.
//!
//! In hexadecimal 100 metres are 0064, 200 are 00C8 and 250 are 00FA.

use crate::cases::{unhex, Case};
use crate::engine::MOST_SPANS;
use crate::exchanges::fields;
use crate::histories::{worked_out, Known, Line};
use crate::journals::Writer;
use crate::second::surveys::Record;
use crate::spans::Span;

const TWO_CABINETS: Line = ("01 01", "81 0000 81 0001");
const THREE_CABINETS: Line = ("01 01 01", "81 0000 81 0001 81 0002");

/// The first span between cabinets 0 and 1: they become one district, of name 0.
const FIRST: &str = "82 0000 0000 0001 01 0001 0000";

/// Span 1 between them, no mate of span 0: they become one ring.
const CLOSES: &str = "82 0001 0000 0001 02 0001 0000";

/// Span 0, by 02.
const A_SPAN: Line = ("02 0000 0001", FIRST);

/// Span 0, in duct 5.
const IN_5: Line = ("0B 0000 0001 0005", FIRST);

/// The rings of the cabinets 0 and 1, and what lies between them, both ways.
const ASKED_OF_2: &str = "04 0000 04 0001 05 0000 0001 06 0000 0001 06 0001 0000";

/// Two rings of one cabinet each; a mesh of name 0; one set of mates parts them, whose least is span 0.
const PARTED_BY_0: &str = "84 0000 0001 84 0001 0001 85 01 0000 86 0001 0000 86 0001 0000";

/// What the three spans of a history are measured to be.
const THREE_LENGTHS: Line = ("0E 0000 0E 0001 0E 0002", "8E 01 00FA 8E 01 0000 8E 01 0064");

const KNOWN: [Known; 37] = [
    (
        "no record, no length",
        &[TWO_CABINETS, A_SPAN, ("0E 0000", "8E 00 0000")],
        [0, 10, 4, 22, 2, 1],
    ),
    // A question changes nothing.
    (
        "one record, before it and after it",
        &[
            TWO_CABINETS,
            A_SPAN,
            ("0E 0000", "8E 00 0000"),
            ("0D 0000 0003 00FA", "8D"),
            ("0E 0000 0E 0000", "8E 01 00FA 8E 01 00FA"),
        ],
        [0, 23, 7, 31, 2, 1],
    ),
    (
        "a later day holds",
        &[
            TWO_CABINETS,
            A_SPAN,
            ("0D 0000 0003 00FA 0E 0000", "8D 8E 01 00FA"),
            ("0D 0000 0004 00C8 0E 0000", "8D 8E 01 00C8"),
        ],
        [0, 27, 7, 28, 2, 1],
    ),
    (
        "an earlier day that is entered later does not hold",
        &[
            TWO_CABINETS,
            A_SPAN,
            ("0D 0000 0004 00C8 0E 0000", "8D 8E 01 00C8"),
            ("0D 0000 0003 00FA 0E 0000", "8D 8E 01 00C8"),
        ],
        [0, 27, 7, 28, 2, 1],
    ),
    (
        "of one day the first, the second being longer",
        &[
            TWO_CABINETS,
            A_SPAN,
            ("0D 0000 0003 00C8 0E 0000", "8D 8E 01 00C8"),
            ("0D 0000 0003 00FA 0E 0000", "8D 8E 01 00C8"),
        ],
        [0, 27, 7, 28, 2, 1],
    ),
    (
        "of one day the first, the second being shorter",
        &[
            TWO_CABINETS,
            A_SPAN,
            ("0D 0000 0003 00FA 0E 0000", "8D 8E 01 00FA"),
            ("0D 0000 0003 00C8 0E 0000", "8D 8E 01 00FA"),
        ],
        [0, 27, 7, 28, 2, 1],
    ),
    // Day 3 is later than day 1, which was entered last, but not than day 5, which holds.
    (
        "days 5, 1 and 3",
        &[
            TWO_CABINETS,
            A_SPAN,
            ("0D 0000 0005 00C8 0E 0000", "8D 8E 01 00C8"),
            ("0D 0000 0001 00FA 0E 0000", "8D 8E 01 00C8"),
            ("0D 0000 0003 0064 0E 0000", "8D 8E 01 00C8"),
        ],
        [0, 37, 9, 33, 2, 1],
    ),
    // The two of day 4 in their order, with day 3 before and after them; then a day that is later.
    (
        "days 3, 4, 4, 3 and 5",
        &[
            TWO_CABINETS,
            A_SPAN,
            ("0D 0000 0003 000A 0E 0000", "8D 8E 01 000A"),
            ("0D 0000 0004 0014 0E 0000", "8D 8E 01 0014"),
            ("0D 0000 0004 001E 0E 0000", "8D 8E 01 0014"),
            ("0D 0000 0003 0028 0E 0000", "8D 8E 01 0014"),
            ("0D 0000 0005 0005 0E 0000", "8D 8E 01 0005"),
        ],
        [0, 57, 13, 43, 2, 1],
    ),
    (
        "0 metres are a length",
        &[TWO_CABINETS, A_SPAN, ("0D 0000 0003 0000", "8D"), ("0E 0000", "8E 01 0000")],
        [0, 17, 5, 23, 2, 1],
    ),
    (
        "0 metres after a length and before one",
        &[
            TWO_CABINETS,
            A_SPAN,
            ("0D 0000 0003 00FA 0E 0000", "8D 8E 01 00FA"),
            ("0D 0000 0004 0000 0E 0000", "8D 8E 01 0000"),
            ("0D 0000 0004 0007 0E 0000", "8D 8E 01 0000"),
            ("0D 0000 0005 0007 0E 0000", "8D 8E 01 0007"),
        ],
        [0, 47, 11, 38, 2, 1],
    ),
    (
        "day 0 is a day",
        &[
            TWO_CABINETS,
            A_SPAN,
            ("0D 0000 0000 00FA 0E 0000", "8D 8E 01 00FA"),
            ("0D 0000 0000 0007 0E 0000", "8D 8E 01 00FA"),
            ("0D 0000 0001 0009 0E 0000", "8D 8E 01 0009"),
            ("0D 0000 0000 0003 0E 0000", "8D 8E 01 0009"),
        ],
        [0, 47, 11, 38, 2, 1],
    ),
    (
        "0 metres on day 0",
        &[
            TWO_CABINETS,
            A_SPAN,
            ("0D 0000 0000 0000 0E 0000", "8D 8E 01 0000"),
            ("0D 0000 0000 0009 0E 0000", "8D 8E 01 0000"),
            ("0D 0000 0001 0009 0E 0000", "8D 8E 01 0009"),
        ],
        [0, 37, 9, 33, 2, 1],
    ),
    (
        "65,535 metres on day 65,535",
        &[
            TWO_CABINETS,
            A_SPAN,
            ("0D 0000 FFFF FFFF 0E 0000", "8D 8E 01 FFFF"),
            ("0D 0000 0000 0001 0E 0000", "8D 8E 01 FFFF"),
            ("0D 0000 FFFE 0002 0E 0000", "8D 8E 01 FFFF"),
            ("0D 0000 FFFF 0003 0E 0000", "8D 8E 01 FFFF"),
        ],
        [0, 47, 11, 38, 2, 1],
    ),
    (
        "day 32,768 is later than day 32,767",
        &[
            TWO_CABINETS,
            A_SPAN,
            ("0D 0000 7FFF 0001 0E 0000", "8D 8E 01 0001"),
            ("0D 0000 8000 0002 0E 0000", "8D 8E 01 0002"),
            ("0D 0000 7FFF 0003 0E 0000", "8D 8E 01 0002"),
        ],
        [0, 37, 9, 33, 2, 1],
    ),
    (
        "days with other high bytes, and with other low bytes",
        &[
            TWO_CABINETS,
            A_SPAN,
            ("0D 0000 00FF 0001 0E 0000", "8D 8E 01 0001"),
            ("0D 0000 0100 0002 0E 0000", "8D 8E 01 0002"),
            ("0D 0000 00FF 0003 0E 0000", "8D 8E 01 0002"),
            ("0D 0000 0101 0004 0E 0000", "8D 8E 01 0004"),
            ("0D 0000 0200 0005 0E 0000", "8D 8E 01 0005"),
        ],
        [0, 57, 13, 43, 2, 1],
    ),
    // Each goes by its own days.
    (
        "two spans",
        &[
            TWO_CABINETS,
            A_SPAN,
            ("0B 0000 0001 0001", CLOSES),
            ("0D 0000 0003 00FA 0E 0000 0E 0001", "8D 8E 01 00FA 8E 00 0000"),
            ("0D 0001 0001 0007 0E 0001 0E 0000", "8D 8E 01 0007 8E 01 00FA"),
            ("0D 0000 0001 0009 0E 0000", "8D 8E 01 00FA"),
            ("0D 0001 0002 000B 0E 0001", "8D 8E 01 000B"),
        ],
        [0, 60, 14, 58, 2, 2],
    ),
    // There are two cabinets only.
    (
        "a span whose number is no cabinet's",
        &[
            TWO_CABINETS,
            A_SPAN,
            ("02 0000 0001 02 0000 0001", "82 0001 0000 0000 82 0002 0000 0000"),
            ("0D 0002 0001 0009", "8D"),
            ("0E 0002", "8E 01 0009"),
        ],
        [0, 27, 7, 37, 2, 3],
    ),
    (
        "two mates, each with its own record",
        &[
            TWO_CABINETS,
            IN_5,
            ("0B 0001 0000 0005", "82 0001 0000 0000"),
            ("0D 0000 0003 00FA 0E 0000 0E 0001", "8D 8E 01 00FA 8E 00 0000"),
            ("0D 0001 0004 0007 0E 0001 0E 0000", "8D 8E 01 0007 8E 01 00FA"),
        ],
        [0, 42, 10, 43, 2, 2],
    ),
    // Spans 0, 1 and 2 are mates, whatever is recorded of them between. Each has its own records. Span 3
    // is in another duct; it and one of the mates are the two routes.
    (
        "mates with records",
        &[
            TWO_CABINETS,
            IN_5,
            ("0D 0000 FFFF FFFF", "8D"),
            ("0B 0000 0001 0005", "82 0001 0000 0000"),
            ("0D 0001 0000 0000", "8D"),
            ("0B 0001 0000 0005", "82 0002 0000 0000"),
            (ASKED_OF_2, PARTED_BY_0),
            ("08 0000 08 0001 08 0002", "88 01 88 01 88 01"),
            ("0E 0000 0E 0001 0E 0002", "8E 01 FFFF 8E 01 0000 8E 00 0000"),
            ("0B 0000 0001 0006", "82 0003 0000 0001 02 0001 0000"),
            (
                "0C 0000 0001",
                "8C 0001 0000 0001 0003 | 8C 0001 0001 0001 0003 | 8C 0001 0002 0001 0003 \
                 | 8C 0001 0003 0001 0000 | 8C 0001 0003 0001 0001 | 8C 0001 0003 0001 0002",
            ),
            ("0E 0000", "8E 01 FFFF"),
        ],
        [0, 91, 21, 101, 2, 4],
    ),
    // The last of three mates finds a ring, and none of them is in a route with another.
    (
        "mates with records in a ring",
        &[
            TWO_CABINETS,
            A_SPAN,
            ("0B 0000 0001 0005", CLOSES),
            ("0D 0001 0001 0005", "8D"),
            ("0B 0001 0000 0005", "82 0002 0000 0000"),
            ("0D 0000 0001 0005 0D 0002 0001 0006", "8D 8D"),
            (
                "0C 0000 0001",
                "8C 0001 0000 0001 0001 | 8C 0001 0000 0001 0002 \
                 | 8C 0001 0001 0001 0000 | 8C 0001 0002 0001 0000",
            ),
            ("0E 0000 0E 0001 0E 0002", "8E 01 0005 8E 01 0005 8E 01 0006"),
        ],
        [0, 56, 12, 61, 2, 3],
    ),
    // Spans 0 and 1 are mates though only one has a record, and make the shortest routes: one of them is
    // a route, and the way over cabinet 2 the other.
    (
        "a mate with a record and one without, and a way round them",
        &[
            THREE_CABINETS,
            IN_5,
            ("0D 0000 0001 0064", "8D"),
            ("0B 0000 0001 0005", "82 0001 0000 0000"),
            ("02 0000 0002", "82 0002 0002 0001 01 0002 0000"),
            ("02 0002 0001", "82 0003 0000 0003 02 0001 0000 02 0002 0000 03 0002 0000"),
            (
                "0C 0000 0001",
                "8C 0001 0000 0002 0002 0003 | 8C 0001 0001 0002 0002 0003 \
                 | 8C 0002 0002 0003 0001 0000 | 8C 0002 0002 0003 0001 0001",
            ),
            ("0E 0000 0E 0001", "8E 01 0064 8E 00 0000"),
        ],
        [0, 45, 11, 82, 3, 4],
    ),
    // They are no mates, though both have a record of one day.
    (
        "spans of two ducts with records",
        &[
            TWO_CABINETS,
            IN_5,
            ("0D 0000 0001 0001", "8D"),
            ("0B 0001 0000 0006", CLOSES),
            ("0D 0001 0001 0001", "8D"),
            ("0C 0000 0001", "8C 0001 0000 0001 0001 | 8C 0001 0001 0001 0000"),
            ("08 0000 08 0001 06 0000 0001", "88 00 88 00 86 0000"),
        ],
        [0, 46, 10, 48, 2, 2],
    ),
    // They are mates, whatever is recorded of them between, and each has its own records.
    (
        "two spans from 02 with records",
        &[
            TWO_CABINETS,
            A_SPAN,
            ("0D 0000 0001 0001", "8D"),
            ("02 0001 0000", "82 0001 0000 0000"),
            ("0D 0001 0002 0003", "8D"),
            (ASKED_OF_2, PARTED_BY_0),
            ("08 0000 08 0001 0E 0000 0E 0001", "88 01 88 01 8E 01 0001 8E 01 0003"),
        ],
        [0, 59, 15, 63, 2, 2],
    ),
    // Spans 0 and 1 are mates from 02 though only one has a record: one of them is a route, and the way
    // over cabinet 2 the other. Span 2, in a duct, has a record too.
    (
        "a span from 02 with a record and one without, and a way round them",
        &[
            THREE_CABINETS,
            A_SPAN,
            ("0D 0000 0001 0064", "8D"),
            ("02 0000 0001", "82 0001 0000 0000"),
            ("0B 0000 0002 0005", "82 0002 0002 0001 01 0002 0000"),
            ("0D 0002 0001 0064", "8D"),
            ("02 0002 0001", "82 0003 0000 0003 02 0001 0000 02 0002 0000 03 0002 0000"),
            (
                "0C 0000 0001",
                "8C 0001 0000 0002 0002 0003 | 8C 0001 0001 0002 0002 0003 \
                 | 8C 0002 0002 0003 0001 0000 | 8C 0002 0002 0003 0001 0001",
            ),
            ("0E 0000 0E 0001 0E 0002", "8E 01 0064 8E 00 0000 8E 01 0064"),
        ],
        [0, 53, 13, 87, 3, 4],
    ),
    // Span 2 closes the loop, and the mesh of span 1 takes the name 0: its record stays.
    (
        "records in a triangle before its last span",
        &[
            THREE_CABINETS,
            (
                "02 0000 0001 02 0001 0002",
                "82 0000 0000 0001 01 0001 0000 82 0001 0001 0001 01 0002 0000",
            ),
            ("0D 0000 0001 0064 0D 0001 0002 00C8", "8D 8D"),
            ("02 0002 0000", "82 0002 0000 0003 02 0001 0000 02 0002 0000 03 0001 0000"),
            ("0E 0000 0E 0001 0E 0002", "8E 01 0064 8E 01 00C8 8E 00 0000"),
        ],
        [0, 41, 11, 69, 3, 3],
    ),
    // The lengths stay, and so do the days: none of the records in the end is of a later one.
    (
        "a cabinet, marks and routes behind records",
        &[
            TWO_CABINETS,
            A_SPAN,
            ("0B 0000 0001 0005", CLOSES),
            ("0B 0001 0000 0005", "82 0002 0000 0000"),
            ("0D 0000 0003 00FA 0D 0001 0000 0000 0D 0002 0001 0064", "8D 8D 8D"),
            ("01", "81 0002"),
            THREE_LENGTHS,
            ("09 0000", "89"),
            THREE_LENGTHS,
            ("09 0001 09 0002", "89 89"),
            THREE_LENGTHS,
            (
                "0C 0000 0001",
                "8C 0001 0000 0001 0001 | 8C 0001 0000 0001 0002 \
                 | 8C 0001 0001 0001 0000 | 8C 0001 0002 0001 0000",
            ),
            THREE_LENGTHS,
            ("0D 0000 0002 0001 0D 0001 0000 0001 0D 0002 0001 0001", "8D 8D 8D"),
            THREE_LENGTHS,
        ],
        [0, 123, 31, 118, 3, 3],
    ),
    ("0E without spans", &[TWO_CABINETS, ("0E 0000", "")], [7, 2, 2, 6, 2, 0]),
    ("0D without spans", &[TWO_CABINETS, ("0D 0000 0001 0001", "")], [7, 2, 2, 6, 2, 0]),
    ("0E of an unknown span", &[TWO_CABINETS, A_SPAN, ("0E 0001", "")], [7, 7, 3, 18, 2, 1]),
    (
        "0D of an unknown span",
        &[TWO_CABINETS, A_SPAN, ("0D 0001 0001 0001", "")],
        [7, 7, 3, 18, 2, 1],
    ),
    // Span 256 is not there though there is a record of span 0.
    (
        "0E of an unknown span behind a record",
        &[TWO_CABINETS, A_SPAN, ("0D 0000 0001 0001", "8D"), ("0E 0100", "")],
        [7, 14, 4, 19, 2, 1],
    ),
    ("0E cut off", &[TWO_CABINETS, A_SPAN, ("0E 00", "")], [5, 7, 3, 18, 2, 1]),
    ("0D cut off", &[TWO_CABINETS, A_SPAN, ("0D 0000 0001 00", "")], [5, 7, 3, 18, 2, 1]),
    ("0D without metres", &[TWO_CABINETS, A_SPAN, ("0D 0000 0001", "")], [5, 7, 3, 18, 2, 1]),
    ("8D is no command", &[TWO_CABINETS, A_SPAN, ("8D", "")], [4, 7, 3, 18, 2, 1]),
    ("8E is no command", &[TWO_CABINETS, A_SPAN, ("8E 0000", "")], [4, 7, 3, 18, 2, 1]),
    ("10 is none yet", &[TWO_CABINETS, A_SPAN, ("10 0000 0001", "")], [4, 7, 3, 18, 2, 1]),
];

/// All of them, each with room to the byte and, where a byte is needed, with one byte less.
pub fn known() -> Vec<Case> {
    let mut cases = worked_out(&KNOWN);
    cases.push(recorded_again());
    cases.push(asked_again());
    cases.push(every_bit());
    cases.push(far_spans());
    cases
}

/// One span, and twenty records of it: 6 + 12 + 20 bytes of answers. For all but the records
/// 6 + 7 + 5 × 2 × 2 bytes are forecast, which are 15 more than that takes; so the records need a byte
/// each.
fn recorded_again() -> Case {
    let journal = [unhex("01 01 02 0000 0001"), unhex("0D 0000 0001 0001").repeat(20)].concat();
    let answers = [unhex("81 0000 81 0001"), unhex(FIRST), unhex("8D").repeat(20)].concat();
    let case = Case::with_room("a record, again and again", 256, 512, journal, 0);
    case.leaves(answers, [0, 147, 23, 38, 2, 1])
}

/// The same with twenty questions, which need 4 bytes each and not one fewer.
fn asked_again() -> Case {
    let journal = [unhex("01 01 02 0000 0001"), unhex("0E 0000").repeat(20)].concat();
    let answers = [unhex("81 0000 81 0001"), unhex(FIRST), unhex("8E 00 0000").repeat(20)].concat();
    let case = Case::with_room("a length, again and again", 256, 512, journal, 0);
    case.leaves(answers, [0, 67, 23, 98, 2, 1])
}

/// Two cabinets and so many spans by 02 between them, and their answers: the first span joins the
/// districts, and all are mates and the mesh of the first.
fn parallel(spans: u16) -> (Writer, Vec<u8>) {
    let mut writer = Writer::new();
    writer.cabinet();
    writer.cabinet();
    let mut answers = unhex("81 0000 81 0001");
    for span in 0..spans {
        writer.add(Span::new(0, 1));
        answers.extend(match span {
            0 => unhex(FIRST),
            _ => fields(0x82, &[span, 0, 0]),
        });
    }
    (writer, answers)
}

/// An answer 8E with a length.
fn told(metres: u16) -> Vec<u8> {
    [&[0x8E, 1], &metres.to_be_bytes()[..]].concat()
}

/// For each bit a span that is measured on the day of this bit alone, with the metres of this bit alone,
/// and before and after that with other metres on the day before it.
fn every_bit() -> Case {
    let (mut writer, mut answers) = parallel(16);
    for bit in 0..16 {
        let (span, value) = (bit, 1 << bit);
        let before = |metres| Record { span, day: value - 1, metres };
        writer.record(before(0xFFFF ^ value));
        writer.record(Record { span, day: value, metres: value });
        writer.record(before(0xFFFF));
        answers.extend([0x8D; 3]);
    }
    for bit in 0..16 {
        writer.command(0x0E, &[bit]);
        answers.extend(told(1 << bit));
    }
    // 2 + 16 × 5 + 48 × 7 + 16 × 3 bytes, answered by 6 + 12 + 15 × 7 + 48 + 16 × 4.
    let case = Case::with_room("every bit of a day and of a length", 256, 512, writer.bytes, 0);
    case.leaves(answers, [0, 466, 82, 235, 2, 16])
}

/// Spans 256 and 257 have the low bytes of spans 0 and 1, and records of their own.
fn far_spans() -> Case {
    let (mut writer, mut answers) = parallel(258);
    for (span, day, metres) in [(0, 1, 10), (256, 2, 20), (257, 1, 30)] {
        writer.record(Record { span, day, metres });
        answers.push(0x8D);
    }
    for (span, metres) in [(0, Some(10)), (1, None), (255, None), (256, Some(20)), (257, Some(30))]
    {
        writer.command(0x0E, &[span]);
        answers.extend(metres.map_or(unhex("8E 00 0000"), told));
    }
    // 2 + 258 × 5 + 3 × 7 + 5 × 3 bytes, answered by 6 + 12 + 257 × 7 + 3 + 5 × 4.
    let case = Case::with_room("records of spans 0, 256 and 257", 256, 512, writer.bytes, 0);
    case.leaves(answers, [0, 1_328, 268, 1_840, 2, 258])
}

/// As many spans as there can be. Every fourth has a record, from span 3 to the last, 8,191; every third
/// is asked about, from span 1 to the last: 683 of these 2,731 have a record.
pub fn all_spans() -> Case {
    let (mut writer, mut answers) = parallel(MOST_SPANS as u16);
    let metres = |span: usize| 65_535 - span as u16;
    for span in (3..MOST_SPANS as usize).step_by(4) {
        writer.record(Record { span, day: span % 3, metres: metres(span).into() });
        answers.push(0x8D);
    }
    for span in (1..MOST_SPANS as usize).step_by(3) {
        writer.command(0x0E, &[span]);
        let is_recorded = span % 4 == 3;
        answers.extend(if is_recorded { told(metres(span)) } else { unhex("8E 00 0000") });
    }
    // 2 + 8,192 × 5 + 2,048 × 7 + 2,731 × 3 bytes, answered by
    // 6 + 12 + 8,191 × 7 + 2,048 + 2,731 × 4.
    let case = Case::with_room("records of every fourth span", 2, MOST_SPANS, writer.bytes, 0);
    case.leaves(answers, [0, 63_491, 12_973, 70_327, 2, 8_192])
}
