//! Every refusal from 1 to 14, by every way to it, and the order of the lines where two apply.

use crate::cases::{one_of, unhex, Case, OneOf, Room};
use crate::engine::{work_needed, LONGEST_JOURNAL};
use crate::journals::{operand_count, unknown_bytes, Writer, COMMANDS};

/// All of them.
pub fn all() -> Vec<Case> {
    let parts = [
        capacities(),
        short_buffers(),
        long_journals(),
        command_bytes(),
        cut_off(),
        unknown_cabinets(),
        unknown_spans(),
        equal_cabinets(),
        already_exchange(),
        no_duct(),
        no_capacity(),
        across_districts(),
        no_shared_ring(),
        no_room(),
    ];
    parts.into_iter().flatten().collect()
}

/// The beginning of a journal, all of it accepted, with its answers and the capacities of the run.
struct Beginning {
    c: u32,
    s: u32,
    journal: &'static str,
    answers: &'static str,
    commands: u32,
    cabinets: u32,
    spans: u32,
}

const NOTHING: Beginning =
    Beginning { c: 1, s: 1, journal: "", answers: "", commands: 0, cabinets: 0, spans: 0 };

/// C is full.
const ONE_CABINET: Beginning =
    Beginning { journal: "01", answers: "81 0000", commands: 1, cabinets: 1, ..NOTHING };

const TWO_CABINETS: Beginning = Beginning {
    c: 2,
    journal: "01 01",
    answers: "81 0000 81 0001",
    commands: 2,
    cabinets: 2,
    ..NOTHING
};

/// Three cabinets, of which 0 and 1 are joined by span 0. C and S are full.
const SMALL: Beginning = Beginning {
    c: 3,
    s: 1,
    journal: "01 01 01 02 0000 0001",
    answers: "81 0000 81 0001 81 0002 82 0000 0000 0001 01 0001 0000",
    commands: 4,
    cabinets: 3,
    spans: 1,
};

/// The same with a cabinet and a span to spare.
const SMALL_TO_SPARE: Beginning = Beginning { c: 4, s: 2, ..SMALL };

/// Three cabinets, of which 0 and 1 make a ring of name 0, with spans in two ducts. Cabinet 1 was
/// marked before that, cabinet 2 after it. C and S are full.
const MARKED: Beginning = Beginning {
    c: 3,
    s: 2,
    journal: "01 01 01 0B 0000 0001 0001 09 0001 0B 0000 0001 0002 09 0002",
    answers: "81 0000 81 0001 81 0002 82 0000 0000 0001 01 0001 0000 89 \
              82 0001 0000 0001 02 0001 0000 89",
    commands: 7,
    cabinets: 3,
    spans: 2,
};

/// The same with a cabinet and a span to spare.
const MARKED_TO_SPARE: Beginning = Beginning { c: 4, s: 3, ..MARKED };

/// Three cabinets, of which 0 and 1 are joined by two mates in duct 5. C and S are full.
const MATES: Beginning = Beginning {
    c: 3,
    s: 2,
    journal: "01 01 01 0B 0000 0001 0005 0B 0001 0000 0005",
    answers: "81 0000 81 0001 81 0002 82 0000 0000 0001 01 0001 0000 82 0001 0000 0000",
    commands: 5,
    cabinets: 3,
    spans: 2,
};

/// The same with a cabinet and a span to spare.
const MATES_TO_SPARE: Beginning = Beginning { c: 4, s: 3, ..MATES };

/// Three cabinets, of which 0 and 1 are joined by two mates from 02. C and S are full.
const MATES_BY_02: Beginning = Beginning { journal: "01 01 01 02 0000 0001 02 0001 0000", ..MATES };

/// The same with a cabinet and a span to spare.
const MATES_BY_02_TO_SPARE: Beginning = Beginning { c: 4, s: 3, ..MATES_BY_02 };

/// Two cabinets and two mates in duct 5. Span 0 has a record of 250 metres on day 3 and one of 7 metres on
/// day 2; span 1 has none. C and S are full.
const SURVEYED: Beginning = Beginning {
    c: 2,
    s: 2,
    journal: "01 01 0B 0000 0001 0005 0D 0000 0003 00FA 0B 0001 0000 0005 0D 0000 0002 0007",
    answers: "81 0000 81 0001 82 0000 0000 0001 01 0001 0000 8D 82 0001 0000 0000 8D",
    commands: 6,
    cabinets: 2,
    spans: 2,
};

/// The same with a cabinet and spans to spare.
const SURVEYED_TO_SPARE: Beginning = Beginning { c: 3, s: 8, ..SURVEYED };

/// Three cabinets in a chain.
const CHAIN: Beginning = Beginning {
    c: 3,
    s: 2,
    journal: "01 01 01 02 0000 0001 02 0001 0002",
    answers: "81 0000 81 0001 81 0002 82 0000 0000 0001 01 0001 0000 \
              82 0001 0001 0001 01 0002 0000",
    commands: 5,
    cabinets: 3,
    spans: 2,
};

impl Beginning {
    /// With these bytes behind it, whose first command is refused with this number. No room is
    /// left for an answer, so each number comes before 11.
    fn stopped(&self, label: &str, bytes: &[u8], number: u32) -> Case {
        let mut journal = unhex(self.journal);
        let answers = unhex(self.answers);
        let (place, written) = (journal.len() as u32, answers.len() as u32);
        let report = [number, place, self.commands, written, self.cabinets, self.spans];
        journal.extend(bytes);
        Case::with_room(label, self.c, self.s, journal, 0).leaves(answers, report)
    }

    /// With a command behind it that is refused with this number.
    fn stopped_at(&self, label: &str, byte: u8, operands: &[usize], number: u32) -> Case {
        let mut writer = Writer::new();
        writer.command(byte, operands);
        self.stopped(label, &writer.bytes, number)
    }

    /// With a command behind it that is accepted with one of these answers, which fits to the byte.
    fn goes_on(&self, label: &str, byte: u8, operands: &[usize], answer: OneOf) -> Case {
        let mut writer = Writer::new();
        writer.command(byte, operands);
        let journal = [unhex(self.journal), writer.bytes].concat();
        let before = unhex(self.answers);
        let (place, written) = (journal.len() as u32, (before.len() + answer[0].len()) as u32);
        let cabinets = self.cabinets + u32::from(byte == 1);
        let spans = self.spans + u32::from(byte == 0x02 || byte == 0x0B);
        let report = [0, place, self.commands + 1, written, cabinets, spans];
        let case = Case::with_room(label, self.c, self.s, journal, 0);
        case.leaves_one_of(vec![vec![before], answer], report)
    }
}

fn capacities() -> Vec<Case> {
    let wrong = [0, 4097, 65_536, 1 << 31, u32::MAX];
    let wrong_spans = [0, 8193, 65_536, 1 << 31, u32::MAX];
    let mut cases = Vec::new();
    for c in wrong {
        cases.push(Case::with_room("C outside", c, 1, vec![0x01], 8));
        for s in wrong_spans {
            cases.push(Case::with_room("C and S outside", c, s, vec![0x01], 8));
        }
    }
    for s in wrong_spans {
        cases.push(Case::with_room("S outside", 1, s, vec![0x01], 8));
        let mut before = Case::with_room("1 before 2 and 3", 1, s, vec![0; 65_537], 0);
        (before.work, before.report) = (0, 0);
        cases.push(before);
    }
    cases.into_iter().map(|case| case.returns(1)).collect()
}

fn short_buffers() -> Vec<Case> {
    let mut cases = Vec::new();
    for (c, s) in [(1, 1), (3, 1), (4096, 8192)] {
        for work in [0, 1, work_needed(c, s) - 1] {
            let mut case = Case::with_room("working table too short", c, s, vec![0x01], 8);
            case.work = work;
            cases.push(case.clone());
            case.report = 0;
            cases.push(case.clone());
            case.journal = vec![0x01; LONGEST_JOURNAL + 1];
            case.label = "2 before 3".to_string();
            cases.push(case);
        }
        for report in 0..6 {
            let mut case = Case::with_room("report too short", c, s, vec![0x01], 8);
            case.report = report;
            cases.push(case.clone());
            case.journal = Vec::new();
            case.answers = Room::Bytes(0);
            cases.push(case);
        }
    }
    cases.into_iter().map(|case| case.returns(2)).collect()
}

fn long_journals() -> Vec<Case> {
    let mut cases = Vec::new();
    for length in [LONGEST_JOURNAL + 1, LONGEST_JOURNAL + 2, 100_000, 1 << 20] {
        for byte in [0x00, 0x01] {
            for room in [0, 3, 100] {
                let label = "journal too long";
                cases.push(Case::with_room(label, 2, 2, vec![byte; length], room).returns(3));
            }
        }
    }
    cases
}

fn command_bytes() -> Vec<Case> {
    let mut cases = Vec::new();
    for byte in unknown_bytes() {
        cases.push(NOTHING.stopped("unknown byte alone", &[byte], 4));
        cases.push(SMALL.stopped("unknown last byte", &[byte], 4));
        cases.push(SMALL.stopped("unknown byte and more", &[byte, 0, 0, 0, 1, 0x01], 4));
    }
    cases
}

fn cut_off() -> Vec<Case> {
    let mut cases = Vec::new();
    for (byte, operands) in COMMANDS {
        for kept in 0..2 * operands {
            for filler in [0x00, 0x01, 0xFF] {
                let mut bytes = vec![byte];
                bytes.extend(vec![filler; kept]);
                cases.push(NOTHING.stopped("cut off, alone", &bytes, 5));
                cases.push(SMALL.stopped("cut off", &bytes, 5));
                cases.push(MARKED.stopped("cut off behind exchanges", &bytes, 5));
                cases.push(MATES.stopped("cut off behind mates", &bytes, 5));
                cases.push(SURVEYED.stopped("cut off behind records", &bytes, 5));
            }
        }
    }
    cases
}

fn unknown_cabinets() -> Vec<Case> {
    let mut cases = Vec::new();
    for unknown in [3, 4, 255, 256, 4096, 0xFFFF] {
        for byte in [0x03, 0x04, 0x09, 0x0A] {
            cases.push(SMALL.stopped_at("cabinet unknown", byte, &[unknown], 6));
            cases.push(MARKED.stopped_at("cabinet unknown, with exchanges", byte, &[unknown], 6));
        }
        for byte in [0x02, 0x05, 0x06, 0x07, 0x0C] {
            cases.push(SMALL.stopped_at("first unknown", byte, &[unknown, 0], 6));
            cases.push(SMALL.stopped_at("second unknown", byte, &[1, unknown], 6));
            cases.push(SMALL.stopped_at("equal and unknown", byte, &[unknown, unknown], 6));
        }
        for duct in [0, 5] {
            for beginning in [SMALL, MATES, MATES_TO_SPARE] {
                let stopped = |label, a, b| beginning.stopped_at(label, 0x0B, &[a, b, duct], 6);
                cases.push(stopped("first unknown, 0B", unknown, 0));
                cases.push(stopped("second unknown, 0B", 1, unknown));
                cases.push(stopped("equal and unknown, 0B", unknown, unknown));
            }
        }
    }
    for byte in [0x02, 0x05, 0x06, 0x07, 0x0C] {
        cases.push(NOTHING.stopped_at("none at all", byte, &[0, 0], 6));
        cases.push(ONE_CABINET.stopped_at("one cabinet alone", byte, &[0, 1], 6));
    }
    for duct in [0, 1] {
        cases.push(NOTHING.stopped_at("none at all, 0B", 0x0B, &[0, 0, duct], 6));
        cases.push(ONE_CABINET.stopped_at("0B 0 1 with one cabinet", 0x0B, &[0, 1, duct], 6));
    }
    for byte in [0x03, 0x04, 0x09, 0x0A] {
        cases.push(NOTHING.stopped_at("none at all", byte, &[0], 6));
    }
    cases.push(ONE_CABINET.stopped_at("02 5 5 with one cabinet", 2, &[5, 5], 6));
    cases
}

/// 7 comes before 11, and goes by the spans that are there: not by the capacities, nor by the cabinets.
/// Neither days nor metres have a part in it.
fn unknown_spans() -> Vec<Case> {
    let mut cases = Vec::new();
    for (byte, day, metres) in
        [(0x08, 0, 0), (0x0E, 0, 0), (0x0D, 0, 0), (0x0D, 3, 250), (0x0D, 0xFFFF, 0xFFFF)]
    {
        let stopped = |beginning: &Beginning, label, span| {
            let operands = [span, day, metres];
            beginning.stopped_at(label, byte, &operands[..operand_count(byte)], 7)
        };
        cases.push(stopped(&NOTHING, "no span at all", 0));
        cases.push(stopped(&ONE_CABINET, "a cabinet is no span", 0));
        for unknown in [1, 2, 255, 256, 8192, 0xFFFF] {
            cases.push(stopped(&SMALL, "span unknown", unknown));
            cases.push(stopped(&SMALL_TO_SPARE, "span unknown, one to spare", unknown));
        }
        for unknown in [2, 3, 7, 256, 0xFFFF] {
            cases.push(stopped(&SURVEYED, "span unknown, with records", unknown));
            cases.push(stopped(&SURVEYED_TO_SPARE, "span unknown, to spare", unknown));
            cases.push(stopped(&SURVEYED_TO_SPARE, "span unknown", unknown).with_more(1));
            cases.push(stopped(&SURVEYED_TO_SPARE, "span unknown", unknown).with_more(100));
        }
    }
    cases
}

fn equal_cabinets() -> Vec<Case> {
    let mut cases = Vec::new();
    for byte in [0x02, 0x05, 0x0C] {
        for cabinet in 0..3 {
            cases.push(SMALL.stopped_at("equal, 8 before 9", byte, &[cabinet, cabinet], 8));
            cases.push(SMALL_TO_SPARE.stopped_at("equal", byte, &[cabinet, cabinet], 8));
            cases.push(MARKED.stopped_at("equal in a ring", byte, &[cabinet, cabinet], 8));
            cases.push(MATES.stopped_at("equal beside mates", byte, &[cabinet, cabinet], 8));
            cases.push(MATES_BY_02.stopped_at(
                "equal, mates from 02",
                byte,
                &[cabinet, cabinet],
                8,
            ));
        }
        cases.push(ONE_CABINET.stopped_at("one cabinet", byte, &[0, 0], 8));
    }
    for duct in [0, 5, 0xFFFF] {
        for cabinet in 0..3 {
            for beginning in [SMALL, SMALL_TO_SPARE, MATES, MATES_TO_SPARE] {
                let operands = [cabinet, cabinet, duct];
                cases.push(beginning.stopped_at("equal, 8 before 13 and 9", 0x0B, &operands, 8));
            }
        }
        cases.push(ONE_CABINET.stopped_at("one cabinet, 0B", 0x0B, &[0, 0, duct], 8));
    }
    cases
}

/// 12 comes before 11, and does not go by the capacities. It is for the exchanges only: another
/// cabinet is marked, also in a ring that holds one and with C and S full.
fn already_exchange() -> Vec<Case> {
    let mut cases = Vec::new();
    for beginning in [MARKED, MARKED_TO_SPARE] {
        for exchange in [1, 2] {
            cases.push(beginning.stopped_at("12, before 11", 0x09, &[exchange], 12));
            let roomy = beginning.stopped_at("12 with room", 0x09, &[exchange], 12);
            cases.push(roomy.with_more(1));
        }
        cases.push(beginning.goes_on("another of its ring", 0x09, &[0], one_of("89")));
    }
    for cabinet in 0..3 {
        cases.push(SMALL.goes_on("09 with C and S full", 0x09, &[cabinet], one_of("89")));
    }
    cases
}

/// 13 comes before 9 and before 11, in one district and across two, beside spans of every kind and
/// beside none, in both directions. It is for duct 0 only: 256 has 0 in its low byte.
fn no_duct() -> Vec<Case> {
    let mut cases = vec![TWO_CABINETS.stopped_at("13, no span yet", 0x0B, &[0, 1, 0], 13)];
    for beginning in [
        SMALL,
        SMALL_TO_SPARE,
        MARKED,
        MARKED_TO_SPARE,
        MATES,
        MATES_TO_SPARE,
        MATES_BY_02,
        MATES_BY_02_TO_SPARE,
    ] {
        for [a, b] in [[0, 1], [1, 0], [0, 2], [2, 1]] {
            cases.push(beginning.stopped_at("13, before 11", 0x0B, &[a, b, 0], 13));
            let roomy = beginning.stopped_at("13 with room", 0x0B, &[a, b, 0], 13);
            cases.push(roomy.with_more(12));
        }
    }
    let answer = one_of("82 0001 0001 0001 01 0002 0000");
    for duct in [1, 255, 256, 0xFF00, 0xFFFF] {
        let operands = [2, 1, duct];
        cases.push(SMALL_TO_SPARE.goes_on("no 13", 0x0B, &operands, answer.clone()));
    }
    cases
}

fn no_capacity() -> Vec<Case> {
    vec![
        ONE_CABINET.stopped_at("second cabinet of one", 1, &[], 9),
        SMALL.stopped_at("01 with C cabinets", 1, &[], 9),
        SMALL.stopped_at("02 with S spans, across districts", 2, &[0, 2], 9),
        SMALL.stopped_at("02 with S spans, in one district", 2, &[1, 0], 9),
        SMALL.stopped_at("0B with S spans, across districts", 0x0B, &[0, 2, 5], 9),
        SMALL.stopped_at("0B with S spans, in one district", 0x0B, &[1, 0, 5], 9),
        MATES.stopped_at("a mate with S spans", 0x0B, &[0, 1, 5], 9),
        MATES.stopped_at("02 beside mates with S spans", 0x02, &[0, 1], 9),
        MATES_BY_02.stopped_at("a mate by 02 with S spans", 0x02, &[0, 1], 9),
        MATES_BY_02.stopped_at("0B beside mates from 02 with S spans", 0x0B, &[0, 1, 1], 9),
    ]
}

fn across_districts() -> Vec<Case> {
    let mut cases = Vec::new();
    for byte in [6, 7] {
        for pair in [[0, 2], [2, 0], [1, 2], [2, 1]] {
            cases.push(SMALL.stopped_at("across districts", byte, &pair, 10));
        }
        cases.push(TWO_CABINETS.stopped_at("two cabinets", byte, &[0, 1], 10));
    }
    cases
}

/// 14 is for two cabinets that share no ring, whether they share a district or not, and comes before
/// 11. 10 is not for 0C.
fn no_shared_ring() -> Vec<Case> {
    let two_rings = [
        (TWO_CABINETS, [0, 1], "14, no span"),
        (SMALL, [0, 1], "14, one span"),
        (SMALL, [0, 2], "14, across districts"),
        (SMALL, [1, 2], "14, across districts"),
        (SMALL_TO_SPARE, [0, 1], "14, one span"),
        (MARKED, [0, 2], "14, a ring in another district"),
        (MARKED, [1, 2], "14, a ring in another district"),
        (MATES, [0, 1], "14, mates protect nothing"),
        (MATES, [0, 2], "14, across districts"),
        (MATES_TO_SPARE, [0, 1], "14, mates protect nothing"),
        (MATES_BY_02, [0, 1], "14, mates from 02 protect nothing"),
        (MATES_BY_02, [1, 2], "14, across districts"),
        (MATES_BY_02_TO_SPARE, [0, 1], "14, mates from 02 protect nothing"),
        (CHAIN, [0, 1], "14, a chain"),
        (CHAIN, [0, 2], "14, from end to end of a chain"),
    ];
    let mut cases = Vec::new();
    for (beginning, [a, b], label) in two_rings {
        for pair in [[a, b], [b, a]] {
            cases.push(beginning.stopped_at(label, 0x0C, &pair, 14));
            cases.push(beginning.stopped_at(label, 0x0C, &pair, 14).with_more(5));
            cases.push(beginning.stopped_at(label, 0x0C, &pair, 14).with_more(100));
        }
    }
    cases
}

/// A beginning, a command behind it, and its answer, or one of several.
type Answered = (Beginning, u8, &'static [usize], &'static str);

const ANSWERED: [Answered; 55] = [
    (SMALL_TO_SPARE, 0x01, &[], "81 0003"),
    (SMALL_TO_SPARE, 0x02, &[0, 2], "82 0001 0001 0001 01 0002 0000"),
    (SMALL_TO_SPARE, 0x02, &[0, 1], "82 0001 0000 0000"),
    (SMALL_TO_SPARE, 0x02, &[1, 0], "82 0001 0000 0000"),
    (ONE_CABINET, 0x03, &[0], "83 0000 0001"),
    (ONE_CABINET, 0x04, &[0], "84 0000 0001"),
    (SMALL_TO_SPARE, 0x03, &[0], "83 0000 0002"),
    (SMALL_TO_SPARE, 0x03, &[2], "83 0002 0001"),
    (SMALL_TO_SPARE, 0x04, &[1], "84 0001 0001"),
    (MARKED, 0x04, &[1], "84 0000 0002"),
    (MATES, 0x03, &[1], "83 0000 0002"),
    (MATES, 0x04, &[1], "84 0001 0001"),
    (SMALL_TO_SPARE, 0x05, &[0, 1], "85 01 0000"),
    (SMALL_TO_SPARE, 0x05, &[0, 2], "85 00 0000"),
    (SMALL_TO_SPARE, 0x06, &[0, 1], "86 0001 0000"),
    (SMALL_TO_SPARE, 0x06, &[0, 0], "86 0000"),
    (SMALL_TO_SPARE, 0x07, &[0, 1], "87 0000"),
    (SMALL_TO_SPARE, 0x07, &[2, 2], "87 0000"),
    (SMALL_TO_SPARE, 0x08, &[0], "88 01"),
    (SMALL_TO_SPARE, 0x09, &[1], "89"),
    (SMALL_TO_SPARE, 0x0A, &[1], "8A 00"),
    (SMALL_TO_SPARE, 0x0F, &[], "8F 0000"),
    (MARKED_TO_SPARE, 0x09, &[0], "89"),
    (MARKED_TO_SPARE, 0x0A, &[0], "8A 01"),
    (MARKED_TO_SPARE, 0x0A, &[2], "8A 01"),
    (MARKED_TO_SPARE, 0x0F, &[], "8F 03E8"),
    (NOTHING, 0x0F, &[], "8F 0000"),
    (SMALL_TO_SPARE, 0x0B, &[0, 2, 5], "82 0001 0001 0001 01 0002 0000"),
    (SMALL_TO_SPARE, 0x0B, &[1, 0, 5], "82 0001 0000 0001 02 0001 0000"),
    (MATES_TO_SPARE, 0x0B, &[0, 1, 5], "82 0002 0000 0000"),
    (MATES_TO_SPARE, 0x0B, &[0, 1, 6], "82 0002 0000 0001 02 0001 0000"),
    (MATES_TO_SPARE, 0x02, &[0, 1], "82 0002 0000 0001 02 0001 0000"),
    (MATES_TO_SPARE, 0x06, &[1, 0], "86 0001 0000"),
    (MATES_TO_SPARE, 0x08, &[1], "88 01"),
    (MATES_BY_02_TO_SPARE, 0x02, &[0, 1], "82 0002 0000 0000"),
    (MATES_BY_02_TO_SPARE, 0x0B, &[0, 1, 1], "82 0002 0000 0001 02 0001 0000"),
    (MATES_BY_02_TO_SPARE, 0x06, &[1, 0], "86 0001 0000"),
    (MATES_BY_02_TO_SPARE, 0x08, &[1], "88 01"),
    (MARKED, 0x0C, &[0, 1], "8C 0001 0000 0001 0001 | 8C 0001 0001 0001 0000"),
    (MARKED, 0x0C, &[1, 0], "8C 0001 0000 0001 0001 | 8C 0001 0001 0001 0000"),
    (MARKED_TO_SPARE, 0x0C, &[0, 1], "8C 0001 0000 0001 0001 | 8C 0001 0001 0001 0000"),
    (MARKED_TO_SPARE, 0x0C, &[1, 0], "8C 0001 0000 0001 0001 | 8C 0001 0001 0001 0000"),
    (SMALL, 0x0D, &[0, 0, 0], "8D"),
    (SMALL, 0x0E, &[0], "8E 00 0000"),
    (SMALL_TO_SPARE, 0x0D, &[0, 0xFFFF, 0xFFFF], "8D"),
    (SMALL_TO_SPARE, 0x0E, &[0], "8E 00 0000"),
    (SURVEYED, 0x0D, &[0, 3, 9], "8D"),
    (SURVEYED, 0x0D, &[0, 1, 9], "8D"),
    (SURVEYED, 0x0D, &[1, 3, 9], "8D"),
    (SURVEYED, 0x0E, &[0], "8E 01 00FA"),
    (SURVEYED, 0x0E, &[1], "8E 00 0000"),
    (SURVEYED_TO_SPARE, 0x0E, &[0], "8E 01 00FA"),
    (SURVEYED_TO_SPARE, 0x0B, &[0, 1, 5], "82 0002 0000 0000"),
    (SURVEYED_TO_SPARE, 0x06, &[0, 1], "86 0001 0000"),
    (SURVEYED_TO_SPARE, 0x08, &[1], "88 01"),
];

/// Each command with every room that is too small for its answer, and with just enough.
fn no_room() -> Vec<Case> {
    let mut cases = Vec::new();
    for (beginning, byte, operands, answer) in ANSWERED {
        let answer = one_of(answer);
        for room in 0..answer[0].len() {
            let label = format!("command {byte:02x} {operands:?} with room {room}");
            cases.push(beginning.stopped_at(&label, byte, operands, 11).with_more(room));
        }
        let label = format!("command {byte:02x} {operands:?} with just enough room");
        cases.push(beginning.goes_on(&label, byte, operands, answer));
    }
    cases
}

/// Every choice of buffers that are empty, with capacities inside and outside their ranges.
pub fn empty_buffers() -> Vec<Case> {
    let mut cases = Vec::new();
    for (c, s) in [(0, 1), (1, 1), (3, 2), (4096, 8192), (u32::MAX, u32::MAX)] {
        for choice in 0..16 {
            let filled = |bit: u32| choice & bit != 0;
            let journal = if filled(1) { vec![1, 1, 2, 0, 0, 0, 1] } else { Vec::new() };
            let room = if filled(2) { 18 } else { 0 };
            let mut case = Case::with_room("empty buffers", c, s, journal, room);
            if !filled(4) {
                case.work = 0;
            }
            if !filled(8) {
                case.report = 0;
            }
            cases.push(case);
        }
    }
    cases
}
