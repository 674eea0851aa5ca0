//! The histories of document 01 as document 02's seventh and eighth requests have them: the marked ones with
//! the answers that it gives for them, those with doubled spans also by 02, and the unmarked ones. Behind the
//! name of a district or a ring stands its size.

use crate::cases::{one_of, unhex, Case, OneOf};
use crate::engine::{LONGEST_JOURNAL, MOST_CABINETS, MOST_SPANS};
use crate::journals::{large, Writer};
use crate::layouts::{self, Layout};
use crate::random::Random;
use crate::spans::Span;

/// A history: what it is, its journal, all its answers, and the report, whose first number is the
/// one returned.
type History = (&'static str, &'static str, &'static str, [u32; 6]);

/// Commands, and their answers; none where the command is refused. Where several answers serve, they
/// stand one behind the other with `|` between them.
pub type Line = (&'static str, &'static str);

/// A history in lines: what it is, its lines, and the report, whose first number is the one returned.
pub type Known = (&'static str, &'static [Line], [u32; 6]);

/// Each of these with room to the byte and, where a byte is needed, with one byte less.
pub fn worked_out(known: &[Known]) -> Vec<Case> {
    let mut cases = Vec::new();
    for &(label, lines, report) in known {
        let journal: Vec<u8> = lines.iter().flat_map(|line| unhex(line.0)).collect();
        let answers: Vec<OneOf> = lines.iter().map(|line| one_of(line.1)).collect();
        let case = |room| Case::with_room(label, 256, 512, journal.clone(), room);
        let less = answers.iter().map(|part| part[0].len()).sum::<usize>().checked_sub(1);
        cases.push(case(0).leaves_one_of(answers, report));
        cases.extend(less.map(|room| case(room).returns(11)));
    }
    cases
}

pub const TRIANGLE: &str = "01 01 01 02 0000 0001 02 0001 0002 02 0002 0000";

pub const TRIANGLE_ANSWERS: &str = "81 0000 81 0001 81 0002 \
    82 0000 0000 0001 01 0001 0000 \
    82 0001 0001 0001 01 0002 0000 \
    82 0002 0000 0003 02 0001 0000 02 0002 0000 03 0001 0000";

/// The answers to document 01's spans 0-1, 0-1, 2-3, 2-3, 1-2, 0-3 of which no two are mates.
const ALL_TO_NOUGHT: &str = "81 0000 81 0001 81 0002 81 0003 \
    82 0000 0000 0001 01 0001 0000 82 0001 0000 0001 02 0001 0000 \
    82 0002 0002 0001 01 0003 0002 82 0003 0002 0001 02 0003 0002 \
    82 0004 0004 0002 01 0002 0000 01 0003 0000 \
    82 0005 0000 0005 02 0002 0000 02 0003 0000 03 0002 0000 03 0003 0000 03 0004 0000";

const MARKED: [History; 18] = [
    ("empty journal", "", "", [0, 0, 0, 0, 0, 0]),
    ("triangle", TRIANGLE, TRIANGLE_ANSWERS, [0, 18, 6, 55, 3, 3]),
    (
        "two cabinets, one span: one district, two rings, mesh 0, span sole",
        "01 01 02 0000 0001 03 0000 03 0001 04 0000 04 0001 05 0000 0001 08 0000",
        "81 0000 81 0001 82 0000 0000 0001 01 0001 0000 \
         83 0000 0002 83 0000 0002 84 0000 0001 84 0001 0001 85 01 0000 88 01",
        [0, 27, 9, 44, 2, 1],
    ),
    (
        "two cabinets, two spans: rings 0 and 1, mesh 0, both spans sole, 06 lists span 0",
        "01 01 02 0000 0001 02 0000 0001 04 0000 04 0001 05 0000 0001 08 0000 08 0001 \
         06 0000 0001 06 0001 0000",
        "81 0000 81 0001 82 0000 0000 0001 01 0001 0000 \
         82 0001 0000 0000 84 0000 0001 84 0001 0001 85 01 0000 88 01 88 01 \
         86 0001 0000 86 0001 0000",
        [0, 39, 11, 53, 2, 2],
    ),
    (
        "two cabinets, two spans in ducts 1 and 2: ring 0, mesh 0, neither span sole",
        "01 01 0B 0000 0001 0001 0B 0000 0001 0002 04 0000 04 0001 05 0000 0001 08 0000 08 0001",
        "81 0000 81 0001 82 0000 0000 0001 01 0001 0000 \
         82 0001 0000 0001 02 0001 0000 84 0000 0002 84 0000 0002 85 01 0000 88 00 88 00",
        [0, 33, 9, 48, 2, 2],
    ),
    (
        "chain: sole spans both ways, cut cabinet 1",
        "01 01 01 02 0000 0001 02 0001 0002 06 0000 0002 06 0002 0000 07 0000 0002 07 0002 0000",
        "81 0000 81 0001 81 0002 \
         82 0000 0000 0001 01 0001 0000 82 0001 0001 0001 01 0002 0000 \
         86 0002 0000 0001 86 0002 0001 0000 87 0001 0001 87 0001 0001",
        [0, 33, 9, 57, 3, 2],
    ),
    (
        "spans 1-2, 1-2, 0-1, 0-1 in ducts 1 and 2: one ring, two meshes",
        "01 01 01 0B 0001 0002 0001 0B 0001 0002 0002 0B 0000 0001 0001 0B 0000 0001 0002 \
         04 0000 04 0001 04 0002 05 0001 0002 05 0000 0001 05 0000 0002 06 0000 0002 07 0000 0002",
        "81 0000 81 0001 81 0002 \
         82 0000 0000 0001 01 0002 0001 82 0001 0000 0001 02 0002 0001 \
         82 0002 0002 0001 01 0000 0001 82 0003 0002 0001 02 0000 0001 \
         84 0001 0003 84 0001 0003 84 0001 0003 \
         85 01 0000 85 01 0002 85 00 0000 86 0000 87 0001 0001",
        [0, 65, 15, 92, 3, 4],
    ),
    // Cabinet 1 is cut, and each set of mates is sole.
    (
        "spans 1-2, 1-2, 0-1, 0-1 by 02: three rings, two meshes",
        "01 01 01 02 0001 0002 02 0001 0002 02 0000 0001 02 0000 0001 \
         04 0000 04 0001 04 0002 05 0001 0002 05 0000 0001 05 0000 0002 06 0000 0002 07 0000 0002",
        "81 0000 81 0001 81 0002 \
         82 0000 0000 0001 01 0002 0001 82 0001 0000 0000 \
         82 0002 0002 0001 01 0000 0001 82 0003 0002 0000 \
         84 0000 0001 84 0001 0001 84 0002 0001 \
         85 01 0000 85 01 0002 85 00 0000 86 0002 0002 0000 87 0001 0001",
        [0, 57, 15, 86, 3, 4],
    ),
    (
        "spans 0-1, 0-1, 2-3, 2-3 in ducts 1 and 2, 1-2, 0-3 by 02: all to name 0",
        "01 01 01 01 0B 0000 0001 0001 0B 0000 0001 0002 0B 0002 0003 0001 0B 0002 0003 0002 \
         02 0001 0002 02 0000 0003",
        ALL_TO_NOUGHT,
        [0, 42, 10, 109, 4, 6],
    ),
    (
        "spans 0-1, 0-1, 2-3, 2-3 in ducts 1 and 2, 1-2, 0-3 in duct 1: all to name 0",
        "01 01 01 01 0B 0000 0001 0001 0B 0000 0001 0002 0B 0002 0003 0001 0B 0002 0003 0002 \
         0B 0001 0002 0001 0B 0000 0003 0001",
        ALL_TO_NOUGHT,
        [0, 46, 10, 109, 4, 6],
    ),
    // Each doubled pair is one set of mates, a mesh of size 2, so that name 0 is kept. The last span
    // closes a loop of four: every ring takes the name 0, every other mesh too.
    (
        "spans 0-1, 0-1, 2-3, 2-3, 1-2, 0-3 by 02: four rings until the last",
        "01 01 01 01 02 0000 0001 02 0000 0001 02 0002 0003 02 0002 0003 02 0001 0002 \
         02 0000 0003",
        "81 0000 81 0001 81 0002 81 0003 \
         82 0000 0000 0001 01 0001 0000 82 0001 0000 0000 \
         82 0002 0002 0001 01 0003 0002 82 0003 0002 0000 \
         82 0004 0004 0002 01 0002 0000 01 0003 0000 \
         82 0005 0000 0006 02 0001 0000 02 0002 0000 02 0003 0000 \
         03 0002 0000 03 0003 0000 03 0004 0000",
        [0, 34, 10, 104, 4, 6],
    ),
    ("one cabinet, 06 0 0", "01 06 0000 0000", "81 0000 86 0000", [0, 6, 2, 6, 1, 0]),
    ("one cabinet, 07 0 0", "01 07 0000 0000", "81 0000 87 0000", [0, 6, 2, 6, 1, 0]),
    ("one cabinet, 02 0 0", "01 02 0000 0000", "81 0000", [8, 1, 1, 3, 1, 0]),
    ("one cabinet, 02 0 5", "01 02 0000 0005", "81 0000", [6, 1, 1, 3, 1, 0]),
    ("two cabinets, 06 0 1", "01 01 06 0000 0001", "81 0000 81 0001", [10, 2, 2, 6, 2, 0]),
    ("two cabinets, 07 0 1", "01 01 07 0000 0001", "81 0000 81 0001", [10, 2, 2, 6, 2, 0]),
    ("02 00 00 alone", "02 00 00", "", [5, 0, 0, 0, 0, 0]),
];

/// The marked histories, with their answers and reports known.
pub fn marked() -> Vec<Case> {
    let case = |(label, journal, answers, report): History| {
        Case::with_room(label, 256, 512, unhex(journal), 0).leaves(unhex(answers), report)
    };
    MARKED.into_iter().map(case).collect()
}

/// Every unmarked history: the longest journal, full capacities, room to the byte.
pub fn unmarked() -> Vec<Case> {
    let parts = [longest_journals(), full_cabinets(), full_spans(), to_the_byte()];
    parts.into_iter().flatten().collect()
}

/// 65,536 bytes are read, 65,537 are refused.
fn longest_journals() -> Vec<Case> {
    let mut writer = Writer::new();
    writer.cabinet();
    while writer.bytes.len() + 3 <= LONGEST_JOURNAL {
        writer.command(0x03, &[0]);
    }
    let longest = writer.bytes;
    let mut longer = longest.clone();
    longer.push(0x01);
    let mut wrong = longer[1..].to_vec();
    wrong[0] = 0x01;
    vec![
        Case::new("65,536 bytes", 1, 1, longest).returns(0),
        Case::with_room("65,537 bytes", 1, 1, longer, 100_000).returns(3),
        Case::new("65,536 bytes, one of them wrong", 1, 1, wrong).returns(4),
    ]
}

/// C cabinets are taken and the next is refused.
fn full_cabinets() -> Vec<Case> {
    let mut cases = Vec::new();
    for c in [1, 2, 3, 255, 256, 257, MOST_CABINETS] {
        let full = vec![0x01; c as usize];
        let over = vec![0x01; c as usize + 1];
        cases.push(Case::new("C cabinets", c, 1, full).returns(0));
        cases.push(Case::new("one cabinet more than C", c, 1, over).returns(9));
    }
    cases
}

/// S spans are taken and the next is refused.
fn full_spans() -> Vec<Case> {
    let mut cases = Vec::new();
    for s in [1, 2, 3, 255, 256, 257, MOST_SPANS] {
        let mut writer = Writer::new();
        writer.enter(&Layout { cabinets: 2, spans: vec![Span::new(0, 1); s as usize] });
        let room = 40 + 7 * s as usize;
        cases.push(Case::with_room("S spans", 2, s, writer.bytes.clone(), room).returns(0));
        writer.span(1, 0);
        cases.push(Case::with_room("one span more than S", 2, s, writer.bytes, room).returns(9));
    }
    cases
}

/// An answer that fits to the byte, and one byte less.
fn to_the_byte() -> Vec<Case> {
    let mut cases = Vec::new();
    for (label, journal, answers, report) in MARKED {
        let needed = unhex(answers).len();
        if report[0] == 0 && needed > 0 {
            let case = |room| Case::with_room(label, 256, 512, unhex(journal), room);
            cases.push(case(needed).returns(0));
            cases.push(case(needed - 1).returns(11));
        }
    }
    cases
}

/// The greatest networks: 4,096 cabinets and up to 8,192 spans; with all of them one more is refused.
pub fn largest() -> Vec<Case> {
    let mut random = Random::new(2);
    let (cabinets, spans) = (MOST_CABINETS as usize, MOST_SPANS as usize);
    let mut in_ducts = layouts::star(cabinets, 2);
    in_ducts.lay(&mut random, 60, &[1]);
    let shapes = [
        ("random", layouts::random_spans(&mut random, cabinets, spans)),
        ("sparse", layouts::random_spans(&mut random, cabinets, cabinets)),
        ("chain then loops", layouts::chain_then_loops(&mut random, cabinets, cabinets)),
        ("pairwise doubling", layouts::doubling(&mut random, cabinets, 2).parted()),
        ("star", layouts::star(cabinets, 2).parted()),
        ("star in ducts", in_ducts),
    ];
    let mut cases = Vec::new();
    for (seed, (label, layout)) in shapes.iter().enumerate() {
        let mut journal = large(seed as u64, layout);
        let label = format!("greatest size, {label}");
        let full = layout.spans.len() == spans;
        if full {
            journal.extend([0x02, 0, 0, 0, 1]);
        }
        let case = Case::with_room(&label, MOST_CABINETS, MOST_SPANS, journal, 8 << 20);
        cases.push(case.returns(if full { 9 } else { 0 }));
    }
    cases.extend(long_lists());
    cases
}

/// The longest lists that a chain of all cabinets can have, then the span that closes it: with
/// room for all to the byte, and one byte less.
fn long_lists() -> [Case; 2] {
    let cabinets = MOST_CABINETS as usize;
    let links = cabinets - 1;
    let mut writer = Writer::new();
    writer.enter(&layouts::chain(cabinets));
    for pair in [[0, links], [links, 0]] {
        writer.command(0x06, &pair);
        writer.command(0x07, &pair);
    }
    writer.span(links, 0);
    // Each link sends one district notice. The last span sends a notice for every ring but the
    // first and for every mesh but the first.
    let lists = 2 * (3 + 2 * links) + 2 * (3 + 2 * (links - 1));
    let needed = 3 * cabinets + 12 * links + lists + 7 + 5 * (links + links - 1);
    let case = |room| {
        let journal = writer.bytes.clone();
        Case::with_room("the longest lists", MOST_CABINETS, MOST_SPANS, journal, room)
    };
    [case(needed).returns(0), case(needed - 1).returns(11)]
}
