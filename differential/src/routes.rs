//! Histories with two routes. Their answers are worked out by hand from document 02's fifth request;
//! where several pairs of routes serve, all of them are listed.

use crate::cases::{one_of, unhex, Case};
use crate::engine::{MOST_CABINETS, MOST_SPANS};
use crate::histories::{worked_out, Known, Line, TRIANGLE, TRIANGLE_ANSWERS};
use crate::journals::Writer;
use crate::layouts;

const TWO_CABINETS: Line = ("01 01", "81 0000 81 0001");
const THREE_CABINETS: Line = ("01 01 01", "81 0000 81 0001 81 0002");

/// The first span between cabinets 0 and 1: they become one district, of name 0.
const FIRST: &str = "82 0000 0000 0001 01 0001 0000";

/// Span 1 between them, no mate of span 0: they become one ring.
const CLOSES: &str = "82 0001 0000 0001 02 0001 0000";

/// Span 1 between them, a mate of span 0: nothing changes.
const A_MATE: &str = "82 0001 0000 0000";

/// Span 2 between them, no mate of the two mates 0 and 1: they become one ring.
const CLOSES_BESIDE_MATES: &str = "82 0002 0000 0001 02 0001 0000";

/// Spans 0 and 1, either of them first.
const ONE_EACH: &str = "8C 0001 0000 0001 0001 | 8C 0001 0001 0001 0000";

/// The chain 0, 1, 2.
const CHAIN: Line =
    ("02 0000 0001 02 0001 0002", "82 0000 0000 0001 01 0001 0000 82 0001 0001 0001 01 0002 0000");

/// Eight cabinets and the way 0, 1, 2, 3 with spans 0, 1 and 2; then the way 1, 4, 5, 3 with spans 3,
/// 4 and 5, and the way 0, 6, 7, 2 with spans 6, 7 and 8. Span 5 closes the loop 1, 2, 3, 5, 4, whose
/// ring and mesh take the name 1. Span 8 closes the loop 0, 6, 7, 2, 1, and these keep their name.
const SHORT_CUT: [Line; 4] = [
    ("01 01 01 01 01 01 01 01", "81 0000 81 0001 81 0002 81 0003 81 0004 81 0005 81 0006 81 0007"),
    (
        "02 0000 0001 02 0001 0002 02 0002 0003 02 0001 0004 02 0004 0005",
        "82 0000 0000 0001 01 0001 0000 82 0001 0001 0001 01 0002 0000 \
         82 0002 0002 0001 01 0003 0000 82 0003 0003 0001 01 0004 0000 \
         82 0004 0004 0001 01 0005 0000",
    ),
    (
        "02 0005 0003",
        "82 0005 0001 0007 02 0002 0001 02 0003 0001 02 0004 0001 02 0005 0001 \
         03 0002 0001 03 0003 0001 03 0004 0001",
    ),
    (
        "02 0000 0006 02 0006 0007 02 0007 0002",
        "82 0006 0006 0001 01 0006 0000 82 0007 0007 0001 01 0007 0000 \
         82 0008 0001 0006 02 0000 0001 02 0006 0001 02 0007 0001 \
         03 0000 0001 03 0006 0001 03 0007 0001",
    ),
];

/// Cabinets 0, 1, 2 on one rail and 3, 4, 5 on the other, with spans 0 and 1, 2 and 3; the rungs are
/// spans 4, 5 and 6. Span 4 joins two districts of three. Span 5 closes the loop 0, 1, 4, 3: ring and
/// mesh take the name 0. Span 6 adds 2 and 5 to the ring, and spans 1 and 3 to the mesh.
const LADDER: [Line; 3] = [
    ("01 01 01 01 01 01", "81 0000 81 0001 81 0002 81 0003 81 0004 81 0005"),
    (
        "02 0000 0001 02 0001 0002 02 0003 0004 02 0004 0005 02 0000 0003",
        "82 0000 0000 0001 01 0001 0000 82 0001 0001 0001 01 0002 0000 \
         82 0002 0002 0001 01 0004 0003 82 0003 0003 0001 01 0005 0003 \
         82 0004 0004 0003 01 0003 0000 01 0004 0000 01 0005 0000",
    ),
    (
        "02 0001 0004 02 0002 0005",
        "82 0005 0000 0005 02 0001 0000 02 0003 0000 02 0004 0000 03 0002 0000 03 0004 0000 \
         82 0006 0000 0004 02 0002 0000 02 0005 0000 03 0001 0000 03 0003 0000",
    ),
];

/// Document 01's spans 1-2, 1-2, 0-1, 0-1 in ducts 1 and 2: one ring, of name 1, and two meshes.
const DOUBLED_CHAIN: Line = (
    "0B 0001 0002 0001 0B 0001 0002 0002 0B 0000 0001 0001 0B 0000 0001 0002",
    "82 0000 0000 0001 01 0002 0001 82 0001 0000 0001 02 0002 0001 \
     82 0002 0002 0001 01 0000 0001 82 0003 0002 0001 02 0000 0001",
);

/// Behind document 01's triangle: cabinets 3 and 4, and the triangle 2, 3, 4. Its three cabinets join
/// ring 0; its spans 3, 4 and 5 are a mesh by themselves, of name 3.
const SECOND_TRIANGLE: Line = (
    "01 01 02 0002 0003 02 0003 0004 02 0004 0002",
    "81 0003 81 0004 82 0003 0003 0001 01 0003 0000 82 0004 0004 0001 01 0004 0000 \
     82 0005 0003 0003 02 0003 0000 02 0004 0000 03 0004 0003",
);

const KNOWN: [Known; 28] = [
    (
        "two parallel spans of two ducts",
        &[
            TWO_CABINETS,
            ("0B 0000 0001 0005", FIRST),
            ("0B 0000 0001 0006", CLOSES),
            ("0C 0000 0001", ONE_EACH),
            ("0C 0001 0000", ONE_EACH),
        ],
        [0, 26, 6, 48, 2, 2],
    ),
    // They are no mates, and either direction serves.
    (
        "a span from 02 and one in duct 1",
        &[
            TWO_CABINETS,
            ("02 0000 0001", FIRST),
            ("0B 0001 0000 0001", CLOSES),
            ("0C 0000 0001", ONE_EACH),
            ("0C 0001 0000", ONE_EACH),
        ],
        [0, 24, 6, 48, 2, 2],
    ),
    // Spans 0 and 2 are mates, and one of them is in one route; span 1 is the other.
    (
        "two spans from 02, and one in a duct between",
        &[
            TWO_CABINETS,
            ("02 0000 0001", FIRST),
            ("0B 0000 0001 0001", CLOSES),
            ("02 0001 0000", "82 0002 0000 0000"),
            (
                "0C 0000 0001",
                "8C 0001 0000 0001 0001 | 8C 0001 0002 0001 0001 \
                 | 8C 0001 0001 0001 0000 | 8C 0001 0001 0001 0002",
            ),
        ],
        [0, 24, 6, 46, 2, 3],
    ),
    // Spans 0 and 1 are mates from 02. Span 3 closes the loop 0, 1, 2: three rings become one, and the
    // mesh of span 2, of size 1, joins theirs, of size 2. The way over cabinet 2 is one route.
    (
        "two spans from 02 and a way round them",
        &[
            THREE_CABINETS,
            ("02 0000 0001", FIRST),
            ("02 0001 0000", A_MATE),
            ("02 0001 0002", "82 0002 0002 0001 01 0002 0000"),
            ("02 0002 0000", "82 0003 0000 0003 02 0001 0000 02 0002 0000 03 0002 0000"),
            (
                "0C 0000 0001",
                "8C 0001 0000 0002 0003 0002 | 8C 0001 0001 0002 0003 0002 \
                 | 8C 0002 0003 0002 0001 0000 | 8C 0002 0003 0002 0001 0001",
            ),
        ],
        [0, 28, 8, 73, 3, 4],
    ),
    (
        "a triangle: the span between the two, and the way over the third",
        &[
            (TRIANGLE, TRIANGLE_ANSWERS),
            ("0C 0000 0001", "8C 0001 0000 0002 0002 0001 | 8C 0002 0002 0001 0001 0000"),
            ("0C 0001 0000", "8C 0001 0000 0002 0001 0002 | 8C 0002 0001 0002 0001 0000"),
            ("0C 0000 0002", "8C 0001 0002 0002 0000 0001 | 8C 0002 0000 0001 0001 0002"),
        ],
        [0, 33, 9, 88, 3, 3],
    ),
    // 0 has two spans and 3 has two. The shortest way, 0, 1, 2, 3, takes one at each; without its
    // spans there is no other, so that its middle, span 1, must be left again.
    (
        "a short cut that must be left again",
        &[
            SHORT_CUT[0],
            SHORT_CUT[1],
            SHORT_CUT[2],
            SHORT_CUT[3],
            (
                "0C 0000 0003",
                "8C 0004 0000 0003 0004 0005 0004 0006 0007 0008 0002 \
                 | 8C 0004 0006 0007 0008 0002 0004 0000 0003 0004 0005",
            ),
            (
                "0C 0003 0000",
                "8C 0004 0005 0004 0003 0000 0004 0002 0008 0007 0006 \
                 | 8C 0004 0002 0008 0007 0006 0004 0005 0004 0003 0000",
            ),
        ],
        [0, 63, 19, 229, 8, 9],
    ),
    // Between two columns there are only two spans, one for each route, so no route takes a rung but
    // at an end.
    (
        "a ladder of three rungs, along it and across",
        &[
            LADDER[0],
            LADDER[1],
            LADDER[2],
            (
                "0C 0000 0002",
                "8C 0002 0000 0001 0004 0004 0002 0003 0006 \
                 | 8C 0004 0004 0002 0003 0006 0002 0000 0001",
            ),
            (
                "0C 0000 0005",
                "8C 0003 0000 0001 0006 0003 0004 0002 0003 \
                 | 8C 0003 0004 0002 0003 0003 0000 0001 0006",
            ),
        ],
        [0, 51, 15, 181, 6, 7],
    ),
    // Cabinet 1 is cut between 0 and 2, and both routes pass through it: only spans may not be
    // shared.
    (
        "two meshes of two spans that meet at a cut cabinet",
        &[
            THREE_CABINETS,
            DOUBLED_CHAIN,
            ("07 0000 0002", "87 0001 0001"),
            (
                "0C 0000 0002",
                "8C 0002 0002 0000 0002 0003 0001 | 8C 0002 0003 0001 0002 0002 0000 \
                 | 8C 0002 0002 0001 0002 0003 0000 | 8C 0002 0003 0000 0002 0002 0001",
            ),
        ],
        [0, 41, 9, 75, 3, 4],
    ),
    // From 0 to 2 by span 2, or by 0 and 1; from there to 3 by span 3, or by 5 and 4.
    (
        "two triangles that meet at a cut cabinet",
        &[
            (TRIANGLE, TRIANGLE_ANSWERS),
            SECOND_TRIANGLE,
            ("07 0000 0003", "87 0001 0002"),
            (
                "0C 0000 0003",
                "8C 0002 0002 0003 0004 0000 0001 0005 0004 \
                 | 8C 0004 0000 0001 0005 0004 0002 0002 0003 \
                 | 8C 0003 0002 0005 0004 0003 0000 0001 0003 \
                 | 8C 0003 0000 0001 0003 0003 0002 0005 0004",
            ),
        ],
        [0, 45, 13, 129, 5, 6],
    ),
    // One of the mates 0 and 1 is in one route, and span 2 is the other.
    (
        "a span from 02 beside two mates",
        &[
            TWO_CABINETS,
            ("0B 0000 0001 0005", FIRST),
            ("0B 0001 0000 0005", A_MATE),
            ("02 0001 0000", CLOSES_BESIDE_MATES),
            (
                "0C 0000 0001",
                "8C 0001 0000 0001 0002 | 8C 0001 0001 0001 0002 \
                 | 8C 0001 0002 0001 0000 | 8C 0001 0002 0001 0001",
            ),
        ],
        [0, 26, 6, 46, 2, 3],
    ),
    // The mates 0 and 2 are in one route, the mates 1 and 3 in the other.
    (
        "four spans, of two ducts by turns",
        &[
            TWO_CABINETS,
            ("0B 0000 0001 0005", FIRST),
            ("0B 0000 0001 0006", CLOSES),
            ("0B 0001 0000 0005 0B 0001 0000 0006", "82 0002 0000 0000 82 0003 0000 0000"),
            (
                "0C 0000 0001",
                "8C 0001 0000 0001 0001 | 8C 0001 0000 0001 0003 \
                 | 8C 0001 0002 0001 0001 | 8C 0001 0002 0001 0003 \
                 | 8C 0001 0001 0001 0000 | 8C 0001 0003 0001 0000 \
                 | 8C 0001 0001 0001 0002 | 8C 0001 0003 0001 0002",
            ),
        ],
        [0, 35, 7, 53, 2, 4],
    ),
    // Spans 0 and 1 are mates, and 2 and 3. Span 4 closes the loop 0, 1, 2: the meshes of the mates
    // have size 2 each, so name 0 is kept. From 0 to 1 there is one of 0 and 1, and the way by span 4
    // and one of 2 and 3.
    (
        "mates on the way",
        &[
            THREE_CABINETS,
            ("0B 0000 0001 0005", FIRST),
            ("0B 0001 0000 0005", A_MATE),
            ("0B 0001 0002 0005", "82 0002 0002 0001 01 0002 0000"),
            ("0B 0002 0001 0005", "82 0003 0002 0000"),
            (
                "02 0002 0000",
                "82 0004 0000 0004 02 0001 0000 02 0002 0000 03 0002 0000 03 0003 0000",
            ),
            (
                "0C 0000 0001",
                "8C 0001 0000 0002 0004 0002 | 8C 0001 0000 0002 0004 0003 \
                 | 8C 0001 0001 0002 0004 0002 | 8C 0001 0001 0002 0004 0003 \
                 | 8C 0002 0004 0002 0001 0000 | 8C 0002 0004 0003 0001 0000 \
                 | 8C 0002 0004 0002 0001 0001 | 8C 0002 0004 0003 0001 0001",
            ),
        ],
        [0, 41, 9, 85, 3, 5],
    ),
    // The same duct elsewhere means nothing: spans 0, 1 and 2 are in one duct and no mates.
    (
        "a triangle of one duct number",
        &[
            THREE_CABINETS,
            ("0B 0000 0001 0005", FIRST),
            ("0B 0001 0002 0005", "82 0001 0001 0001 01 0002 0000"),
            ("0B 0002 0000 0005", "82 0002 0000 0003 02 0001 0000 02 0002 0000 03 0001 0000"),
            ("0C 0000 0001", "8C 0001 0000 0002 0002 0001 | 8C 0002 0002 0001 0001 0000"),
        ],
        [0, 29, 7, 66, 3, 3],
    ),
    // A question changes nothing, and another one may stand between.
    (
        "asked twice, with other commands between",
        &[
            TWO_CABINETS,
            (
                "0B 0000 0001 0001 0B 0000 0001 0002",
                "82 0000 0000 0001 01 0001 0000 82 0001 0000 0001 02 0001 0000",
            ),
            ("0C 0000 0001", ONE_EACH),
            ("04 0001 06 0000 0001 09 0001", "84 0000 0002 86 0000 89"),
            ("0C 0000 0001", ONE_EACH),
            ("08 0001 0A 0000", "88 00 8A 01"),
        ],
        [0, 43, 11, 61, 2, 2],
    ),
    ("equal cabinets", &[TWO_CABINETS, ("0C 0001 0001", "")], [8, 2, 2, 6, 2, 0]),
    (
        "equal cabinets of a ring",
        &[(TRIANGLE, TRIANGLE_ANSWERS), ("0C 0002 0002", "")],
        [8, 18, 6, 55, 3, 3],
    ),
    ("unknown cabinet", &[TWO_CABINETS, ("0C 0000 0002", "")], [6, 2, 2, 6, 2, 0]),
    ("equal and unknown cabinets", &[TWO_CABINETS, ("0C 0002 0002", "")], [6, 2, 2, 6, 2, 0]),
    ("across districts", &[TWO_CABINETS, ("0C 0000 0001", "")], [14, 2, 2, 6, 2, 0]),
    (
        "across districts, from a ring",
        &[(TRIANGLE, TRIANGLE_ANSWERS), ("01", "81 0003"), ("0C 0001 0003", "")],
        [14, 19, 7, 58, 4, 3],
    ),
    (
        "across rings, one span",
        &[TWO_CABINETS, ("02 0000 0001", FIRST), ("0C 0000 0001", "")],
        [14, 7, 3, 18, 2, 1],
    ),
    (
        "across rings, from end to end of a chain",
        &[THREE_CABINETS, CHAIN, ("0C 0002 0000", "")],
        [14, 13, 5, 33, 3, 2],
    ),
    // To lose one of the mates is to lose both.
    (
        "across rings, two mates",
        &[
            TWO_CABINETS,
            ("0B 0000 0001 0005", FIRST),
            ("0B 0001 0000 0005", A_MATE),
            ("0C 0000 0001", ""),
        ],
        [14, 16, 4, 25, 2, 2],
    ),
    (
        "across rings, two spans from 02",
        &[TWO_CABINETS, ("02 0000 0001", FIRST), ("02 0001 0000", A_MATE), ("0C 0000 0001", "")],
        [14, 12, 4, 25, 2, 2],
    ),
    // From 1 to 2 there are only mates from 02.
    (
        "across rings, a ring with spans from 02 behind it",
        &[
            THREE_CABINETS,
            ("0B 0000 0001 0001", FIRST),
            ("0B 0000 0001 0002", CLOSES),
            ("02 0001 0002", "82 0002 0002 0001 01 0002 0000"),
            ("02 0002 0001", "82 0003 0002 0000"),
            ("0C 0001 0000", ONE_EACH),
            ("0C 0002 0000", ""),
        ],
        [14, 32, 8, 61, 3, 4],
    ),
    // Cabinets 0 and 1 share a ring, 1 and 2 only mates.
    (
        "across rings, a ring with mates behind it",
        &[
            THREE_CABINETS,
            ("0B 0000 0001 0001", FIRST),
            ("0B 0000 0001 0002", CLOSES),
            ("0B 0001 0002 0005", "82 0002 0002 0001 01 0002 0000"),
            ("0B 0001 0002 0005", "82 0003 0002 0000"),
            ("0C 0001 0000", ONE_EACH),
            ("0C 0000 0002", ""),
        ],
        [14, 36, 8, 61, 3, 4],
    ),
    ("cut off", &[TWO_CABINETS, ("0C 0000 00", "")], [5, 2, 2, 6, 2, 0]),
    ("8C is no command", &[TWO_CABINETS, ("8C 0000 0001", "")], [4, 2, 2, 6, 2, 0]),
];

/// All of them, each with room to the byte and, where a byte is needed, with one byte less.
pub fn known() -> Vec<Case> {
    let mut cases = worked_out(&KNOWN);
    cases.push(asked_again());
    cases
}

/// Two parallel spans of two ducts, and their routes twenty times: 6 + 24 + 20 × 9 bytes of answers. For all but
/// the routes 6 + 14 + 5 × (2 × 2 + 2) bytes are forecast, which are 20 more than that takes; so the
/// routes need 5 + 2 × 2 bytes each, and not one or two fewer.
fn asked_again() -> Case {
    let spans = "01 01 0B 0000 0001 0001 0B 0000 0001 0002";
    let entered = [unhex("81 0000 81 0001"), unhex(FIRST), unhex(CLOSES)].concat();
    let journal = [unhex(spans), unhex("0C 0000 0001").repeat(20)].concat();
    let mut answers = vec![vec![entered]];
    answers.extend(vec![one_of(ONE_EACH); 20]);
    let case = Case::with_room("two routes, again and again", 256, 512, journal, 0);
    case.leaves_one_of(answers, [0, 116, 24, 210, 2, 2])
}

/// A ladder of all cabinets, and two routes along it, there and back: with room for all to the byte,
/// and one byte less.
pub fn long_ladder() -> [Case; 2] {
    let cabinets = MOST_CABINETS as usize;
    let rungs = cabinets / 2;
    let mut writer = Writer::new();
    writer.enter(&layouts::ladder(rungs));
    writer.command(0x0C, &[0, rungs - 1]);
    writer.command(0x0C, &[rungs - 1, 0]);
    // Each span of a rail sends one district notice, and the first rung one for each cabinet of the
    // second rail. The second rung closes a loop of four: three ring notices and two mesh notices.
    // Each other rung adds two cabinets to the ring, and two spans of the rails to the mesh.
    let rails = 12 * 2 * (rungs - 1);
    let spans = rails + 7 + 5 * rungs + 32 + 27 * (rungs - 2);
    // One route is a rail; the other takes a rung, the other rail and a rung.
    let needed = 3 * cabinets + spans + 2 * (5 + 2 * (rungs - 1 + rungs + 1));
    let exact = [0, writer.bytes.len() as u32, needed as u32];
    let case = |room| {
        let (label, journal) = ("two routes along a ladder", writer.bytes.clone());
        Case::with_room(label, MOST_CABINETS, MOST_SPANS, journal, room).exactly(exact)
    };
    [case(needed).returns(0), case(needed - 1).returns(11)]
}
