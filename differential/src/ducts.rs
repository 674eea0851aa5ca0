//! Histories with ducts, and with several 02 spans between the same two cabinets. Their answers are
//! worked out by hand from document 02's third and seventh requests, and are document 01's where its
//! spans are entered.

use crate::cases::{unhex, Case};
use crate::engine::{MOST_CABINETS, MOST_SPANS};
use crate::exchanges::{fields, TWO_RINGS};
use crate::histories::{worked_out, Known, Line, TRIANGLE, TRIANGLE_ANSWERS};
use crate::journals::Writer;
use crate::spans::Span;

const TWO_CABINETS: Line = ("01 01", "81 0000 81 0001");
const THREE_CABINETS: Line = ("01 01 01", "81 0000 81 0001 81 0002");
const FOUR_CABINETS: Line = ("01 01 01 01", "81 0000 81 0001 81 0002 81 0003");

/// The first span between cabinets 0 and 1: they become one district, of name 0.
const FIRST: &str = "82 0000 0000 0001 01 0001 0000";

/// Span 0, in duct 5.
const IN_5: Line = ("0B 0000 0001 0005", FIRST);

/// Span 1, a mate of span 0. Whichever of them is lost, both are, and the cabinets are parted: no
/// ring changes. Its own mesh, of size 1, joins that of span 0, of size 1: the least name, 0, stays.
const ITS_MATE: Line = ("0B 0000 0001 0005", "82 0001 0000 0000");

/// The rings of the cabinets 0 and 1, and what lies between them, both ways.
const ASKED_OF_2: &str = "04 0000 04 0001 05 0000 0001 06 0000 0001 06 0001 0000";

/// Two rings of one cabinet each; a mesh of name 0; one set of mates parts them, whose least is span 0.
const PARTED_BY_0: &str = "84 0000 0001 84 0001 0001 85 01 0000 86 0001 0000 86 0001 0000";

/// One ring of two cabinets and one mesh, both of name 0; nothing parts them.
const ONE_RING: &str = "84 0000 0002 84 0000 0002 85 01 0000 86 0000 86 0000";

/// Span 1, no mate of span 0: the two are a simple cycle, so the rings and the meshes become one.
const CLOSES: &str = "82 0001 0000 0001 02 0001 0000";

/// The same, as span 2 beside two mates.
const CLOSES_BESIDE_MATES: &str = "82 0002 0000 0001 02 0001 0000";

const KNOWN: [Known; 26] = [
    // No cabinet lies between the two either.
    (
        "two spans of one duct: two rings, one mesh, both sole, 06 lists the lesser",
        &[
            TWO_CABINETS,
            IN_5,
            ITS_MATE,
            (ASKED_OF_2, PARTED_BY_0),
            ("08 0000 08 0001 07 0000 0001", "88 01 88 01 87 0000"),
        ],
        [0, 48, 12, 56, 2, 2],
    ),
    (
        "two spans of two ducts: one ring, neither sole",
        &[
            TWO_CABINETS,
            IN_5,
            ("0B 0000 0001 0006", CLOSES),
            (ASKED_OF_2, ONE_RING),
            ("08 0000 08 0001", "88 00 88 00"),
        ],
        [0, 43, 11, 54, 2, 2],
    ),
    // Mates in either direction: as the first history.
    (
        "there and back in one duct",
        &[
            TWO_CABINETS,
            IN_5,
            ("0B 0001 0000 0005", "82 0001 0000 0000"),
            (ASKED_OF_2, PARTED_BY_0),
            ("08 0000 08 0001", "88 01 88 01"),
        ],
        [0, 43, 11, 53, 2, 2],
    ),
    // A span from 02 is a mate of no 0B span: it protects, and is protected.
    (
        "02 beside 0B",
        &[
            TWO_CABINETS,
            IN_5,
            ("02 0000 0001", CLOSES),
            (ASKED_OF_2, ONE_RING),
            ("08 0000 08 0001", "88 00 88 00"),
        ],
        [0, 41, 11, 54, 2, 2],
    ),
    (
        "0B beside 02",
        &[
            TWO_CABINETS,
            ("02 0000 0001", FIRST),
            ("0B 0001 0000 0005", CLOSES),
            (ASKED_OF_2, ONE_RING),
            ("08 0000 08 0001", "88 00 88 00"),
        ],
        [0, 41, 11, 54, 2, 2],
    ),
    // The loss of both mates leaves the span from 02, and its loss leaves the mates. It is on a
    // cycle with each of them, so the mesh of size 2 takes it in.
    (
        "02 beside two mates",
        &[
            TWO_CABINETS,
            IN_5,
            ITS_MATE,
            (ASKED_OF_2, PARTED_BY_0),
            ("02 0001 0000", CLOSES_BESIDE_MATES),
            (ASKED_OF_2, ONE_RING),
            ("08 0000 08 0001 08 0002", "88 00 88 00 88 00"),
        ],
        [0, 72, 18, 87, 2, 3],
    ),
    // Spans 0 and 2 are mates, and 1 and 3: each set protects the other. The later two find one
    // ring and one mesh.
    (
        "four spans, of two ducts by turns",
        &[
            TWO_CABINETS,
            IN_5,
            ("0B 0000 0001 0006", CLOSES),
            ("0B 0001 0000 0005", "82 0002 0000 0000"),
            ("0B 0001 0000 0006", "82 0003 0000 0000"),
            (ASKED_OF_2, ONE_RING),
            ("08 0000 08 0001 08 0002 08 0003", "88 00 88 00 88 00 88 00"),
        ],
        [0, 63, 15, 72, 2, 4],
    ),
    // Duct 255 is another, though its low byte is that of 65,535.
    (
        "duct 65,535",
        &[
            TWO_CABINETS,
            ("0B 0000 0001 FFFF", FIRST),
            ("0B 0001 0000 FFFF", "82 0001 0000 0000"),
            (ASKED_OF_2, PARTED_BY_0),
            ("0B 0000 0001 00FF", CLOSES_BESIDE_MATES),
            (ASKED_OF_2, ONE_RING),
        ],
        [0, 65, 15, 81, 2, 3],
    ),
    // Neither is duct 0, and they are no mates.
    (
        "ducts 256 and 512",
        &[
            TWO_CABINETS,
            ("0B 0000 0001 0100", FIRST),
            ("0B 0000 0001 0200", CLOSES),
            (ASKED_OF_2, ONE_RING),
        ],
        [0, 37, 9, 50, 2, 2],
    ),
    // The walk 0, 1, 2, 1, 0 takes every span once and comes back, but each duct twice. So spans 0
    // and 3 are one set, 1 and 2 the other, and each parts 0 from 2. Then a span from 02 makes the
    // rings of 0 and 1 one, and only the set of span 1 is left.
    (
        "a loop that uses each duct twice",
        &[
            THREE_CABINETS,
            IN_5,
            ("0B 0001 0002 0006", "82 0001 0001 0001 01 0002 0000"),
            ("0B 0002 0001 0006", "82 0002 0001 0000"),
            ("0B 0001 0000 0005", "82 0003 0000 0000"),
            ("04 0000 04 0001 04 0002", "84 0000 0001 84 0001 0001 84 0002 0001"),
            ("05 0000 0001 05 0001 0002 05 0000 0002", "85 01 0000 85 01 0001 85 00 0000"),
            ("06 0000 0002 06 0002 0000", "86 0002 0000 0001 86 0002 0001 0000"),
            ("07 0000 0002", "87 0001 0001"),
            ("08 0000 08 0001 08 0002 08 0003", "88 01 88 01 88 01 88 01"),
            ("02 0000 0001", "82 0004 0000 0001 02 0001 0000"),
            ("06 0000 0002 08 0000 08 0003 08 0001", "86 0001 0001 88 00 88 00 88 01"),
        ],
        [0, 101, 25, 124, 3, 5],
    ),
    // Spans 0 and 1 are mates, a mesh of size 2. Span 3 closes the loop 0, 1, 2, which uses one of
    // them: three rings become one, and the mesh of span 2 joins theirs. Span 4 finds its mates in
    // one ring. The loss of all three leaves the way over cabinet 2.
    (
        "mates before the loop closes around them and after",
        &[
            THREE_CABINETS,
            IN_5,
            ("0B 0001 0000 0005", "82 0001 0000 0000"),
            ("02 0001 0002", "82 0002 0002 0001 01 0002 0000"),
            ("06 0000 0002", "86 0002 0000 0002"),
            ("02 0002 0000", "82 0003 0000 0003 02 0001 0000 02 0002 0000 03 0002 0000"),
            ("0B 0000 0001 0005", "82 0004 0000 0000"),
            ("08 0000 08 0001 08 0002 08 0003 08 0004", "88 00 88 00 88 00 88 00 88 00"),
            ("06 0000 0001 05 0000 0001 05 0001 0002", "86 0000 85 01 0000 85 01 0000"),
        ],
        [0, 69, 17, 97, 3, 5],
    ),
    // Document 01's triangle: the same duct elsewhere means nothing.
    (
        "one duct number at three pairs",
        &[
            THREE_CABINETS,
            IN_5,
            ("0B 0001 0002 0005", "82 0001 0001 0001 01 0002 0000"),
            ("06 0000 0002 05 0000 0002", "86 0002 0000 0001 85 00 0000"),
            ("0B 0002 0000 0005", "82 0002 0000 0003 02 0001 0000 02 0002 0000 03 0001 0000"),
            ("08 0000 08 0001 08 0002 06 0000 0002", "88 00 88 00 88 00 86 0000"),
        ],
        [0, 48, 12, 75, 3, 3],
    ),
    (
        "one duct number in two districts",
        &[
            FOUR_CABINETS,
            IN_5,
            ("0B 0002 0003 0005", "82 0001 0001 0001 01 0003 0002"),
            ("05 0000 0001 05 0002 0003", "85 01 0000 85 01 0001"),
            ("06 0000 0001 06 0002 0003", "86 0001 0000 86 0001 0001"),
        ],
        [0, 38, 10, 54, 4, 2],
    ),
    // The last span closes a loop of four. Meshes before it: span 0, size 1; spans 1 and 2, size 2;
    // span 3, size 1. So name 1 is kept. In sets of mates all have size 1, and it would be 0.
    (
        "a mesh measured in single spans",
        &[
            FOUR_CABINETS,
            ("02 0002 0003", "82 0000 0000 0001 01 0003 0002"),
            ("0B 0000 0001 0005", "82 0001 0001 0001 01 0001 0000"),
            ("0B 0000 0001 0005", "82 0002 0001 0000"),
            ("02 0001 0002", "82 0003 0003 0002 01 0002 0000 01 0003 0000"),
            (
                "02 0003 0000",
                "82 0004 0001 0005 02 0001 0000 02 0002 0000 02 0003 0000 \
                 03 0000 0001 03 0003 0001",
            ),
            ("05 0000 0001 05 0002 0003", "85 01 0001 85 01 0001"),
        ],
        [0, 43, 11, 100, 4, 5],
    ),
    // Spans 0 and 1 are a ring of name 2 and a mesh of size 2, spans 2, 3 and 4 mates and a mesh of
    // size 3. The last span closes the loop: among rings name 2 is kept with size 2, among meshes
    // name 2 with size 3.
    (
        "three mates against a ring of two spans",
        &[
            FOUR_CABINETS,
            ("0B 0002 0003 0001", "82 0000 0000 0001 01 0003 0002"),
            ("0B 0003 0002 0002", "82 0001 0000 0001 02 0003 0002"),
            ("0B 0000 0001 0005", "82 0002 0002 0001 01 0001 0000"),
            ("0B 0000 0001 0005 0B 0000 0001 0005", "82 0003 0002 0000 82 0004 0002 0000"),
            ("02 0001 0002", "82 0005 0005 0002 01 0002 0000 01 0003 0000"),
            (
                "02 0003 0000",
                "82 0006 0002 0005 02 0000 0002 02 0001 0002 \
                 03 0000 0002 03 0001 0002 03 0005 0002",
            ),
        ],
        [0, 49, 11, 111, 4, 7],
    ),
    // Spans 4 and 5 are mates between two rings, which stay two. Span 6 has their duct at another
    // pair: it closes the loop. The meshes of spans 0 and 1, of 2 and 3, of 4 and 5 have size 2
    // each, so name 0 is kept; ring 0 and ring 2 have two cabinets each.
    (
        "mates between two rings, and their duct at another pair",
        &[
            TWO_RINGS,
            ("0B 0001 0002 0005", "82 0004 0004 0002 01 0002 0000 01 0003 0000"),
            ("0B 0002 0001 0005", "82 0005 0004 0000"),
            ("06 0000 0003 04 0003", "86 0001 0004 84 0002 0002"),
            (
                "0B 0003 0000 0005",
                "82 0006 0000 0006 02 0002 0000 02 0003 0000 \
                 03 0002 0000 03 0003 0000 03 0004 0000 03 0005 0000",
            ),
            ("06 0000 0003 08 0005", "86 0000 88 00"),
        ],
        [0, 69, 15, 136, 4, 7],
    ),
    // Spans 0, 2 and 4 are mates, between 0 and 1. From 0 to 3 each link parts: the set by its
    // least, then 1, then 3. The last span closes the loop; the set's mesh has size 3.
    (
        "three mates with other spans between",
        &[
            FOUR_CABINETS,
            ("0B 0000 0001 0007", FIRST),
            ("02 0001 0002", "82 0001 0001 0001 01 0002 0000"),
            ("0B 0001 0000 0007", "82 0002 0000 0000"),
            ("02 0002 0003", "82 0003 0003 0001 01 0003 0000"),
            ("0B 0000 0001 0007", "82 0004 0000 0000"),
            ("06 0000 0003 06 0003 0000", "86 0003 0000 0001 0003 86 0003 0003 0001 0000"),
            ("08 0000 08 0001 08 0002 08 0003 08 0004", "88 01 88 01 88 01 88 01 88 01"),
            ("07 0000 0003 05 0000 0001", "87 0002 0001 0002 85 01 0000"),
            (
                "02 0003 0000",
                "82 0005 0000 0005 02 0001 0000 02 0002 0000 02 0003 0000 \
                 03 0001 0000 03 0003 0000",
            ),
            ("06 0000 0003 08 0004", "86 0000 88 00"),
        ],
        [0, 83, 21, 138, 4, 6],
    ),
    // The order is that of travel: from 0 the set of span 1 comes before span 0.
    (
        "a set of mates whose least is not the first span",
        &[
            THREE_CABINETS,
            ("02 0001 0002", "82 0000 0000 0001 01 0002 0001"),
            ("0B 0001 0000 0007", "82 0001 0001 0001 01 0000 0001"),
            ("0B 0000 0001 0007", "82 0002 0001 0000"),
            ("06 0000 0002 06 0002 0000", "86 0002 0001 0000 86 0002 0000 0001"),
            ("05 0000 0001", "85 01 0001"),
        ],
        [0, 37, 9, 58, 3, 3],
    ),
    // The exchange is in ring 0 alone: 1 of 2 cabinets. A span from 02 makes the rings one.
    (
        "mates feed no other ring",
        &[
            TWO_CABINETS,
            ("09 0000", "89"),
            IN_5,
            ITS_MATE,
            ("0A 0000 0A 0001 0F", "8A 01 8A 00 8F 01F4"),
            ("02 0000 0001", CLOSES_BESIDE_MATES),
            ("0A 0001 0F", "8A 01 8F 03E8"),
        ],
        [0, 35, 11, 50, 2, 3],
    ),
    ("duct 0", &[TWO_CABINETS, ("0B 0000 0001 0000", "")], [13, 2, 2, 6, 2, 0]),
    (
        "duct 0 beside a span from 02",
        &[TWO_CABINETS, ("02 0000 0001", FIRST), ("0B 0000 0001 0000", "")],
        [13, 7, 3, 18, 2, 1],
    ),
    ("duct 0, unknown cabinet", &[TWO_CABINETS, ("0B 0000 0002 0000", "")], [6, 2, 2, 6, 2, 0]),
    ("duct 0, equal cabinets", &[TWO_CABINETS, ("0B 0001 0001 0000", "")], [8, 2, 2, 6, 2, 0]),
    ("equal and unknown cabinets", &[TWO_CABINETS, ("0B 0002 0002 0005", "")], [6, 2, 2, 6, 2, 0]),
    ("equal cabinets", &[TWO_CABINETS, ("0B 0001 0001 0005", "")], [8, 2, 2, 6, 2, 0]),
    ("8B is no command", &[TWO_CABINETS, ("8B 0000 0001 0005", "")], [4, 2, 2, 6, 2, 0]),
];

/// Span 0, by 02, and a second one, its mate.
const BY_02_FIRST: Line = ("02 0000 0001", FIRST);
const BY_02_MATE: Line = ("02 0000 0001", "82 0001 0000 0000");

/// Histories with several 02 spans between the same two cabinets, which are mates of each other and of
/// no 0B span: document 02's seventh request.
const BY_02: [Known; 13] = [
    (
        "02 beside 02: two rings, one mesh, both sole, 06 lists the lesser",
        &[
            TWO_CABINETS,
            BY_02_FIRST,
            BY_02_MATE,
            (ASKED_OF_2, PARTED_BY_0),
            ("08 0000 08 0001 07 0000 0001", "88 01 88 01 87 0000"),
        ],
        [0, 44, 12, 56, 2, 2],
    ),
    (
        "there and back by 02",
        &[
            TWO_CABINETS,
            BY_02_FIRST,
            ("02 0001 0000", "82 0001 0000 0000"),
            (ASKED_OF_2, PARTED_BY_0),
            ("08 0000 08 0001", "88 01 88 01"),
        ],
        [0, 39, 11, 53, 2, 2],
    ),
    // Each is a mate of each, not of the first alone.
    (
        "four spans from 02",
        &[
            TWO_CABINETS,
            BY_02_FIRST,
            BY_02_MATE,
            ("02 0001 0000 02 0000 0001", "82 0002 0000 0000 82 0003 0000 0000"),
            (ASKED_OF_2, PARTED_BY_0),
            ("08 0000 08 0001 08 0002 08 0003", "88 01 88 01 88 01 88 01"),
        ],
        [0, 55, 15, 71, 2, 4],
    ),
    // Whichever is lost of the 02 spans and the 0B span, the other is left. Duct 1 is not that of the 02
    // spans, nor is any other.
    (
        "duct 1 beside two spans from 02",
        &[
            TWO_CABINETS,
            BY_02_FIRST,
            BY_02_MATE,
            ("0B 0001 0000 0001", CLOSES_BESIDE_MATES),
            (ASKED_OF_2, ONE_RING),
            ("08 0000 08 0001 08 0002", "88 00 88 00 88 00"),
        ],
        [0, 49, 13, 63, 2, 3],
    ),
    (
        "duct 65,535 beside two spans from 02",
        &[
            TWO_CABINETS,
            BY_02_FIRST,
            BY_02_MATE,
            ("0B 0001 0000 FFFF", CLOSES_BESIDE_MATES),
            (ASKED_OF_2, ONE_RING),
        ],
        [0, 40, 10, 57, 2, 3],
    ),
    // Its low byte is 0.
    (
        "duct 256 beside two spans from 02",
        &[
            TWO_CABINETS,
            BY_02_FIRST,
            BY_02_MATE,
            ("0B 0001 0000 0100", CLOSES_BESIDE_MATES),
            (ASKED_OF_2, ONE_RING),
        ],
        [0, 40, 10, 57, 2, 3],
    ),
    // The 02 spans 1 and 2 find a 0B span there, and are mates all the same.
    (
        "two spans from 02 beside a 0B span",
        &[
            TWO_CABINETS,
            ("0B 0000 0001 0001", FIRST),
            ("02 0000 0001", CLOSES),
            ("02 0001 0000", "82 0002 0000 0000"),
            (ASKED_OF_2, ONE_RING),
            (
                "0C 0000 0001",
                "8C 0001 0000 0001 0001 | 8C 0001 0000 0001 0002 \
                 | 8C 0001 0001 0001 0000 | 8C 0001 0002 0001 0000",
            ),
        ],
        [0, 45, 11, 66, 2, 3],
    ),
    // From 0 to 2 the set of spans 0 and 2 comes first, then span 1: 02 spans of two pairs are no mates.
    (
        "a chain by 02, its first link doubled",
        &[
            THREE_CABINETS,
            BY_02_FIRST,
            ("02 0001 0002", "82 0001 0001 0001 01 0002 0000"),
            ("02 0001 0000", "82 0002 0000 0000"),
            ("06 0000 0002 06 0002 0000", "86 0002 0000 0001 86 0002 0001 0000"),
            ("05 0000 0001 05 0001 0002 05 0000 0002", "85 01 0000 85 01 0001 85 00 0000"),
            ("07 0000 0002", "87 0001 0001"),
            ("08 0000 08 0001 08 0002", "88 01 88 01 88 01"),
        ],
        [0, 57, 15, 77, 3, 3],
    ),
    // Document 01's triangle: 02 spans of three pairs are no mates.
    (
        "a triangle by 02",
        &[
            (TRIANGLE, TRIANGLE_ANSWERS),
            ("06 0000 0002 08 0000 08 0001 08 0002", "86 0000 88 00 88 00 88 00"),
        ],
        [0, 32, 10, 64, 3, 3],
    ),
    // Spans 0 and 1 are mates, a mesh of size 2, and so are spans 2 and 3. Span 4 closes the loop 0, 1,
    // 2, and its own mesh has size 1: name 0 is kept. Span 5 finds its mates in one ring.
    (
        "a triangle by 02 with doubled links",
        &[
            THREE_CABINETS,
            BY_02_FIRST,
            BY_02_MATE,
            ("02 0002 0001 02 0001 0002", "82 0002 0002 0001 01 0002 0000 82 0003 0002 0000"),
            ("06 0002 0000", "86 0002 0002 0000"),
            (
                "02 0000 0002",
                "82 0004 0000 0004 02 0001 0000 02 0002 0000 03 0002 0000 03 0003 0000",
            ),
            ("02 0001 0000", "82 0005 0000 0000"),
            ("06 0000 0002 08 0005 08 0000", "86 0000 88 00 88 00"),
        ],
        [0, 49, 13, 95, 3, 6],
    ),
    // The last span closes a loop of four. Meshes before it: span 0, size 1; the mates 1 and 2, size 2;
    // span 3, size 1. So name 1 is kept.
    (
        "a mesh of spans from 02 measured in single spans",
        &[
            FOUR_CABINETS,
            ("02 0002 0003", "82 0000 0000 0001 01 0003 0002"),
            ("02 0000 0001", "82 0001 0001 0001 01 0001 0000"),
            ("02 0001 0000", "82 0002 0001 0000"),
            ("02 0001 0002", "82 0003 0003 0002 01 0002 0000 01 0003 0000"),
            (
                "02 0003 0000",
                "82 0004 0001 0005 02 0001 0000 02 0002 0000 02 0003 0000 \
                 03 0000 0001 03 0003 0001",
            ),
        ],
        [0, 29, 9, 92, 4, 5],
    ),
    // Spans 0 and 2 are one set, spans 1 and 3 the other.
    (
        "02 and duct 2 by turns",
        &[
            TWO_CABINETS,
            BY_02_FIRST,
            ("0B 0000 0001 0002", CLOSES),
            ("02 0001 0000", "82 0002 0000 0000"),
            ("0B 0001 0000 0002", "82 0003 0000 0000"),
            (ASKED_OF_2, ONE_RING),
            (
                "0C 0001 0000",
                "8C 0001 0000 0001 0001 | 8C 0001 0000 0001 0003 \
                 | 8C 0001 0002 0001 0001 | 8C 0001 0002 0001 0003 \
                 | 8C 0001 0001 0001 0000 | 8C 0001 0003 0001 0000 \
                 | 8C 0001 0001 0001 0002 | 8C 0001 0003 0001 0002",
            ),
        ],
        [0, 52, 12, 73, 2, 4],
    ),
    (
        "two spans from 02 feed no other ring",
        &[
            TWO_CABINETS,
            ("09 0000", "89"),
            BY_02_FIRST,
            BY_02_MATE,
            ("0A 0000 0A 0001 0F", "8A 01 8A 00 8F 01F4"),
        ],
        [0, 22, 8, 33, 2, 2],
    ),
];

/// All of them, each with room to the byte and, where a byte is needed, with one byte less.
pub fn known() -> Vec<Case> {
    let mut cases = worked_out(&KNOWN);
    cases.extend(worked_out(&BY_02));
    cases.push(asked_again());
    cases.push(every_bit());
    cases
}

/// Three links in ducts, and their list twenty times: 12 + 36 + 20 × 9 bytes of answers. The lists
/// take more than the 12 + 21 + 5 × (2 × 4 × 2 + 3) bytes that are forecast for all else.
fn asked_again() -> Case {
    let chain = "01 01 01 01 0B 0000 0001 0005 0B 0001 0002 0005 0B 0003 0002 0006";
    let linked = "81 0000 81 0001 81 0002 81 0003 82 0000 0000 0001 01 0001 0000 \
                  82 0001 0001 0001 01 0002 0000 82 0002 0002 0001 01 0003 0000";
    let journal = [unhex(chain), unhex("06 0000 0003").repeat(20)].concat();
    let answers = [unhex(linked), unhex("86 0003 0000 0001 0002").repeat(20)].concat();
    let case = Case::with_room("a list of links in ducts, again and again", 256, 512, journal, 0);
    case.leaves(answers, [0, 125, 27, 228, 4, 3])
}

/// For each bit of a duct a pair of cabinets with two spans in the duct of this bit alone, which are
/// mates, and one whose duct has the next bit too, or the first after the last, which is none.
fn every_bit() -> Case {
    let mut writer = Writer::new();
    let mut answers = Vec::new();
    for bit in 0..16u16 {
        let (a, b, span) = (2 * bit, 2 * bit + 1, 3 * bit);
        let (duct, other) = (1usize << bit, 1 << bit | 1 << ((bit + 1) % 16));
        writer.cabinet();
        writer.cabinet();
        writer.add(Span::in_duct(a.into(), b.into(), duct));
        writer.add(Span::in_duct(b.into(), a.into(), duct));
        writer.add(Span::in_duct(a.into(), b.into(), other));
        // The first joins the districts, the second changes no name, the third joins the rings. All
        // are the mesh of the first.
        answers.extend([fields(0x81, &[a]), fields(0x81, &[b])].concat());
        answers.extend([fields(0x82, &[span, span, 1]), fields(0x01, &[b, a])].concat());
        answers.extend(fields(0x82, &[span + 1, span, 0]));
        answers.extend([fields(0x82, &[span + 2, span, 1]), fields(0x02, &[b, a])].concat());
    }
    // 2 × 1 + 3 × 7 bytes each time, answered by 2 × 3 + 12 + 7 + 12.
    let case = Case::with_room("every bit of a duct", 256, 512, writer.bytes, 0);
    case.leaves(answers, [0, 16 * 23, 16 * 5, 16 * 37, 32, 48])
}

/// A chain of all cabinets, each link a set of two mates, all of one duct number; its longest lists;
/// then the span that closes it: with room for all to the byte, and one byte less.
pub fn chain_of_mates() -> [Case; 2] {
    let cabinets = MOST_CABINETS as usize;
    let links = cabinets - 1;
    let mut writer = Writer::new();
    (0..cabinets).for_each(|_| writer.cabinet());
    (0..links).for_each(|link| writer.add(Span::in_duct(link, link + 1, 5)));
    (0..links).for_each(|link| writer.add(Span::in_duct(link + 1, link, 5)));
    for pair in [[0, links], [links, 0]] {
        writer.command(0x06, &pair);
        writer.command(0x07, &pair);
    }
    writer.span(links, 0);
    // Each link sends one district notice, its mate none. The lists of 06 have an entry for each
    // link. The last span sends a notice for every ring but the first, and one for every span before
    // it but the two of the first mesh.
    let lists = 2 * (3 + 2 * links) + 2 * (3 + 2 * (links - 1));
    let needed = 3 * cabinets + 12 * links + 7 * links + lists + 7 + 5 * (links + 2 * links - 2);
    let case = |room| {
        let journal = writer.bytes.clone();
        Case::with_room("a chain of mates", MOST_CABINETS, MOST_SPANS, journal, room)
    };
    [case(needed).returns(0), case(needed - 1).returns(11)]
}
