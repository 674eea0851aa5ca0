//! Histories with exchanges. Their answers are worked out by hand from document 02's second
//! request, and are document 01's where its spans are entered.
//!
//! A share is a whole number of thousandths, by its tenth request the nearest one, for an exact half the
//! even one. In hexadecimal 1000 is 03E8, 750 is 02EE, 667 is 029B, 500 is 01F4, 333 is 014D, 250 is 00FA
//! and 143 is 008F.

use crate::cases::{unhex, Case};
use crate::histories::{worked_out, Known, Line, TRIANGLE, TRIANGLE_ANSWERS};
use crate::journals::Writer;
use crate::spans::Span;

const THREE_CABINETS: Line = ("01 01 01", "81 0000 81 0001 81 0002");

/// Document 01's triangle, a ring of three cabinets, and a cabinet by itself.
const RING_AND_SINGLE: [Line; 2] = [(TRIANGLE, TRIANGLE_ANSWERS), ("01", "81 0003")];

/// Cabinets 0 and 1 in ring 0, cabinets 2 and 3 in ring 2. With the two lines below these are
/// document 01's spans 0-1, 0-1, 2-3, 2-3, 1-2, 0-3, the doubled ones in ducts 1 and 2.
pub const TWO_RINGS: Line = (
    "01 01 01 01 0B 0000 0001 0001 0B 0000 0001 0002 0B 0002 0003 0001 0B 0002 0003 0002",
    "81 0000 81 0001 81 0002 81 0003 \
     82 0000 0000 0001 01 0001 0000 82 0001 0000 0001 02 0001 0000 \
     82 0002 0002 0001 01 0003 0002 82 0003 0002 0001 02 0003 0002",
);

/// Their districts become one. The rings stay two.
const ONE_DISTRICT: Line = ("02 0001 0002", "82 0004 0004 0002 01 0002 0000 01 0003 0000");

/// Their rings become one, of name 0: ring 2 loses its name.
const ONE_RING: Line = (
    "02 0000 0003",
    "82 0005 0000 0005 02 0002 0000 02 0003 0000 03 0002 0000 03 0003 0000 03 0004 0000",
);

/// Both questions about all of three, or four, cabinets.
const ASKED_OF_3: &str = "0A 0000 0A 0001 0A 0002 0F";
const ASKED_OF_4: &str = "0A 0000 0A 0001 0A 0002 0A 0003 0F";

const KNOWN: [Known; 19] = [
    // The share of an empty network is 0.
    ("empty network", &[("0F", "8F 0000")], [0, 1, 1, 3, 0, 0]),
    // 0 of 1 is 0, and 1 of 1 is 1000.
    (
        "one cabinet, before and after its mark",
        &[
            ("01 0A 0000 0F", "81 0000 8A 00 8F 0000"),
            ("09 0000", "89"),
            ("0A 0000 0F", "8A 01 8F 03E8"),
        ],
        [0, 12, 6, 14, 1, 0],
    ),
    // Each cabinet is a ring. 0 of 3; 1 of 3 is 333.3, down to 333; 2 of 3 is 666.7, up to 667;
    // 3 of 3 is 1000.
    (
        "three cabinets, marked one after the other",
        &[
            THREE_CABINETS,
            ("0F", "8F 0000"),
            ("09 0000 0F", "89 8F 014D"),
            ("09 0002 0F", "89 8F 029B"),
            ("09 0001 0F", "89 8F 03E8"),
        ],
        [0, 16, 10, 24, 3, 0],
    ),
    // 1 of 7 is 142.9, up to 143.
    (
        "one of seven cabinets",
        &[
            ("01 01 01 01 01 01 01", "81 0000 81 0001 81 0002 81 0003 81 0004 81 0005 81 0006"),
            ("09 0006 0F", "89 8F 008F"),
        ],
        [0, 11, 9, 25, 7, 0],
    ),
    // 1 of 1, 1 of 2, 1 of 3.
    (
        "cabinets that come later lower the share",
        &[
            ("01 09 0000 0F", "81 0000 89 8F 03E8"),
            ("01 0F", "81 0001 8F 01F4"),
            ("01 0F", "81 0002 8F 014D"),
        ],
        [0, 9, 7, 19, 3, 0],
    ),
    // One span: one district, two rings. The exchange is in ring 0 only: 1 of 2 cabinets.
    (
        "one district of two rings, one of them fed",
        &[
            ("01 01 02 0000 0001", "81 0000 81 0001 82 0000 0000 0001 01 0001 0000"),
            ("09 0000", "89"),
            ("0A 0000 0A 0001 0F", "8A 01 8A 00 8F 01F4"),
        ],
        [0, 17, 7, 26, 2, 1],
    ),
    // Two 02 spans are mates: the rings stay two, and the exchange feeds one of them.
    (
        "two spans from 02 feed no other ring",
        &[
            ("01 01 02 0000 0001", "81 0000 81 0001 82 0000 0000 0001 01 0001 0000"),
            ("09 0000 02 0000 0001", "89 82 0001 0000 0000"),
            ("0A 0000 0A 0001 0F", "8A 01 8A 00 8F 01F4"),
        ],
        [0, 22, 8, 33, 2, 2],
    ),
    // Cabinet 2 is a ring by itself, also in the chain: 1 of 3. The last span makes one ring, whose
    // name is 0, so cabinet 2 takes its exchange into a ring of another name: 3 of 3.
    (
        "an exchange alone, in a chain, and in a ring",
        &[
            THREE_CABINETS,
            ("09 0002", "89"),
            (ASKED_OF_3, "8A 00 8A 00 8A 01 8F 014D"),
            (
                "02 0000 0001 02 0001 0002",
                "82 0000 0000 0001 01 0001 0000 82 0001 0001 0001 01 0002 0000",
            ),
            (ASKED_OF_3, "8A 00 8A 00 8A 01 8F 014D"),
            ("02 0002 0000", "82 0002 0000 0003 02 0001 0000 02 0002 0000 03 0001 0000"),
            (ASKED_OF_3, "8A 01 8A 01 8A 01 8F 03E8"),
        ],
        [0, 51, 19, 83, 3, 3],
    ),
    // 3 of 4 cabinets are 750; of the two rings it would be one, 500.
    (
        "a ring of three with an exchange, and a cabinet without",
        &[
            RING_AND_SINGLE[0],
            RING_AND_SINGLE[1],
            ("09 0001", "89"),
            (ASKED_OF_4, "8A 01 8A 01 8A 01 8A 00 8F 02EE"),
        ],
        [0, 35, 13, 70, 4, 3],
    ),
    // 1 of 4 cabinets is 250.
    (
        "a ring of three without an exchange, and a cabinet with one",
        &[
            RING_AND_SINGLE[0],
            RING_AND_SINGLE[1],
            ("09 0003", "89"),
            (ASKED_OF_4, "8A 00 8A 00 8A 00 8A 01 8F 00FA"),
        ],
        [0, 35, 13, 70, 4, 3],
    ),
    // A second and a third exchange in a ring are accepted, and its 3 of 4 cabinets count once.
    (
        "several exchanges in one ring",
        &[
            RING_AND_SINGLE[0],
            RING_AND_SINGLE[1],
            ("09 0000 09 0001 0F", "89 89 8F 02EE"),
            ("09 0002 0F", "89 8F 02EE"),
        ],
        [0, 30, 12, 67, 4, 3],
    ),
    // Ring 2 holds the exchange: 2 of 4 cabinets, also in one district. When the rings are one, its
    // count goes to ring 0: 4 of 4. No name goes by the exchange.
    (
        "an exchange in the ring that loses its name",
        &[
            TWO_RINGS,
            ("09 0003", "89"),
            (ASKED_OF_4, "8A 00 8A 00 8A 01 8A 01 8F 01F4"),
            ONE_DISTRICT,
            (ASKED_OF_4, "8A 00 8A 00 8A 01 8A 01 8F 01F4"),
            ONE_RING,
            (ASKED_OF_4, "8A 01 8A 01 8A 01 8A 01 8F 03E8"),
        ],
        [0, 84, 26, 143, 4, 6],
    ),
    // The same with the exchange in ring 0, whose count stays when ring 2 brings none.
    (
        "an exchange in the ring that keeps its name",
        &[
            TWO_RINGS,
            ("09 0000", "89"),
            (ASKED_OF_4, "8A 01 8A 01 8A 00 8A 00 8F 01F4"),
            ONE_DISTRICT,
            (ASKED_OF_4, "8A 01 8A 01 8A 00 8A 00 8F 01F4"),
            ONE_RING,
            (ASKED_OF_4, "8A 01 8A 01 8A 01 8A 01 8F 03E8"),
        ],
        [0, 84, 26, 143, 4, 6],
    ),
    // Each ring holds one: 4 of 4 cabinets before and after. The one ring then holds two.
    (
        "an exchange in each of two rings that become one",
        &[
            TWO_RINGS,
            ("09 0003 09 0000", "89 89"),
            (ASKED_OF_4, "8A 01 8A 01 8A 01 8A 01 8F 03E8"),
            ONE_DISTRICT,
            (ASKED_OF_4, "8A 01 8A 01 8A 01 8A 01 8F 03E8"),
            ONE_RING,
            (ASKED_OF_4, "8A 01 8A 01 8A 01 8A 01 8F 03E8"),
        ],
        [0, 87, 27, 144, 4, 6],
    ),
    (
        "a cabinet marked twice",
        &[("01 09 0000", "81 0000 89"), ("09 0000", "")],
        [12, 4, 2, 4, 1, 0],
    ),
    // Cabinet 1 stays an exchange when its ring takes name 0.
    (
        "a cabinet marked again after its ring has lost its name",
        &[
            ("01 01 09 0001", "81 0000 81 0001 89"),
            (
                "0B 0000 0001 0001 0B 0000 0001 0002",
                "82 0000 0000 0001 01 0001 0000 82 0001 0000 0001 02 0001 0000",
            ),
            ("09 0001", ""),
        ],
        [12, 19, 5, 31, 2, 2],
    ),
    ("09 of an unknown cabinet", &[("01", "81 0000"), ("09 0001", "")], [6, 1, 1, 3, 1, 0]),
    ("0A of an unknown cabinet", &[("01", "81 0000"), ("0A 0001", "")], [6, 1, 1, 3, 1, 0]),
    ("09 without cabinets", &[("09 0000", "")], [6, 0, 0, 0, 0, 0]),
];

/// So many exchanges, and the share.
type Share = (usize, u16);

/// Among 16 cabinets each is 62.5, so that every odd number is an exact half. It goes down to the even one
/// from 62.5, 312.5, 562.5 and 812.5, and up to it from 187.5, 437.5, 687.5 and 937.5.
const OF_16: [Share; 17] = [
    (0, 0),
    (1, 62),
    (2, 125),
    (3, 188),
    (4, 250),
    (5, 312),
    (6, 375),
    (7, 438),
    (8, 500),
    (9, 562),
    (10, 625),
    (11, 688),
    (12, 750),
    (13, 812),
    (14, 875),
    (15, 938),
    (16, 1000),
];

/// Among 48 cabinets: 41.7 up to 42, 62.5 down to 62, 83.3 down to 83; 166.7 up to 167, 187.5 up to 188, 208.3
/// down to 208; and 1000.
const OF_48: [Share; 7] = [(2, 42), (3, 62), (4, 83), (8, 167), (9, 188), (10, 208), (48, 1000)];

/// Among 2,000 cabinets each is 0.5: 0.5 down to 0, 1, 1.5 up to 2, 2, 2.5 down to 2, 3.5 up to 4; 498.5 down
/// to 498, 499.5 up to 500, 500, 500.5 down to 500, 501.5 up to 502; 998.5 down to 998, 999, 999.5 up to
/// 1000, and 1000.
const OF_2000: [Share; 15] = [
    (1, 0),
    (2, 1),
    (3, 2),
    (4, 2),
    (5, 2),
    (7, 4),
    (997, 498),
    (999, 500),
    (1000, 500),
    (1001, 500),
    (1003, 502),
    (1997, 998),
    (1998, 999),
    (1999, 1000),
    (2000, 1000),
];

/// Among 4,096 cabinets: 0.24 and 0.49 down to 0, 0.73 and 0.98 up to 1, 1.2 down to 1; 62.3 down to 62, 62.5
/// down to 62, 62.7 up to 63; 187.3 down to 187, 187.5 up to 188, 187.7 up to 188; 500; 999.3 down to 999,
/// 999.51 and 999.8 up to 1000, and 1000.
const OF_4096: [Share; 16] = [
    (1, 0),
    (2, 0),
    (3, 1),
    (4, 1),
    (5, 1),
    (255, 62),
    (256, 62),
    (257, 63),
    (767, 187),
    (768, 188),
    (769, 188),
    (2048, 500),
    (4093, 999),
    (4094, 1000),
    (4095, 1000),
    (4096, 1000),
];

/// All of them, each with room to the byte and, where a byte is needed, with one byte less.
pub fn known() -> Vec<Case> {
    let mut cases = worked_out(&KNOWN);
    cases.push(growing_ring());
    cases.push(shares("shares of 16", 16, &OF_16));
    cases.push(shares("shares of 48", 48, &OF_48));
    cases.push(shares("shares of 2,000", 2000, &OF_2000));
    cases.push(shares("shares of 4,096", 4096, &OF_4096));
    cases
}

/// A first byte and fields of 2 bytes.
pub fn fields(first: u8, values: &[u16]) -> Vec<u8> {
    let values = values.iter().flat_map(|value| value.to_be_bytes());
    [first].into_iter().chain(values).collect()
}

/// Cabinet 0 is an exchange, and its ring takes in one cabinet after the other, forty in all. A count
/// of 32 bits that is doubled each time overflows on the way.
fn growing_ring() -> Case {
    let mut writer = Writer::new();
    writer.cabinet();
    writer.mark(0);
    let mut answers = unhex("81 0000 89");
    for cabinet in 1..=40 {
        writer.cabinet();
        writer.add(Span::in_duct(0, cabinet.into(), 1));
        writer.add(Span::in_duct(0, cabinet.into(), 2));
        writer.command(0x0A, &[cabinet.into()]);
        writer.command(0x0F, &[]);
        // The first span joins the districts and is a mesh of its own. The second joins the rings,
        // and both spans are the mesh of the first. Name 0 is kept. Every cabinet is fed.
        let span = 2 * (cabinet - 1);
        answers.extend(fields(0x81, &[cabinet]));
        answers.extend([fields(0x82, &[span, span, 1]), fields(0x01, &[cabinet, 0])].concat());
        answers.extend([fields(0x82, &[span + 1, span, 1]), fields(0x02, &[cabinet, 0])].concat());
        answers.extend(unhex("8A 01 8F 03E8"));
    }
    // 1 + 3 bytes, answered by 3 + 1; then 1 + 7 + 7 + 3 + 1 each time, answered by
    // 3 + 12 + 12 + 2 + 3.
    let case = Case::with_room("a ring that grows", 256, 512, writer.bytes, 0);
    case.leaves(answers, [0, 4 + 40 * 19, 2 + 40 * 5, 4 + 40 * 32, 41, 80])
}

/// So many cabinets, each a ring by itself, marked from the first on to the last, with these shares between.
fn shares(label: &str, cabinets: u16, shares: &[Share]) -> Case {
    let mut writer = Writer::new();
    let mut answers = Vec::new();
    for cabinet in 0..cabinets {
        writer.cabinet();
        answers.extend(fields(0x81, &[cabinet]));
    }
    let mut marked = 0;
    for &(exchanges, share) in shares {
        for cabinet in marked..exchanges {
            writer.command(0x09, &[cabinet]);
            answers.push(0x89);
        }
        marked = exchanges;
        writer.command(0x0F, &[]);
        answers.extend(fields(0x8F, &[share]));
    }
    // As many of 01 and of 09 as there are cabinets, of 1 + 3 bytes, answered by 3 + 1; each 0F of 1 byte,
    // answered by 3.
    let (each, asked) = (u32::from(cabinets), shares.len() as u32);
    let case = Case::with_room(label, each, 1, writer.bytes, 0);
    case.leaves(answers, [0, 4 * each + asked, 2 * each + asked, 4 * each + 3 * asked, each, 0])
}
