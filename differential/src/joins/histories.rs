//! Two journals and their joining with all answers, worked out by hand from document 02's ninth request: those
//! of the first and of the second alone, and those of the whole. Shares are rounded as its tenth has it.

use super::case::{Couple, Joining};
use crate::cases::{one_of, unhex, Case, OneOf};
use crate::engine::join::Seam;
use crate::histories::Line;

/// A command of the second journal with its answer, and both in the whole.
type Raised = [&'static str; 4];

/// What it is, the commands of the first journal, those of the second, and the seams, each with its command;
/// all with their answers.
struct History {
    label: &'static str,
    first: &'static [Line],
    second: &'static [Raised],
    seams: &'static [([u16; 3], Line)],
}

/// The first span of three cabinets.
const FIRST: Line = ("02 0000 0001", "82 0000 0000 0001 01 0001 0000");

const HISTORIES: [History; 5] = [
    // The whole has five cabinets, of which the exchange feeds one, and then the two of its ring.
    History {
        label: "every command in the second",
        first: &[("01", "81 0000"), ("01", "81 0001"), ("01", "81 0002"), FIRST],
        second: &[
            ["01", "81 0000", "01", "81 0003"],
            ["01", "81 0001", "01", "81 0004"],
            [
                "02 0001 0000",
                "82 0000 0000 0001 01 0001 0000",
                "02 0004 0003",
                "82 0001 0001 0001 01 0004 0003",
            ],
            ["03 0001", "83 0000 0002", "03 0004", "83 0003 0002"],
            ["04 0000", "84 0000 0001", "04 0003", "84 0003 0001"],
            ["04 0001", "84 0001 0001", "04 0004", "84 0004 0001"],
            ["05 0000 0001", "85 01 0000", "05 0003 0004", "85 01 0001"],
            ["06 0001 0000", "86 0001 0000", "06 0004 0003", "86 0001 0001"],
            ["07 0000 0001", "87 0000", "07 0003 0004", "87 0000"],
            ["08 0000", "88 01", "08 0001", "88 01"],
            ["09 0001", "89", "09 0004", "89"],
            ["0A 0000", "8A 00", "0A 0003", "8A 00"],
            ["0F", "8F 01F4", "0F", "8F 00C8"],
            [
                "0B 0000 0001 0007",
                "82 0001 0000 0001 02 0001 0000",
                "0B 0003 0004 0007",
                "82 0002 0001 0001 02 0004 0003",
            ],
            [
                "0C 0001 0000",
                "8C 0001 0000 0001 0001 | 8C 0001 0001 0001 0000",
                "0C 0004 0003",
                "8C 0001 0001 0001 0002 | 8C 0001 0002 0001 0001",
            ],
            ["0D 0001 0002 0003", "8D", "0D 0002 0002 0003", "8D"],
            ["0E 0001", "8E 01 0003", "0E 0002", "8E 01 0003"],
            ["0E 0000", "8E 00 0000", "0E 0001", "8E 00 0000"],
            ["0F", "8F 03E8", "0F", "8F 0190"],
        ],
        seams: &[([2, 1, 4], ("0B 0002 0004 0004", "82 0003 0003 0001 01 0002 0003"))],
    },
    // The first has an exchange: of three, five and six cabinets it feeds one, 333.3 down to 333, 200, and
    // 166.7 up to 167.
    History {
        label: "0F, 05 without a mesh and 0E without a length in the second",
        first: &[("01", "81 0000"), ("01", "81 0001"), ("01", "81 0002"), FIRST, ("09 0000", "89")],
        second: &[
            ["0F", "8F 0000", "0F", "8F 014D"],
            ["01", "81 0000", "01", "81 0003"],
            ["01", "81 0001", "01", "81 0004"],
            ["05 0000 0001", "85 00 0000", "05 0003 0004", "85 00 0000"],
            [
                "02 0000 0001",
                "82 0000 0000 0001 01 0001 0000",
                "02 0003 0004",
                "82 0001 0001 0001 01 0004 0003",
            ],
            ["0E 0000", "8E 00 0000", "0E 0001", "8E 00 0000"],
            ["0F", "8F 0000", "0F", "8F 00C8"],
            ["01", "81 0002", "01", "81 0005"],
            ["05 0002 0000", "85 00 0000", "05 0005 0003", "85 00 0000"],
            ["0F", "8F 0000", "0F", "8F 00A7"],
        ],
        seams: &[([0, 2, 1], ("0B 0000 0005 0001", "82 0002 0002 0001 01 0005 0000"))],
    },
    // The second seam closes a loop of all four cabinets, whose spans are all in duct 1 and yet no mates; the
    // third is a mate of the second.
    History {
        label: "a loop over two seams, and equal seams",
        first: &[
            ("01", "81 0000"),
            ("01", "81 0001"),
            ("0B 0000 0001 0001", "82 0000 0000 0001 01 0001 0000"),
            ("09 0001", "89"),
        ],
        second: &[
            ["01", "81 0000", "01", "81 0002"],
            ["01", "81 0001", "01", "81 0003"],
            [
                "0B 0000 0001 0001",
                "82 0000 0000 0001 01 0001 0000",
                "0B 0002 0003 0001",
                "82 0001 0001 0001 01 0003 0002",
            ],
            ["04 0001", "84 0001 0001", "04 0003", "84 0003 0001"],
            ["0A 0001", "8A 00", "0A 0003", "8A 00"],
            ["0F", "8F 0000", "0F", "8F 00FA"],
        ],
        seams: &[
            ([0, 0, 1], ("0B 0000 0002 0001", "82 0002 0002 0002 01 0002 0000 01 0003 0000")),
            (
                [1, 1, 1],
                (
                    "0B 0001 0003 0001",
                    "82 0003 0000 0005 02 0001 0000 02 0002 0000 02 0003 0000 \
                     03 0001 0000 03 0002 0000",
                ),
            ),
            ([1, 1, 1], ("0B 0001 0003 0001", "82 0004 0000 0000")),
        ],
    },
    // The first has two cabinets and three spans.
    History {
        label: "a triangle behind more spans than cabinets",
        first: &[
            ("01", "81 0000"),
            ("01", "81 0001"),
            ("0B 0000 0001 0001", "82 0000 0000 0001 01 0001 0000"),
            ("0B 0000 0001 0002", "82 0001 0000 0001 02 0001 0000"),
            ("02 0000 0001", "82 0002 0000 0000"),
        ],
        second: &[
            ["01", "81 0000", "01", "81 0002"],
            ["01", "81 0001", "01", "81 0003"],
            ["01", "81 0002", "01", "81 0004"],
            [
                "02 0001 0002",
                "82 0000 0000 0001 01 0002 0001",
                "02 0003 0004",
                "82 0003 0003 0001 01 0004 0003",
            ],
            [
                "02 0000 0001",
                "82 0001 0001 0001 01 0000 0001",
                "02 0002 0003",
                "82 0004 0004 0001 01 0002 0003",
            ],
            ["07 0000 0002", "87 0001 0001", "07 0002 0004", "87 0001 0003"],
            ["06 0000 0002", "86 0002 0001 0000", "06 0002 0004", "86 0002 0004 0003"],
            [
                "02 0002 0000",
                "82 0002 0000 0003 02 0001 0000 02 0002 0000 03 0001 0000",
                "02 0004 0002",
                "82 0005 0003 0003 02 0003 0002 02 0004 0002 03 0004 0003",
            ],
            ["03 0000", "83 0001 0003", "03 0002", "83 0003 0003"],
            ["04 0002", "84 0000 0003", "04 0004", "84 0002 0003"],
        ],
        seams: &[],
    },
    // Five cabinets and eleven are sixteen, of which each is 62.5. With the first's exchange there are 1 to 5
    // fed: 62.5 down to 62, 125, 187.5 up to 188, 250, and 312.5 down to 312. Of eleven each is 90.9: 90.9 up to
    // 91, 181.8 up to 182, 272.7 up to 273, and 363.6 up to 364.
    History {
        label: "shares over both that are exact halves",
        first: &[
            ("01", "81 0000"),
            ("01", "81 0001"),
            ("01", "81 0002"),
            ("01", "81 0003"),
            ("01", "81 0004"),
            ("09 0004", "89"),
            ("0F", "8F 00C8"),
        ],
        second: &[
            ["01", "81 0000", "01", "81 0005"],
            ["01", "81 0001", "01", "81 0006"],
            ["01", "81 0002", "01", "81 0007"],
            ["01", "81 0003", "01", "81 0008"],
            ["01", "81 0004", "01", "81 0009"],
            ["01", "81 0005", "01", "81 000A"],
            ["01", "81 0006", "01", "81 000B"],
            ["01", "81 0007", "01", "81 000C"],
            ["01", "81 0008", "01", "81 000D"],
            ["01", "81 0009", "01", "81 000E"],
            ["01", "81 000A", "01", "81 000F"],
            ["0F", "8F 0000", "0F", "8F 003E"],
            ["09 0000", "89", "09 0005", "89"],
            ["0F", "8F 005B", "0F", "8F 007D"],
            ["09 000A", "89", "09 000F", "89"],
            ["0F", "8F 00B6", "0F", "8F 00BC"],
            ["09 0004", "89", "09 0009", "89"],
            ["0F", "8F 0111", "0F", "8F 00FA"],
            ["09 0007", "89", "09 000C", "89"],
            ["0F", "8F 016C", "0F", "8F 0138"],
        ],
        seams: &[([4, 10, 1], ("0B 0004 000F 0001", "82 0000 0000 0001 01 000F 0004"))],
    },
];

impl History {
    fn alone(&self) -> Vec<Line> {
        self.second.iter().map(|&[command, answer, _, _]| (command, answer)).collect()
    }

    fn whole(&self) -> Vec<Line> {
        let second = self.second.iter().map(|&[_, _, command, answer]| (command, answer));
        let seams = self.seams.iter().map(|&(_, line)| line);
        self.first.iter().copied().chain(second).chain(seams).collect()
    }

    fn couple(&self) -> Couple {
        let seams = self.seams.iter().map(|&([a, b, d], _)| Seam::new(a, b, d)).collect();
        let joining = Joining::by(seams).gives(journal(&self.whole()));
        Couple::new(self.label, journal(self.first), journal(&self.alone())).asked(joining)
    }
}

fn journal(lines: &[Line]) -> Vec<u8> {
    lines.iter().flat_map(|line| unhex(line.0)).collect()
}

/// A run of these lines, one command each, with room to the byte.
fn case(label: &str, lines: &[Line]) -> Case {
    let answers: Vec<OneOf> = lines.iter().map(|line| one_of(line.1)).collect();
    let bytes = answers.iter().map(|part| part[0].len()).sum::<usize>();
    let journal = journal(lines);
    let count =
        |bytes: &[u8]| lines.iter().filter(|line| bytes.contains(&unhex(line.0)[0])).count();
    let (cabinets, spans) = (count(&[0x01]), count(&[0x02, 0x0B]));
    let report = [0, journal.len(), lines.len(), bytes, cabinets, spans];
    let case = Case::with_room(label, 256, 512, journal, 0);
    case.leaves_one_of(answers, report.map(|number| number as u32))
}

/// The runs of each first journal, second journal and whole.
pub fn runs() -> Vec<Case> {
    let three = |history: &History| {
        let whole = format!("{}, joined", history.label);
        [
            case(history.label, history.first),
            case(history.label, &history.alone()),
            case(&whole, &history.whole()),
        ]
    };
    HISTORIES.iter().flat_map(three).collect()
}

/// The joinings.
pub fn couples() -> Vec<Couple> {
    HISTORIES.iter().map(History::couple).collect()
}
