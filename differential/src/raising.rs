//! How document 02's ninth request reads the answers in a joined journal: what each field of an answer is,
//! what it is raised by, what 0F is answered with, and when a run accepts the whole of it. Also the wrong
//! readings, which right runs must not bear.

use crate::engine::{MOST_CABINETS, MOST_SPANS};
use crate::kinds::Kind;
use crate::second::exchanges::{misrounded, thousandths, Misfeed};

/// What a field of two bytes in an answer is; that which a notice is about, and the name that it tells,
/// apart from others. `Routed` is a cabinet that a pair of routes leads from or to.
#[derive(Clone, Copy, PartialEq, Eq, PartialOrd, Ord, Debug)]
pub enum Part {
    Cabinet,
    CutCabinet,
    Routed,
    Span,
    SoleSpan,
    District,
    Ring,
    Mesh,
    NoMesh,
    NoticeItem(u8),
    NoticeName(u8),
    Size,
    NoticeCount,
    ListCount,
    Metres,
    NoLength,
}

/// Every part, but for those of notices by kind.
const PARTS: [Part; 14] = [
    Part::Cabinet,
    Part::CutCabinet,
    Part::Routed,
    Part::Span,
    Part::SoleSpan,
    Part::District,
    Part::Ring,
    Part::Mesh,
    Part::NoMesh,
    Part::Size,
    Part::NoticeCount,
    Part::ListCount,
    Part::Metres,
    Part::NoLength,
];

/// Every part.
pub fn parts() -> impl Iterator<Item = Part> {
    let of_notices = [1, 2, 3].into_iter().flat_map(|k| [Part::NoticeItem(k), Part::NoticeName(k)]);
    PARTS.into_iter().chain(of_notices)
}

/// What a field is raised by: the first network's count of cabinets, its count of spans, or nothing.
#[derive(Clone, Copy, PartialEq, Eq, Debug)]
pub enum By {
    Cabinets,
    Spans,
    Nothing,
}

/// Districts and rings are named as cabinets are numbered, meshes as spans are.
pub fn raised_by(part: Part) -> By {
    let of_kind = |kind: u8| if Kind::Mesh.byte() == kind { By::Spans } else { By::Cabinets };
    match part {
        Part::Cabinet | Part::CutCabinet | Part::Routed => By::Cabinets,
        Part::District | Part::Ring => By::Cabinets,
        Part::Span | Part::SoleSpan | Part::Mesh => By::Spans,
        Part::NoticeItem(kind) | Part::NoticeName(kind) => of_kind(kind),
        Part::NoMesh | Part::NoLength => By::Nothing,
        Part::Size | Part::NoticeCount | Part::ListCount | Part::Metres => By::Nothing,
    }
}

/// The fields of an answer other than 8C and 8F, each with its place; none for bytes that are too short.
pub fn fields(answer: &[u8]) -> Option<Vec<(usize, Part)>> {
    let list = |part: Part| {
        let items = (1..=field(answer, 1)).map(|i| (1 + 2 * i, part));
        [(1, Part::ListCount)].into_iter().chain(items).collect()
    };
    let flagged = |one: Part, none: Part| vec![(2, if answer[1] == 1 { one } else { none })];
    let fields = match answer.first()? {
        0x81 => vec![(1, Part::Cabinet)],
        0x82 => of_span(answer),
        0x83 => vec![(1, Part::District), (3, Part::Size)],
        0x84 => vec![(1, Part::Ring), (3, Part::Size)],
        0x85 => flagged(Part::Mesh, Part::NoMesh),
        0x86 => list(Part::SoleSpan),
        0x87 => list(Part::CutCabinet),
        0x8E => flagged(Part::Metres, Part::NoLength),
        _ => Vec::new(),
    };
    fields.iter().all(|(place, _)| place + 2 <= answer.len()).then_some(fields)
}

/// The fields of an answer 82: the span, its mesh name, and of each notice its item and its new name.
fn of_span(answer: &[u8]) -> Vec<(usize, Part)> {
    let notice = |i: usize| {
        let (place, kind) = (7 + 5 * i, answer[7 + 5 * i]);
        [(place + 1, Part::NoticeItem(kind)), (place + 3, Part::NoticeName(kind))]
    };
    let front = [(1, Part::Span), (3, Part::Mesh), (5, Part::NoticeCount)];
    front.into_iter().chain((0..field(answer, 5)).flat_map(notice)).collect()
}

/// The number in the two bytes at this place.
pub fn field(bytes: &[u8], place: usize) -> usize {
    256 * usize::from(bytes[place]) + usize::from(bytes[place + 1])
}

/// How many cabinets there are, and how many of them have an exchange in their ring.
#[derive(Clone, Copy, PartialEq, Eq, Debug, Default)]
pub struct Fed {
    pub cabinets: usize,
    pub fed: usize,
}

/// Both networks where a 0F of the second is answered, and the second as it stands in the end.
#[derive(Clone, Copy, PartialEq, Eq, Debug)]
pub struct Stand {
    pub first: Fed,
    pub second: Fed,
    pub end: Fed,
}

/// What is counted for the capacities: the cabinets and the spans of both networks, and the seams.
#[derive(Clone, Copy, PartialEq, Eq, Debug)]
pub struct Counted {
    pub cabinets: [usize; 2],
    pub spans: [usize; 2],
    pub seams: usize,
}

impl Counted {
    /// The cabinets and the spans of the whole, the seams among these.
    pub fn together(&self) -> [usize; 2] {
        [self.cabinets.iter().sum(), self.spans.iter().sum::<usize>() + self.seams]
    }
}

/// In thousandths.
pub type Share = fn(Stand) -> usize;

/// Is there capacity for all?
pub type Accepts = fn(Counted) -> bool;

/// A reading of the request.
#[derive(Clone, Copy)]
pub struct Reading {
    /// A part that is raised by something else.
    pub other: Option<(Part, By)>,
    /// What 0F is answered with.
    pub share: Share,
    /// Does a run accept the whole?
    pub accepted: Accepts,
}

impl Reading {
    pub fn right() -> Reading {
        Reading { other: None, share: over_both, accepted: fits }
    }

    /// What a part is raised by, where the first network counts so much.
    pub fn raised(&self, part: Part, [cabinets, spans]: [usize; 2]) -> usize {
        let by =
            self.other.filter(|other| other.0 == part).map_or(raised_by(part), |other| other.1);
        match by {
            By::Cabinets => cabinets,
            By::Spans => spans,
            By::Nothing => 0,
        }
    }

    /// An answer with its fields raised; none for bytes that are too short.
    pub fn answer(&self, answer: &[u8], counts: [usize; 2]) -> Option<Vec<u8>> {
        let mut raised = answer.to_vec();
        for (place, part) in fields(answer)? {
            let number = field(answer, place) + self.raised(part, counts);
            raised[place..place + 2].copy_from_slice(&(number as u16).to_be_bytes());
        }
        Some(raised)
    }
}

/// The share over both networks as they then stand.
fn over_both(Stand { first, second, .. }: Stand) -> usize {
    thousandths(first.fed + second.fed, first.cabinets + second.cabinets)
}

fn fits(counted: Counted) -> bool {
    within(counted, MOST_CABINETS as usize, MOST_SPANS as usize)
}

/// Are there at most so many cabinets, and at most so many spans with the seams?
fn within(counted: Counted, cabinets: usize, spans: usize) -> bool {
    let together = counted.together();
    together[0] <= cabinets && together[1] <= spans
}

/// A name and a wrong reading.
pub type Misread = (String, Reading);

/// Every reading that is wrong in one thing.
pub fn wrong() -> Vec<Misread> {
    let right = Reading::right();
    let mut wrong: Vec<Misread> = Vec::new();
    for part in parts() {
        let others = [By::Cabinets, By::Spans, By::Nothing].into_iter();
        for by in others.filter(|&by| by != raised_by(part)) {
            let name = format!("{part:?} raised by {by:?}");
            wrong.push((name, Reading { other: Some((part, by)), ..right }));
        }
    }
    for (name, share) in SHARES {
        wrong.push((name.to_string(), Reading { share, ..right }));
    }
    for (name, accepted) in CAPACITIES {
        wrong.push((name.to_string(), Reading { accepted, ..right }));
    }
    wrong
}

const SHARES: [(&str, Share); 12] = [
    ("0F over the second alone", |stand| of(stand.second)),
    ("0F over the first alone", |stand| of(stand.first)),
    ("0F as both shares added", |stand| of(stand.first) + of(stand.second)),
    ("0F as the mean of both shares", |stand| (of(stand.first) + of(stand.second)) / 2),
    ("0F over both in the end", |stand| over_both(Stand { second: stand.end, ..stand })),
    ("0F with the cabinets of the second alone", |Stand { first, second, .. }| {
        thousandths(first.fed + second.fed, second.cabinets)
    }),
    ("0F with the exchanges of the second alone", |Stand { first, second, .. }| {
        thousandths(second.fed, first.cabinets + second.cabinets)
    }),
    ("0F rounded down", |stand| over_both_by(Misfeed::RoundedDown, stand)),
    ("0F rounded up", |stand| over_both_by(Misfeed::RoundedUp, stand)),
    ("0F with halves rounded down", |stand| over_both_by(Misfeed::HalvesDown, stand)),
    ("0F with halves rounded up", |stand| over_both_by(Misfeed::HalvesUp, stand)),
    ("0F with halves rounded to odd", |stand| over_both_by(Misfeed::HalvesToOdd, stand)),
];

/// The share over both networks, rounded with a fault.
fn over_both_by(fault: Misfeed, Stand { first, second, .. }: Stand) -> usize {
    misrounded(fault, first.fed + second.fed, first.cabinets + second.cabinets)
}

fn of(fed: Fed) -> usize {
    thousandths(fed.fed, fed.cabinets)
}

const CAPACITIES: [(&str, Accepts); 8] = [
    ("4,096 cabinets together not accepted", |counted| within(counted, 4095, 8192)),
    ("4,097 cabinets together accepted", |counted| within(counted, 4097, 8192)),
    ("8,192 spans together not accepted", |counted| within(counted, 4096, 8191)),
    ("8,193 spans together accepted", |counted| within(counted, 4096, 8193)),
    ("any count of cabinets accepted", |counted| within(counted, usize::MAX, 8192)),
    ("any count of spans accepted", |counted| within(counted, 4096, usize::MAX)),
    ("seams not counted as spans", |counted| fits(Counted { seams: 0, ..counted })),
    ("all accepted", |_| true),
];
