//! The commands: how they are read, which refusal meets them, and what they answer.

use super::book::Book;
use super::groups::{cut_cabinets, is_sole, route, shared_mesh, sole_spans};
use super::mates::Misduct;
use super::surveys::Record;
use super::State;
use crate::kinds::{Kind, KINDS};
use crate::pairs::Pair;
use crate::spans::Span;

#[derive(Clone, Copy, PartialEq, Eq, Debug)]
pub enum Command {
    AddCabinet,
    AddSpan(usize, usize),
    DistrictName(usize),
    RingName(usize),
    SharedMesh(usize, usize),
    SoleSpans(usize, usize),
    CutCabinets(usize, usize),
    IsSole(usize),
    Mark(usize),
    IsFed(usize),
    /// Two cabinets and a duct.
    AddInDuct(usize, usize, usize),
    Routes(usize, usize),
    Record(Record),
    /// The length of a span.
    Length(usize),
    Share,
}

impl Command {
    /// The span that this command adds, where it is accepted.
    pub fn span(self) -> Option<Span> {
        match self {
            Command::AddSpan(a, b) => Some(Span::new(a, b)),
            Command::AddInDuct(a, b, duct) => Some(Span::in_duct(a, b, duct)),
            _ => None,
        }
    }
}

/// The capacities of a run.
#[derive(Clone, Copy)]
pub struct Capacities {
    pub cabinets: usize,
    pub spans: usize,
}

impl Capacities {
    pub fn new(c: u32, s: u32) -> Capacities {
        Capacities { cabinets: c as usize, spans: s as usize }
    }
}

/// The number of operands of a command byte; none for a byte that is no command.
fn operand_count(byte: u8) -> Option<usize> {
    match byte {
        0x01 | 0x0F => Some(0),
        0x02 | 0x05..=0x07 | 0x0C => Some(2),
        0x03 | 0x04 | 0x08..=0x0A | 0x0E => Some(1),
        0x0B | 0x0D => Some(3),
        _ => None,
    }
}

/// Reads the command at the front of `bytes`, which are not empty: the command and its length, or
/// refusal 4 or 5.
pub fn read(bytes: &[u8]) -> Result<(Command, usize), u32> {
    let count = operand_count(bytes[0]).ok_or(4u32)?;
    let length = 1 + 2 * count;
    if bytes.len() < length {
        return Err(5);
    }
    let operand = |i: usize| 256 * bytes[1 + 2 * i] as usize + bytes[2 + 2 * i] as usize;
    let command = match bytes[0] {
        0x01 => Command::AddCabinet,
        0x02 => Command::AddSpan(operand(0), operand(1)),
        0x03 => Command::DistrictName(operand(0)),
        0x04 => Command::RingName(operand(0)),
        0x05 => Command::SharedMesh(operand(0), operand(1)),
        0x06 => Command::SoleSpans(operand(0), operand(1)),
        0x07 => Command::CutCabinets(operand(0), operand(1)),
        0x08 => Command::IsSole(operand(0)),
        0x09 => Command::Mark(operand(0)),
        0x0A => Command::IsFed(operand(0)),
        0x0B => Command::AddInDuct(operand(0), operand(1), operand(2)),
        0x0C => Command::Routes(operand(0), operand(1)),
        0x0D => Command::Record(Record { span: operand(0), day: operand(1), metres: operand(2) }),
        0x0E => Command::Length(operand(0)),
        _ => Command::Share,
    };
    Ok((command, length))
}

/// The refusal that meets this command whatever the room: the first line of the table that applies.
pub fn refusal(command: Command, state: &State, capacities: Capacities) -> Option<u32> {
    let book = &state.book;
    let mut lines = [
        (has_unknown_cabinet(command, book), 6),
        (has_unknown_span(command, book), 7),
        (has_equal_cabinets(command), 8),
        (marks_an_exchange(command, state), 12),
        (names_no_duct(command), 13),
        (finds_no_capacity(command, book, capacities), 9),
    ];
    // Faults put in on purpose.
    match book.network.fault {
        Some(Misduct::DuctFirst) => lines[..5].rotate_right(1),
        Some(Misduct::DuctBeforeEnds) => lines[2..5].rotate_right(1),
        Some(Misduct::DuctAfterCapacity) => lines.swap(4, 5),
        _ => {}
    }
    let first = lines.into_iter().find(|line| line.0).map(|line| line.1);
    first
        .or_else(|| goes_across_districts(command, book).then_some(10))
        .or_else(|| finds_no_ring(command, book).then_some(14))
}

fn has_unknown_cabinet(command: Command, book: &Book) -> bool {
    let unknown = |cabinet: usize| cabinet >= book.network.cabinets;
    match command {
        Command::AddCabinet
        | Command::IsSole(_)
        | Command::Record(_)
        | Command::Length(_)
        | Command::Share => false,
        Command::DistrictName(a) | Command::RingName(a) | Command::Mark(a) | Command::IsFed(a) => {
            unknown(a)
        }
        Command::AddSpan(a, b)
        | Command::AddInDuct(a, b, _)
        | Command::SharedMesh(a, b)
        | Command::SoleSpans(a, b)
        | Command::CutCabinets(a, b)
        | Command::Routes(a, b) => unknown(a) || unknown(b),
    }
}

fn has_unknown_span(command: Command, book: &Book) -> bool {
    let unknown = |span: usize| span >= book.network.spans.len();
    match command {
        Command::IsSole(s) | Command::Length(s) => unknown(s),
        Command::Record(record) => unknown(record.span),
        _ => false,
    }
}

fn has_equal_cabinets(command: Command) -> bool {
    match command {
        Command::AddSpan(a, b)
        | Command::AddInDuct(a, b, _)
        | Command::SharedMesh(a, b)
        | Command::Routes(a, b) => a == b,
        _ => false,
    }
}

fn marks_an_exchange(command: Command, state: &State) -> bool {
    matches!(command, Command::Mark(a) if state.exchanges.hold(a))
}

fn names_no_duct(command: Command) -> bool {
    matches!(command, Command::AddInDuct(_, _, 0))
}

fn finds_no_capacity(command: Command, book: &Book, capacities: Capacities) -> bool {
    match command {
        Command::AddCabinet => book.network.cabinets >= capacities.cabinets,
        Command::AddSpan(..) | Command::AddInDuct(..) => {
            book.network.spans.len() >= capacities.spans
        }
        _ => false,
    }
}

fn goes_across_districts(command: Command, book: &Book) -> bool {
    match command {
        Command::SoleSpans(a, b) | Command::CutCabinets(a, b) => {
            book.groups.district[a] != book.groups.district[b]
        }
        _ => false,
    }
}

fn finds_no_ring(command: Command, book: &Book) -> bool {
    matches!(command, Command::Routes(a, b) if book.groups.ring[a] != book.groups.ring[b])
}

/// The answer to a command, given the state before it and the state after it; to 0C with the pair
/// that is chosen for its two cabinets.
pub fn answer(
    command: Command,
    before: &State,
    after: &State,
    choose: &mut dyn FnMut(usize, usize) -> Pair,
) -> Vec<u8> {
    let (exchanges, surveys, sizes) = (&after.exchanges, &after.surveys, &after.sizes);
    let (before, after) = (&before.book, &after.book);
    let network = &after.network;
    let groups = &after.groups;
    let route = |a, b| route(network, a, b).expect("refusal 10 meets cabinets of two districts");
    match command {
        Command::AddCabinet => fields(0x81, &[before.network.cabinets]),
        Command::AddInDuct(..) if network.fault == Some(Misduct::AnsweredByItsOwn) => {
            span_answer(0x8B, before, after)
        }
        Command::AddSpan(..) | Command::AddInDuct(..) => span_answer(0x82, before, after),
        Command::DistrictName(a) => fields(0x83, &sizes.look_up(after, Kind::District, a)),
        Command::RingName(a) => fields(0x84, &sizes.look_up(after, Kind::Ring, a)),
        Command::SharedMesh(a, b) => match shared_mesh(network, groups, a, b) {
            Some(span) => flagged(0x85, 1, after.names.mesh[span]),
            None => flagged(0x85, 0, 0),
        },
        Command::SoleSpans(a, b) => list(0x86, &sole_spans(network, groups, &route(a, b))),
        Command::CutCabinets(a, b) => list(0x87, &cut_cabinets(groups, &route(a, b))),
        Command::IsSole(s) => {
            let inverted = network.fault == Some(Misduct::SoleInverted);
            vec![0x88, (is_sole(network, groups, s) != inverted) as u8]
        }
        Command::Mark(_) => vec![0x89],
        Command::IsFed(a) => vec![0x8A, exchanges.feed(groups, a) as u8],
        Command::Routes(a, b) => two_lists(0x8C, &choose(a, b)),
        Command::Record(_) => vec![0x8D],
        Command::Length(s) => match surveys.length(s) {
            Some(metres) => flagged(0x8E, 1, metres),
            None => flagged(0x8E, 0, 0),
        },
        Command::Share => fields(0x8F, &[exchanges.share(groups)]),
    }
}

/// The answer 82, of which the first byte is given: the span's number, its mesh name, the count of
/// notices, the notices.
fn span_answer(first: u8, before: &Book, after: &Book) -> Vec<u8> {
    let number = before.network.spans.len();
    let mut notices = Vec::new();
    let mut count = 0;
    for kind in KINDS {
        for (item, old) in before.names[kind].iter().enumerate() {
            let new = after.names[kind][item];
            if new != *old {
                let sendings = after.sendings(kind);
                notices.extend(fields(kind.byte(), &[item, new]).repeat(sendings));
                count += sendings;
            }
        }
    }
    let mut bytes = fields(first, &[number, after.names.mesh[number], count]);
    bytes.extend(notices);
    bytes
}

/// A first byte, then fields of 2 bytes, high byte first.
fn fields(first: u8, values: &[usize]) -> Vec<u8> {
    let mut bytes = vec![first];
    for &value in values {
        let field = u16::try_from(value).expect("every answer field fits 2 bytes");
        bytes.extend(field.to_be_bytes());
    }
    bytes
}

/// A first byte, one byte 1 or 0, and a field.
fn flagged(first: u8, flag: u8, value: usize) -> Vec<u8> {
    let mut bytes = vec![first];
    bytes.extend(fields(flag, &[value]));
    bytes
}

fn list(first: u8, items: &[usize]) -> Vec<u8> {
    fields(first, &[&[items.len()], items].concat())
}

fn two_lists(first: u8, [one, other]: &Pair) -> Vec<u8> {
    fields(first, &[&[one.len()], &one[..], &[other.len()], other].concat())
}
