//! The planner's name list, fed the answers as bytes, and the whole of demand 3 checked beside a
//! run of the second implementation; the names and sizes that are told, the answers about exchanges, those
//! about sole spans, the routes and the survey lengths, against what the planner knows.

pub mod marks;
mod mates;
mod sizes;
mod surveys;

use crate::kinds::{ByKind, Kind, KINDS};
use crate::pairs::Pair;
use crate::second::book::{sizes, Book};
use crate::second::command::Command;
use crate::second::Accepted;
use marks::Marks;
use mates::Mates;
use sizes::Sizes;
use surveys::Lengths;

/// A name for each cabinet (districts, rings) and for each span (meshes).
#[derive(Default, PartialEq, Eq, Debug)]
pub struct NameList {
    pub names: ByKind<Vec<usize>>,
}

#[derive(Clone, Copy, PartialEq, Eq, Debug)]
pub struct Notice {
    pub kind: Kind,
    pub item: usize,
    pub name: usize,
}

/// An answer, as far as the planner reads it.
#[derive(PartialEq, Eq, Debug)]
pub enum Answer {
    Cabinet(usize),
    Span {
        number: usize,
        mesh: usize,
        notices: Vec<Notice>,
    },
    /// Of a district or a ring.
    Name {
        name: usize,
        size: usize,
    },
    SoleSpans(Vec<usize>),
    /// The byte is 1 if the span is sole.
    IsSole(u8),
    Marked,
    /// The byte is 1 if the ring holds an exchange.
    Fed(u8),
    Routes(Pair),
    Recorded,
    /// The byte is 1 if there is a length.
    Length {
        flag: u8,
        metres: usize,
    },
    /// In thousandths.
    Share(usize),
    Other,
}

/// Decodes the answer at the front of `bytes`: the answer and its length, or none for bytes that
/// are no answer.
pub fn decode(bytes: &[u8]) -> Option<(Answer, usize)> {
    let field = |at: usize| {
        let two = bytes.get(at..at + 2)?;
        Some(256 * two[0] as usize + two[1] as usize)
    };
    let list = |at: usize| -> Option<Vec<usize>> {
        (0..field(at)?).map(|i| field(at + 2 + 2 * i)).collect()
    };
    let other = |length: usize| bytes.get(..length).map(|_| (Answer::Other, length));
    match *bytes.first()? {
        0x81 => Some((Answer::Cabinet(field(1)?), 3)),
        0x82 => {
            let count = field(5)?;
            let notices = notices(bytes.get(7..7 + 5 * count)?)?;
            Some((Answer::Span { number: field(1)?, mesh: field(3)?, notices }, 7 + 5 * count))
        }
        0x83 | 0x84 => Some((Answer::Name { name: field(1)?, size: field(3)? }, 5)),
        0x85 => other(4),
        0x86 => Some((Answer::SoleSpans(list(1)?), 3 + 2 * field(1)?)),
        0x87 => other(3 + 2 * field(1)?),
        0x88 => Some((Answer::IsSole(*bytes.get(1)?), 2)),
        0x89 => Some((Answer::Marked, 1)),
        0x8A => Some((Answer::Fed(*bytes.get(1)?), 2)),
        0x8C => {
            let one = list(1)?;
            let other = list(3 + 2 * one.len())?;
            let length = 5 + 2 * (one.len() + other.len());
            Some((Answer::Routes([one, other]), length))
        }
        0x8D => Some((Answer::Recorded, 1)),
        0x8E => Some((Answer::Length { flag: *bytes.get(1)?, metres: field(2)? }, 4)),
        0x8F => Some((Answer::Share(field(1)?), 3)),
        _ => None,
    }
}

/// The byte that an answer to this command begins with. A span is answered alike whether it comes
/// from 02 or from 0B.
fn answering(command: Command) -> u8 {
    match command {
        Command::AddCabinet => 0x81,
        Command::AddSpan(..) | Command::AddInDuct(..) => 0x82,
        Command::DistrictName(_) => 0x83,
        Command::RingName(_) => 0x84,
        Command::SharedMesh(..) => 0x85,
        Command::SoleSpans(..) => 0x86,
        Command::CutCabinets(..) => 0x87,
        Command::IsSole(_) => 0x88,
        Command::Mark(_) => 0x89,
        Command::IsFed(_) => 0x8A,
        Command::Routes(..) => 0x8C,
        Command::Record(_) => 0x8D,
        Command::Length(_) => 0x8E,
        Command::Share => 0x8F,
    }
}

fn notices(bytes: &[u8]) -> Option<Vec<Notice>> {
    let one = |five: &[u8]| {
        let field = |at: usize| 256 * five[at] as usize + five[at + 1] as usize;
        Some(Notice { kind: Kind::from_byte(five[0])?, item: field(1), name: field(3) })
    };
    bytes.chunks(5).map(one).collect()
}

impl NameList {
    /// Takes one answer. An error if its item is not the next one, or not there.
    pub fn feed(&mut self, answer: &Answer) -> Result<(), String> {
        match answer {
            Answer::Cabinet(number) => {
                append(&mut self.names.district, *number, *number)?;
                append(&mut self.names.ring, *number, *number)
            }
            Answer::Span { number, mesh, notices } => {
                append(&mut self.names.mesh, *number, *mesh)?;
                notices.iter().try_for_each(|notice| self.set(*notice))
            }
            _ => Ok(()),
        }
    }

    fn set(&mut self, notice: Notice) -> Result<(), String> {
        let names = &mut self.names[notice.kind];
        let place = names.get_mut(notice.item);
        *place.ok_or(format!("{notice:?} is about no item"))? = notice.name;
        Ok(())
    }
}

fn append(names: &mut Vec<usize>, number: usize, name: usize) -> Result<(), String> {
    if number != names.len() {
        return Err(format!("number {number} answered where {} is next", names.len()));
    }
    names.push(name);
    Ok(())
}

/// What a planner has read: commands answered, notices, answers 83 and 84, districts of several rings whose
/// sizes add up, answers 8E without a length and with one, shares that are exact halves and went down or up,
/// and bytes.
pub struct Read {
    pub commands: usize,
    pub notices: usize,
    pub sizes: [usize; 2],
    pub added_up: usize,
    pub lengths: [usize; 2],
    pub halves: [usize; 2],
    pub bytes: usize,
}

/// The planner beside a run: it reads the answer buffer, command by command.
pub struct Planner<'a> {
    answers: &'a [u8],
    read: usize,
    list: NameList,
    sizes: Sizes,
    marks: Marks,
    mates: Mates,
    lengths: Lengths,
    sent: ByKind<usize>,
    commands: usize,
    fault: Option<String>,
}

impl<'a> Planner<'a> {
    pub fn new(answers: &'a [u8]) -> Planner<'a> {
        Planner {
            answers,
            read: 0,
            list: NameList::default(),
            sizes: Sizes::default(),
            marks: Marks::default(),
            mates: Mates::default(),
            lengths: Lengths::default(),
            sent: ByKind::default(),
            commands: 0,
            fault: None,
        }
    }

    /// Reads the answer to one more accepted command and checks demand 3, the sizes, the exchanges, the
    /// mates, the routes and the survey lengths up to here.
    pub fn watch(&mut self, accepted: &Accepted) {
        if self.fault.is_some() {
            return;
        }
        self.commands += 1;
        if let Err(fault) = self.check(accepted) {
            self.fault = Some(format!("after command {}: {fault}", self.commands));
        }
    }

    /// What was read, or what demand 3, the sizes, the exchanges, the mates, the routes or the survey lengths
    /// do not bear.
    pub fn result(self) -> Result<Read, String> {
        if let Some(fault) = self.fault {
            return Err(fault);
        }
        let notices = KINDS.iter().map(|&kind| self.sent[kind]).sum();
        Ok(Read {
            commands: self.commands,
            notices,
            sizes: self.sizes.answers,
            added_up: self.sizes.added_up,
            lengths: self.lengths.told,
            halves: self.marks.halves,
            bytes: self.read,
        })
    }

    fn check(&mut self, accepted: &Accepted) -> Result<(), String> {
        let bytes = &self.answers[self.read..];
        if bytes.first() != Some(&answering(accepted.command)) {
            return Err(format!("{:02X?} begins no answer to this", bytes.first()));
        }
        let (answer, length) = decode(bytes).ok_or("the bytes are no answer")?;
        self.read += length;
        self.list.feed(&answer)?;
        if let Answer::Span { notices, .. } = &answer {
            self.check_doubling(accepted, notices)?;
        }
        if self.list.names != accepted.after.names {
            return Err("the name list differs from the naming book".to_string());
        }
        self.check_counts(accepted.after)?;
        self.sizes.check(accepted.command, &answer, &self.list.names)?;
        self.marks.check(accepted.command, &answer, &self.list.names.ring)?;
        self.mates.check(accepted.command, &answer, &self.list.names)?;
        self.lengths.check(accepted.command, &answer, self.list.names.mesh.len())
    }

    /// Each notice moves its item into a group at least twice the size of the one it left.
    fn check_doubling(&mut self, accepted: &Accepted, notices: &[Notice]) -> Result<(), String> {
        if notices.is_empty() {
            return Ok(());
        }
        for kind in KINDS {
            let (before, after) = (&accepted.before.groups[kind], &accepted.after.groups[kind]);
            let (left, entered) = (sizes(before), sizes(after));
            for notice in notices.iter().filter(|notice| notice.kind == kind) {
                self.sent[kind] += 1;
                let was = *before.get(notice.item).ok_or("a notice for an item that is new")?;
                if entered[after[notice.item]] < 2 * left[was] {
                    return Err(format!("{notice:?} does not double"));
                }
            }
        }
        Ok(())
    }

    /// The notices of a kind are at most k times the whole part of log2 k, k being its items.
    fn check_counts(&self, book: &Book) -> Result<(), String> {
        for kind in KINDS {
            let items = book.names[kind].len();
            let most = items * items.checked_ilog2().unwrap_or(0) as usize;
            if self.sent[kind] > most {
                return Err(format!("{} notices of {kind:?}, {most} allowed", self.sent[kind]));
            }
        }
        Ok(())
    }
}
