//! A case: one call of the register, with its capacities, journal and lengths of buffers.

use crate::engine::{work_needed, Forecast, Rewriting, REPORT_NUMBERS};

/// The length of the answer buffer. What all answers take is the engine's to say where it gives the
/// routes of a 0C.
#[derive(Clone, Copy, Debug)]
pub enum Room {
    Bytes(usize),
    /// So many bytes more than all answers take.
    Over(usize),
    /// So many bytes fewer than they take, or none.
    Under(usize),
    /// Some part of what they take, none or all of it too, by this number.
    Part(u64),
}

impl Room {
    /// How many bytes these are where all answers take so many.
    pub fn bytes(self, needed: usize) -> usize {
        match self {
            Room::Bytes(bytes) => bytes,
            Room::Over(more) => needed + more,
            Room::Under(fewer) => needed.saturating_sub(fewer),
            Room::Part(number) => (number % (needed as u64 + 1)) as usize,
        }
    }
}

/// Bytes of which one must be left; all of them are of one length.
pub type OneOf = Vec<Vec<u8>>;

/// From hexadecimal digits, with `|` between them.
pub fn one_of(text: &str) -> OneOf {
    text.split('|').map(unhex).collect()
}

#[derive(Clone, Debug)]
pub struct Case {
    pub label: String,
    pub c: u32,
    pub s: u32,
    pub journal: Vec<u8>,
    pub work: usize,
    pub answers: Room,
    pub report: usize,
    /// The number that must be returned, where it is known beforehand.
    pub returned: Option<u32>,
    /// What the answer buffer must begin with, part by part, and the report, where they are known
    /// beforehand.
    pub left: Option<(Vec<OneOf>, [u32; REPORT_NUMBERS])>,
    /// The journal's forecast, where it is known beforehand.
    pub forecast: Option<Forecast>,
    /// The journal's rewriting, where it is known beforehand.
    pub rewriting: Option<Rewritten>,
    /// The journal's forecast to the byte, where it is known beforehand.
    pub exact: Option<Forecast>,
}

/// A rewriting known beforehand: what it tells with an output buffer of so many bytes, and the result,
/// empty on a refusal.
#[derive(Clone, Debug)]
pub struct Rewritten {
    pub room: usize,
    pub told: Rewriting,
    pub result: Vec<u8>,
}

impl Case {
    /// A case whose buffers are as long as they must be, the answer buffer with room to the byte.
    pub fn new(label: &str, c: u32, s: u32, journal: Vec<u8>) -> Case {
        Case { answers: Room::Over(0), ..Case::with_room(label, c, s, journal, 0) }
    }

    pub fn with_room(label: &str, c: u32, s: u32, journal: Vec<u8>, answers: usize) -> Case {
        Case {
            label: label.to_string(),
            c,
            s,
            journal,
            work: work_needed(c.min(1 << 20), s.min(1 << 20)).min(200_000),
            answers: Room::Bytes(answers),
            report: REPORT_NUMBERS,
            returned: None,
            left: None,
            forecast: None,
            rewriting: None,
            exact: None,
        }
    }

    pub fn returns(mut self, number: u32) -> Case {
        self.returned = Some(number);
        self
    }

    /// These answers, which fit to the byte, and this report must be left.
    pub fn leaves(self, answers: Vec<u8>, report: [u32; REPORT_NUMBERS]) -> Case {
        self.leaves_one_of(vec![vec![answers]], report)
    }

    /// The same with answers in parts, of each of which one must be left. Unless it is 11 that refuses them, the
    /// forecast to the byte follows from the report.
    pub fn leaves_one_of(mut self, parts: Vec<OneOf>, report: [u32; REPORT_NUMBERS]) -> Case {
        let [number, place, _, bytes, ..] = report;
        let length = if number == 0 { bytes } else { 0 };
        self.exact = (number != 11).then_some(Forecast { number, place, length });
        self.answers = Room::Bytes(parts.iter().map(self::length).sum());
        self.returned = Some(report[0]);
        self.left = Some((parts, report));
        self
    }

    /// The same with so many bytes of room more.
    pub fn with_more(mut self, bytes: usize) -> Case {
        self.answers = Room::Bytes(self.answers.bytes(0) + bytes);
        self
    }

    /// This number, place and length must be forecast.
    pub fn forecasts(mut self, [number, place, length]: [u32; 3]) -> Case {
        self.forecast = Some(Forecast { number, place, length });
        self
    }

    /// This must be told and written by a rewriting with an output buffer of so many bytes.
    pub fn rewrites(mut self, room: usize, told: Rewriting, result: Vec<u8>) -> Case {
        self.rewriting = Some(Rewritten { room, told, result });
        self
    }

    /// This number, place and length must be forecast to the byte.
    pub fn exactly(mut self, [number, place, length]: [u32; 3]) -> Case {
        self.exact = Some(Forecast { number, place, length });
        self
    }

    pub fn describe(&self) -> String {
        format!(
            "case: {}\nC {} S {} work {} answers {:?} report {}\njournal ({} bytes): {}",
            self.label,
            self.c,
            self.s,
            self.work,
            self.answers,
            self.report,
            self.journal.len(),
            hex(&self.journal)
        )
    }
}

/// The length that all of these have.
fn length(one_of: &OneOf) -> usize {
    let length = one_of[0].len();
    assert!(one_of.iter().all(|bytes| bytes.len() == length), "one length for all");
    length
}

/// Do these bytes begin with one of the first part, then one of the second, and so on?
pub fn begin_with(mut bytes: &[u8], parts: &[OneOf]) -> bool {
    parts.iter().all(|part| {
        let (front, rest) = bytes.split_at(length(part).min(bytes.len()));
        bytes = rest;
        part.iter().any(|one| one == front)
    })
}

pub fn hex(bytes: &[u8]) -> String {
    let mut text = String::with_capacity(2 * bytes.len());
    for byte in bytes {
        text.push_str(&format!("{byte:02x}"));
    }
    text
}

/// Bytes from hexadecimal digits; blanks and other signs between them are passed over.
pub fn unhex(text: &str) -> Vec<u8> {
    let digits: Vec<u8> =
        text.chars().filter_map(|sign| sign.to_digit(16)).map(|digit| digit as u8).collect();
    digits.chunks(2).map(|two| 16 * two[0] + two[1]).collect()
}
