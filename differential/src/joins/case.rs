//! Two journals, and the joinings of them that are asked for.

use crate::cases::{hex, Room};
use crate::engine::join::{Seam, JOIN_WORK, SEAM_BYTES};

#[derive(Clone, Debug)]
pub struct Couple {
    pub label: String,
    pub first: Vec<u8>,
    pub second: Vec<u8>,
    pub joinings: Vec<Joining>,
}

/// One joining: the seams, and the lengths of the working table and of the output buffer.
#[derive(Clone, Debug)]
pub struct Joining {
    pub seams: Vec<Seam>,
    pub work: usize,
    /// By the bytes that the result takes.
    pub out: Room,
    /// What must be returned and written, where it is known beforehand.
    pub known: Option<Known>,
}

/// The number, and the result, empty on a refusal.
#[derive(Clone, Debug)]
pub struct Known {
    pub number: u32,
    pub result: Vec<u8>,
}

impl Couple {
    pub fn new(label: &str, first: Vec<u8>, second: Vec<u8>) -> Couple {
        Couple { label: label.to_string(), first, second, joinings: Vec::new() }
    }

    /// The same with one joining more.
    pub fn asked(mut self, joining: Joining) -> Couple {
        self.joinings.push(joining);
        self
    }

    /// The bytes that the result takes.
    pub fn size(&self, seams: &[Seam]) -> usize {
        self.first.len() + self.second.len() + SEAM_BYTES * seams.len()
    }

    pub fn describe(&self, joining: &Joining) -> String {
        let Joining { seams, work, out, .. } = joining;
        format!(
            "joining: {}\n{} seams: {:?}\nwork {work} out {out:?}\nfirst ({} bytes): {}\n\
             second ({} bytes): {}",
            self.label,
            seams.len(),
            &seams[..seams.len().min(20)],
            self.first.len(),
            hex(&self.first),
            self.second.len(),
            hex(&self.second)
        )
    }
}

impl Joining {
    /// With a table of W numbers and an output buffer that fits to the byte.
    pub fn by(seams: Vec<Seam>) -> Joining {
        Joining { seams, work: JOIN_WORK, out: Room::Over(0), known: None }
    }

    pub fn with_work(self, work: usize) -> Joining {
        Joining { work, ..self }
    }

    pub fn with_out(self, out: Room) -> Joining {
        Joining { out, ..self }
    }

    /// This number must be returned, and nothing written.
    pub fn refused(self, number: u32) -> Joining {
        Joining { known: Some(Known { number, result: Vec::new() }), ..self }
    }

    /// This result must be written.
    pub fn gives(self, result: Vec<u8>) -> Joining {
        Joining { known: Some(Known { number: 0, result }), ..self }
    }
}
