//! The joining over bytes: once nothing refuses it, the second journal is copied behind the first, and its
//! operands are raised where they stand in the output buffer.

use super::forecast::forecast;
use super::Incremental;
use crate::engine::join::{Join, Seam, JOIN_WORK, SEAM_BYTES};
use crate::engine::{Call, Engine, LONGEST_JOURNAL, MOST_CABINETS, MOST_SPANS, REPORT_NUMBERS};

/// What an operand is, and so what it is raised by.
#[derive(Clone, Copy)]
enum Is {
    Cabinet,
    Span,
    Other,
}

use Is::{Cabinet, Other, Span};

/// The operands of a command that a run has accepted.
fn operands(byte: u8) -> &'static [Is] {
    match byte {
        0x02 | 0x05 | 0x06 | 0x07 | 0x0C => &[Cabinet, Cabinet],
        0x03 | 0x04 | 0x09 | 0x0A => &[Cabinet],
        0x08 | 0x0E => &[Span],
        0x0B => &[Cabinet, Cabinet, Other],
        0x0D => &[Span, Other, Other],
        _ => &[],
    }
}

/// The cabinets and spans of a journal, or none if a run refuses it.
fn counts(journal: &[u8], work: &mut [u32]) -> Option<[u32; 2]> {
    let room = forecast(journal);
    if room.number != 0 {
        return None;
    }
    let mut report = [0; REPORT_NUMBERS];
    let number = Incremental.run(Call {
        c: MOST_CABINETS,
        s: MOST_SPANS,
        journal,
        work,
        answers: &mut vec![0; room.length as usize],
        report: &mut report,
    });
    (number == 0).then_some([report[4], report[5]])
}

/// Adds to the number that stands at this place.
fn add(bytes: &mut [u8], place: usize, number: u32) {
    let old = u32::from(bytes[place]) << 8 | u32::from(bytes[place + 1]);
    let new = old + number;
    bytes[place] = (new >> 8) as u8;
    bytes[place + 1] = new as u8;
}

/// Raises every command of these bytes.
fn raise(bytes: &mut [u8], [cabinets, spans]: [u32; 2]) {
    let mut place = 0;
    while place < bytes.len() {
        let operands = operands(bytes[place]);
        place += 1;
        for operand in operands {
            match operand {
                Cabinet => add(bytes, place, cabinets),
                Span => add(bytes, place, spans),
                Other => {}
            }
            place += 2;
        }
    }
}

fn sew(bytes: &mut [u8], seam: &Seam, cabinets: u32) {
    let [a, b] = seam.first.to_be_bytes();
    let [c, d] = seam.second.to_be_bytes();
    let [e, f] = seam.duct.to_be_bytes();
    bytes.copy_from_slice(&[0x0B, a, b, c, d, e, f]);
    add(bytes, 3, cabinets);
}

pub fn join(call: Join) -> u32 {
    *call.length = 0;
    if call.work.len() < JOIN_WORK {
        return 2;
    }
    call.work[..JOIN_WORK].fill(0);
    let (first, second) = (counts(call.first, call.work), counts(call.second, call.work));
    let (Some(first), Some(second)) = (first, second) else {
        return 17;
    };
    for seam in call.seams {
        let known = u32::from(seam.first) < first[0] && u32::from(seam.second) < second[0];
        if !known || seam.duct == 0 {
            return 18;
        }
    }
    let behind = call.first.len() + call.second.len();
    let size = behind + SEAM_BYTES * call.seams.len();
    if size > LONGEST_JOURNAL.min(call.out.len()) {
        return 19;
    }
    call.out[..call.first.len()].copy_from_slice(call.first);
    call.out[call.first.len()..behind].copy_from_slice(call.second);
    raise(&mut call.out[call.first.len()..behind], first);
    let seams = call.out[behind..size].chunks_mut(SEAM_BYTES);
    seams.zip(call.seams).for_each(|(bytes, seam)| sew(bytes, seam, first[0]));
    *call.length = size as u32;
    0
}
