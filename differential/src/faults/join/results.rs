//! Results that are wrong on purpose.

use super::{of_result, of_seams, of_second, Wrong};
use crate::engine::join::{Join, Seam};
use crate::second::command::Command;
use crate::second::join::{commands, raised, result, sewn, spelled, Both};
use crate::second::surveys::Record;

/// Results to which a run gives other answers: joined journals that are held against the two must find these
/// where the second implementation has them too.
pub const OTHER_ANSWERS: [Wrong; 18] = [
    ("nothing raised", |both, call| by(both, call, 0, 0)),
    ("cabinets not raised", |both, call| by(both, call, 0, both[0].spans)),
    ("spans not raised", |both, call| by(both, call, both[0].cabinets, 0)),
    ("span numbers raised by cabinets", |both, call| {
        by(both, call, both[0].cabinets, both[0].cabinets)
    }),
    ("cabinet numbers raised by spans", |both, call| by(both, call, both[0].spans, both[0].spans)),
    ("raised by the second's own counts", |both, call| {
        by(both, call, both[1].cabinets, both[1].spans)
    }),
    ("raised by the counts of both", |both, call| {
        by(both, call, both[0].cabinets + both[1].cabinets, both[0].spans + both[1].spans)
    }),
    ("cabinets raised by one too many", |both, call| {
        by(both, call, both[0].cabinets + 1, both[0].spans)
    }),
    ("spans raised by one too many", |both, call| {
        by(both, call, both[0].cabinets, both[0].spans + 1)
    }),
    ("raised by the last numbers of the first", |both, call| {
        let last = |count: usize| count.saturating_sub(1);
        by(both, call, last(both[0].cabinets), last(both[0].spans))
    }),
    ("spans of 02 alone counted", |both, call| {
        let of_02 = |command: &Command| matches!(command, Command::AddSpan(..));
        let spans = commands(call.first).into_iter().filter(of_02).count();
        by(both, call, both[0].cabinets, spans)
    }),
    ("commands counted for cabinets", |both, call| {
        let count = commands(call.first).len();
        by(both, call, count, both[0].spans)
    }),
    ("bytes 01 counted for cabinets", |both, call| {
        let count = call.first.iter().filter(|&&byte| byte == 0x01).count();
        by(both, call, count, both[0].spans)
    }),
    ("seams before the second journal", |both, call| {
        of_result(both, call, |call| {
            let mut result = result(both, call);
            let (first, second) = (call.first.len(), call.second.len());
            result[first..].rotate_left(second);
            result
        })
    }),
    ("the second before the first", |both, call| {
        of_result(both, call, |call| {
            let mut result = result(both, call);
            let (first, second) = (call.first.len(), call.second.len());
            result[..first + second].rotate_left(first);
            result
        })
    }),
    ("the last command left out", |both, call| {
        of_result(both, call, |call| {
            let mut all = commands(&result(both, call));
            all.pop();
            all.into_iter().flat_map(spelled).collect()
        })
    }),
    ("the seams left out", |both, call| of_seams(both, call, |_, _| Vec::new())),
    ("the seams' second not raised", |both, call| {
        of_seams(both, call, |_, seam| in_duct(seam.first, seam.second.into(), seam.duct))
    }),
];

/// Other results, which only the comparison or what is known beforehand can find, or a run not always.
pub const OTHER_RESULTS: [Wrong; 24] = [
    ("02 not raised", |both, call| sparing(both, call, 0x02)),
    ("03 not raised", |both, call| sparing(both, call, 0x03)),
    ("04 not raised", |both, call| sparing(both, call, 0x04)),
    ("05 not raised", |both, call| sparing(both, call, 0x05)),
    ("06 not raised", |both, call| sparing(both, call, 0x06)),
    ("07 not raised", |both, call| sparing(both, call, 0x07)),
    ("08 not raised", |both, call| sparing(both, call, 0x08)),
    ("09 not raised", |both, call| sparing(both, call, 0x09)),
    ("0A not raised", |both, call| sparing(both, call, 0x0A)),
    ("0B not raised", |both, call| sparing(both, call, 0x0B)),
    ("0C not raised", |both, call| sparing(both, call, 0x0C)),
    ("0D not raised", |both, call| sparing(both, call, 0x0D)),
    ("0E not raised", |both, call| sparing(both, call, 0x0E)),
    ("a duct raised by cabinets", |both, call| ducts(both, call, both[0].cabinets)),
    ("a duct raised by spans", |both, call| ducts(both, call, both[0].spans)),
    ("a day raised by cabinets", |both, call| records(both, call, [both[0].cabinets, 0])),
    ("a day raised by spans", |both, call| records(both, call, [both[0].spans, 0])),
    ("metres raised by cabinets", |both, call| records(both, call, [0, both[0].cabinets])),
    ("metres raised by spans", |both, call| records(both, call, [0, both[0].spans])),
    ("the first of two cabinets alone raised", |both, call| operand(both, call, 3)),
    ("the second of two cabinets alone raised", |both, call| operand(both, call, 1)),
    ("numbers raised without a carry", |both, call| {
        of_second(both, call, |command| {
            let (old, mut new) = (spelled(command), spelled(right(both, command)));
            (1..old.len()).step_by(2).for_each(|at| new[at] = old[at]);
            new
        })
    }),
    ("the low byte first", |both, call| {
        of_second(both, call, |command| {
            let mut bytes = spelled(right(both, command));
            bytes[1..].chunks_mut(2).for_each(|two| two.reverse());
            bytes
        })
    }),
    ("the first raised too", |both, call| {
        of_result(both, call, |call| {
            let first = commands(call.first).into_iter();
            let first = first.map(|command| raised(command, both[1].cabinets, both[1].spans));
            let rest = result(both, call).split_off(call.first.len());
            first.flat_map(spelled).chain(rest).collect()
        })
    }),
];

/// Other commands for the seams.
pub const OTHER_SEAMS: [Wrong; 16] = [
    ("a seam by 02", |both, call| {
        of_seams(both, call, |_, seam| {
            spelled(Command::AddSpan(seam.first.into(), second(both, seam)))
        })
    }),
    ("a seam's ends exchanged", |both, call| {
        of_seams(both, call, |_, seam| {
            in_duct(second(both, seam) as u16, seam.first.into(), seam.duct)
        })
    }),
    ("a seam's second raised by spans", |both, call| {
        of_seams(both, call, |_, seam| {
            in_duct(seam.first, usize::from(seam.second) + both[0].spans, seam.duct)
        })
    }),
    ("a seam's second raised by its own network", |both, call| {
        of_seams(both, call, |_, seam| {
            in_duct(seam.first, usize::from(seam.second) + both[1].cabinets, seam.duct)
        })
    }),
    ("a seam's first raised", |both, call| {
        of_seams(both, call, |_, seam| {
            let first = seam.first + both[1].cabinets as u16;
            in_duct(first, second(both, seam), seam.duct)
        })
    }),
    ("a seam's duct raised by cabinets", |both, call| {
        of_seams(both, call, |_, seam| {
            with_duct(both, seam, seam.duct.wrapping_add(both[0].cabinets as u16))
        })
    }),
    ("a seam's duct raised by spans", |both, call| {
        of_seams(both, call, |_, seam| {
            with_duct(both, seam, seam.duct.wrapping_add(both[0].spans as u16))
        })
    }),
    ("a seam's duct of one byte", |both, call| {
        of_seams(both, call, |_, seam| with_duct(both, seam, seam.duct % 256))
    }),
    ("a seam's duct with its low byte first", |both, call| {
        of_seams(both, call, |_, seam| with_duct(both, seam, seam.duct.swap_bytes()))
    }),
    ("duct 1 for every seam", |both, call| {
        of_seams(both, call, |_, seam| with_duct(both, seam, 1))
    }),
    ("a duct of its own for every seam", |both, call| {
        of_seams(both, call, |i, seam| with_duct(both, seam, i as u16 + 1))
    }),
    ("a seam's duct before its cabinets", |both, call| {
        of_seams(both, call, |_, seam| {
            let mut bytes = with_duct(both, seam, seam.duct);
            bytes[1..].rotate_right(2);
            bytes
        })
    }),
    ("the first seam for all", |both, call| {
        let first = call.seams.first().copied();
        of_seams(both, call, |_, seam| spelled(sewn(first.unwrap_or(seam), both)))
    }),
    ("seams from the last to the first", |both, call| {
        let seams = call.seams;
        of_seams(both, call, |i, _| spelled(sewn(seams[seams.len() - 1 - i], both)))
    }),
    ("equal seams once", |both, call| {
        let seams = call.seams;
        of_seams(both, call, |i, seam| match seams[..i].contains(&seam) {
            true => Vec::new(),
            false => spelled(sewn(seam, both)),
        })
    }),
    ("the last seam left out", |both, call| {
        let count = call.seams.len();
        of_seams(both, call, |i, seam| match i + 1 == count {
            true => Vec::new(),
            false => spelled(sewn(seam, both)),
        })
    }),
];

/// A command rightly raised.
fn right(both: Both, command: Command) -> Command {
    raised(command, both[0].cabinets, both[0].spans)
}

/// The second raised by other counts, the seams as they must be.
fn by(both: Both, call: Join, cabinets: usize, spans: usize) -> u32 {
    of_second(both, call, |command| spelled(raised(command, cabinets, spans)))
}

/// The commands with this byte are as they were.
fn sparing(both: Both, call: Join, byte: u8) -> u32 {
    of_second(both, call, |command| {
        let old = spelled(command);
        if old[0] == byte {
            old
        } else {
            spelled(right(both, command))
        }
    })
}

/// The ducts of the second raised by so many.
fn ducts(both: Both, call: Join, by: usize) -> u32 {
    of_second(both, call, |command| match right(both, command) {
        Command::AddInDuct(a, b, duct) => spelled(Command::AddInDuct(a, b, duct + by)),
        other => spelled(other),
    })
}

/// The days and metres of the second raised by so many.
fn records(both: Both, call: Join, by: [usize; 2]) -> u32 {
    of_second(both, call, |command| match right(both, command) {
        Command::Record(Record { span, day, metres }) => {
            spelled(Command::Record(Record { span, day: day + by[0], metres: metres + by[1] }))
        }
        other => spelled(other),
    })
}

/// Of commands with two cabinets, the operand at this place of the command is as it was.
fn operand(both: Both, call: Join, at: usize) -> u32 {
    of_second(both, call, |command| {
        let (old, mut new) = (spelled(command), spelled(right(both, command)));
        if old.len() >= 5 && old[0] != 0x0D {
            new[at..at + 2].copy_from_slice(&old[at..at + 2]);
        }
        new
    })
}

/// The cabinet of the second, raised.
fn second(both: Both, seam: Seam) -> usize {
    usize::from(seam.second) + both[0].cabinets
}

fn in_duct(a: u16, b: usize, duct: u16) -> Vec<u8> {
    spelled(Command::AddInDuct(a.into(), b, duct.into()))
}

fn with_duct(both: Both, seam: Seam, duct: u16) -> Vec<u8> {
    in_duct(seam.first, second(both, seam), duct)
}
