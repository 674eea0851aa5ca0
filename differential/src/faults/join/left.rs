//! What a joining leaves that is wrong on purpose.

use super::{after, Wrong};
use crate::engine::join::{Join, JOIN_WORK};
use crate::second::join::{result, Both};

/// The working table.
pub const TABLE: [Wrong; 13] = [
    ("the table left after 0", |both, call| left(both, call, 0, 0)),
    ("the table left after 17", |both, call| left(both, call, 17, 0)),
    ("the table left after 18", |both, call| left(both, call, 18, 0)),
    ("the table left after 19", |both, call| left(both, call, 19, 0)),
    ("the table's last number left after 0", |both, call| left(both, call, 0, JOIN_WORK - 1)),
    ("the table's last number left after 17", |both, call| left(both, call, 17, JOIN_WORK - 1)),
    ("the table's last number left after 18", |both, call| left(both, call, 18, JOIN_WORK - 1)),
    ("the table's last number left after 19", |both, call| left(both, call, 19, JOIN_WORK - 1)),
    ("the table left where a journal is too long", |both, call| {
        let is_long = both.iter().any(|judged| judged.refusal == 3);
        left(both, call, if is_long { 17 } else { u32::MAX }, 0)
    }),
    ("a number beyond W changed", |both, call| {
        after(both, call, |number, _, call| {
            if let (true, Some(beyond)) = (number != 2, call.work.get_mut(JOIN_WORK)) {
                *beyond ^= 1;
            }
        })
    }),
    ("the last number beyond W changed after a refusal", |both, call| {
        after(both, call, |number, _, call| {
            if number != 0 && number != 2 && call.work.len() > JOIN_WORK {
                let last = call.work.len() - 1;
                call.work[last] ^= 1;
            }
        })
    }),
    ("the table cleared on 2", |both, call| {
        after(both, call, |number, _, call| {
            if number == 2 {
                call.work.fill(0);
            }
        })
    }),
    ("the table's first number changed on 2", |both, call| {
        after(both, call, |number, _, call| {
            if let (2, Some(first)) = (number, call.work.first_mut()) {
                *first ^= 1;
            }
        })
    }),
];

/// The output buffer and the length.
pub const BUFFERS: [Wrong; 20] = [
    ("the length left on 0", |both, call| kept(both, call, 0)),
    ("the length left on 2", |both, call| kept(both, call, 2)),
    ("the length left on 17", |both, call| kept(both, call, 17)),
    ("the length left on 18", |both, call| kept(both, call, 18)),
    ("the length left on 19", |both, call| kept(both, call, 19)),
    ("the bytes that it would take on 19", |both, call| told(both, call, 19)),
    ("the bytes that it would take on 18", |both, call| told(both, call, 18)),
    ("the bytes that it would take on 2", |both, call| told(both, call, 2)),
    ("a length without the seams", |both, call| {
        after(both, call, |number, _, call| {
            if number == 0 {
                *call.length = (call.first.len() + call.second.len()) as u32;
            }
        })
    }),
    ("the output buffer's length", |both, call| {
        after(both, call, |number, _, call| {
            if number == 0 {
                *call.length = call.out.len() as u32;
            }
        })
    }),
    ("a byte written on 2", |both, call| first_byte(both, call, 2)),
    ("a byte written on 17", |both, call| first_byte(both, call, 17)),
    ("a byte written on 18", |both, call| first_byte(both, call, 18)),
    ("a byte written on 19", |both, call| first_byte(both, call, 19)),
    ("the last byte written on 19", |both, call| {
        after(both, call, |number, _, call| {
            if let (19, Some(byte)) = (number, call.out.last_mut()) {
                *byte ^= 1;
            }
        })
    }),
    ("the first written where the second is refused", |both, call| {
        after(both, call, |number, _, call| {
            if number == 17 && both[0].refusal == 0 && call.first.len() <= call.out.len() {
                call.out[..call.first.len()].copy_from_slice(call.first);
            }
        })
    }),
    ("the first written where a seam is bad", |both, call| {
        after(both, call, |number, _, call| {
            let written = call.first.len();
            if number == 18 && written <= call.out.len() {
                call.out[..written].copy_from_slice(call.first);
            }
        })
    }),
    ("what there is room for written on 19", |both, call| {
        after(both, call, |number, _, call| {
            if number == 19 {
                let result = result(both, call);
                let written = result.len().min(call.out.len());
                call.out[..written].copy_from_slice(&result[..written]);
            }
        })
    }),
    ("a byte behind the result", |both, call| {
        after(both, call, |number, _, call| {
            let size = call.size();
            if let (0, Some(byte)) = (number, call.out.get_mut(size)) {
                *byte ^= 1;
            }
        })
    }),
    ("the rest of the output buffer cleared", |both, call| {
        after(both, call, |number, _, call| {
            if number == 0 {
                let size = call.size();
                call.out[size..].fill(0);
            }
        })
    }),
];

/// A number of the table that is not 0 after this number.
fn left(both: Both, call: Join, of: u32, at: usize) -> u32 {
    after(both, call, |number, _, call| {
        if number == of {
            call.work[at] = 1;
        }
    })
}

/// The caller's length is not filled with this number.
fn kept(both: Both, call: Join, of: u32) -> u32 {
    after(both, call, |number, before, call| {
        if number == of {
            *call.length = before;
        }
    })
}

/// The bytes that the result would take for the length, with this number.
fn told(both: Both, call: Join, of: u32) -> u32 {
    after(both, call, |number, _, call| {
        if number == of {
            *call.length = call.size() as u32;
        }
    })
}

/// Changes the first byte of the output buffer where this number is returned.
fn first_byte(both: Both, call: Join, of: u32) -> u32 {
    after(both, call, |number, _, call| {
        if let (true, Some(byte)) = (number == of, call.out.first_mut()) {
            *byte ^= 1;
        }
    })
}
