//! The proved register, behind the functions that it offers to C.

#![allow(unsafe_code)]

use crate::engine::exact::Exact;
use crate::engine::join::{Join, Seam};
use crate::engine::{Call, Engine};
use std::ptr::null_mut;

extern "C" {
    fn register_run(
        c: u32,
        s: u32,
        journal: *const u8,
        journal_len: usize,
        work: *mut u32,
        work_len: usize,
        answers: *mut u8,
        answers_len: usize,
        report: *mut u32,
        report_len: usize,
    ) -> u32;

    fn register_forecast(
        journal: *const u8,
        journal_len: usize,
        place: *mut u32,
        length: *mut u32,
    ) -> u32;

    fn register_rewrite(
        journal: *const u8,
        journal_len: usize,
        out: *mut u8,
        out_len: usize,
        place: *mut u32,
        length: *mut u32,
    ) -> u32;

    fn register_join(
        first: *const u8,
        first_len: usize,
        second: *const u8,
        second_len: usize,
        seams: *const Seam,
        seams_len: usize,
        work: *mut u32,
        work_len: usize,
        out: *mut u8,
        out_len: usize,
        length: *mut u32,
    ) -> u32;

    fn register_forecast_exact(
        c: u32,
        s: u32,
        journal: *const u8,
        journal_len: usize,
        work: *mut u32,
        work_len: usize,
        place: *mut u32,
        length: *mut u32,
    ) -> u32;
}

/// For an empty buffer it is given the buffer's own pointer, or null.
#[derive(Default)]
pub struct Register {
    pub null_if_empty: bool,
}

impl Register {
    /// The pointer for a buffer with this pointer of its own.
    fn pointer<T>(&self, own: *mut T, length: usize) -> *mut T {
        if length == 0 && self.null_if_empty {
            null_mut()
        } else {
            own
        }
    }
}

impl Engine for Register {
    fn name(&self) -> &'static str {
        "register"
    }

    fn run(&self, call: Call) -> u32 {
        let Call { c, s, journal, work, answers, report } = call;
        // Slices are what the function asks for: each pointer is good for its length, and no two
        // of them overlap. An empty one may have any pointer, null too.
        unsafe {
            register_run(
                c,
                s,
                self.pointer(journal.as_ptr().cast_mut(), journal.len()),
                journal.len(),
                self.pointer(work.as_mut_ptr(), work.len()),
                work.len(),
                self.pointer(answers.as_mut_ptr(), answers.len()),
                answers.len(),
                self.pointer(report.as_mut_ptr(), report.len()),
                report.len(),
            )
        }
    }

    fn forecast(&self, journal: &[u8], place: &mut u32, length: &mut u32) -> u32 {
        let pointer = self.pointer(journal.as_ptr().cast_mut(), journal.len());
        // The journal's pointer is good for its length, or of any kind if that is 0. The two
        // numbers are aligned, and overlap neither each other nor the journal.
        unsafe { register_forecast(pointer, journal.len(), place, length) }
    }

    fn rewrite(&self, journal: &[u8], out: &mut [u8], place: &mut u32, length: &mut u32) -> u32 {
        let read = self.pointer(journal.as_ptr().cast_mut(), journal.len());
        let written = self.pointer(out.as_mut_ptr(), out.len());
        // As above; the output buffer is a slice of its own.
        unsafe { register_rewrite(read, journal.len(), written, out.len(), place, length) }
    }

    fn join(&self, call: Join) -> u32 {
        let Join { first, second, seams, work, out, length } = call;
        // As for a run; the seams are laid out as C has them, and the length is aligned.
        unsafe {
            register_join(
                self.pointer(first.as_ptr().cast_mut(), first.len()),
                first.len(),
                self.pointer(second.as_ptr().cast_mut(), second.len()),
                second.len(),
                self.pointer(seams.as_ptr().cast_mut(), seams.len()),
                seams.len(),
                self.pointer(work.as_mut_ptr(), work.len()),
                work.len(),
                self.pointer(out.as_mut_ptr(), out.len()),
                out.len(),
                length,
            )
        }
    }

    fn forecast_exact(&self, call: Exact) -> u32 {
        let Exact { c, s, journal, work, place, length } = call;
        // As for a run; the two numbers are aligned, and overlap nothing.
        unsafe {
            register_forecast_exact(
                c,
                s,
                self.pointer(journal.as_ptr().cast_mut(), journal.len()),
                journal.len(),
                self.pointer(work.as_mut_ptr(), work.len()),
                work.len(),
                place,
                length,
            )
        }
    }
}
