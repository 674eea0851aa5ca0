//! Rewritings that are wrong on purpose. The comparison must find each of them.

use super::forecast::run_place;
use crate::engine::exact::Exact;
use crate::engine::join::Join;
use crate::engine::{Call, Engine, Rewriting, LONGEST_JOURNAL};
use crate::second::forecast::counts;
use crate::second::rewrite::{first_in_duct, result, rewrite, rewritten, text, Text};
use crate::second::{Misrewrite, Second};

/// What is wrong, and how it is made so.
type Wrong = (&'static str, Misrewrite);

/// Results with other ducts, or whose 02 become something else: a journal and its rewriting that are held
/// against each other must find these where the second implementation has them too.
pub const OTHER_ANSWERS: [Wrong; 6] = [
    ("the span number itself as duct", |journal, out| {
        of_spans(journal, out, |span, before| in_duct(span, before.spans))
    }),
    ("duct 1 for all", |journal, out| of_spans(journal, out, |span, _| in_duct(span, 1))),
    ("a number of one byte", |journal, out| {
        of_spans(journal, out, |span, before| in_duct(span, (before.spans + 1) % 256))
    }),
    ("half the number", |journal, out| {
        of_spans(journal, out, |span, before| in_duct(span, before.spans / 2 + 1))
    }),
    ("02 left as it is", |journal, out| of_spans(journal, out, |span, _| span.to_vec())),
    ("the last command left out", |journal, out| {
        of_result(journal, out, |text| rewritten(&text[..text.len().saturating_sub(1)].to_vec()))
    }),
];

/// Other results, which only the comparison or what is known beforehand can find.
const OTHER_RESULTS: [Wrong; 11] = [
    ("numbering by commands", |journal, out| {
        of_spans(journal, out, |span, before| in_duct(span, before.commands + 1))
    }),
    ("numbering by cabinets", |journal, out| {
        of_spans(journal, out, |span, before| in_duct(span, before.cabinets + before.spans + 1))
    }),
    ("the number plus 2", |journal, out| {
        of_spans(journal, out, |span, before| in_duct(span, before.spans + 2))
    }),
    ("numbering from the last", |journal, out| {
        let all = counts(journal).map_or(0, |counts| counts[0x02]);
        of_result(journal, out, |text| {
            made(text, &|span, before| in_duct(span, all - before.spans))
        })
    }),
    ("equal cabinets not counted", |journal, out| {
        of_spans(journal, out, |span, before| in_duct(span, before.unequal + 1))
    }),
    ("unknown cabinets not counted", |journal, out| {
        of_spans(journal, out, |span, before| in_duct(span, before.known + 1))
    }),
    ("the duct's low byte first", |journal, out| {
        of_spans(journal, out, |span, before| in_duct(span, (before.spans + 1).swap_bytes() >> 48))
    }),
    ("the two cabinets exchanged", |journal, out| {
        of_spans(journal, out, |span, before| {
            let turned = [span[0], span[3], span[4], span[1], span[2]];
            in_duct(&turned, before.spans + 1)
        })
    }),
    ("the duct before the cabinets", |journal, out| {
        of_spans(journal, out, |span, before| {
            let duct = (before.spans + 1).to_be_bytes();
            [&[0x0B], &duct[6..], &span[1..]].concat()
        })
    }),
    ("02 left behind what a run refuses", |journal, out| {
        of_result(journal, out, |text| {
            let place = run_place(journal) as usize;
            let up_to = text.iter().filter(|(at, _)| *at < place).count();
            let behind = text[up_to..].iter().flat_map(|(_, bytes)| bytes.to_vec());
            [rewritten(&text[..up_to].to_vec()), behind.collect()].concat()
        })
    }),
    ("03 left out", |journal, out| {
        of_result(journal, out, |text| {
            let kept = text.iter().filter(|(_, bytes)| bytes[0] != 0x03);
            rewritten(&kept.copied().collect())
        })
    }),
];

/// What is refused, and how.
const REFUSALS: [Wrong; 24] = [
    ("15 before 4", |journal, out| before_damage(journal, out, 4)),
    ("15 before 5", |journal, out| before_damage(journal, out, 5)),
    ("15 at the last 0B", |journal, out| {
        let last = |text: &Text| text.iter().rposition(|(_, bytes)| bytes[0] == 0x0B);
        let at = text(journal).ok().and_then(|text| last(&text).map(|i| text[i].0));
        changed(journal, out, 15, |told| Rewriting { place: at.unwrap_or(0) as u32, ..told })
    }),
    ("15 at the journal's start", |journal, out| {
        changed(journal, out, 15, |told| Rewriting { place: 0, ..told })
    }),
    ("15 for a 0B among operands", |journal, out| {
        let told = rewrite(journal, &mut out.to_vec());
        match journal.iter().position(|&byte| byte == 0x0B) {
            Some(place) if matches!(told.number, 0 | 16) => Rewriting::refused(15, place),
            _ => rewrite(journal, out),
        }
    }),
    ("0B rewritten too", |journal, out| match text(journal) {
        Ok(text) => put(journal, &rewritten(&text), out, LONGEST_JOURNAL),
        Err((number, place)) => Rewriting::refused(number, place),
    }),
    ("16 before 15", |journal, out| {
        let taken = text(journal).map_or(0, |text| rewritten(&text).len());
        let told = rewrite(journal, out);
        match told.number {
            15 if taken > out.len() || taken > LONGEST_JOURNAL => Rewriting::refused(16, 0),
            _ => told,
        }
    }),
    ("16 with a place", |journal, out| {
        changed(journal, out, 16, |told| Rewriting { place: journal.len() as u32, ..told })
    }),
    ("11 for 16", |journal, out| {
        changed(journal, out, 16, |told| Rewriting { number: 11, ..told })
    }),
    ("4 for 15", |journal, out| changed(journal, out, 15, |told| Rewriting { number: 4, ..told })),
    ("5 for 4", |journal, out| changed(journal, out, 4, |told| Rewriting { number: 5, ..told })),
    ("4 for 5", |journal, out| changed(journal, out, 5, |told| Rewriting { number: 4, ..told })),
    ("3 with a place", |journal, out| {
        changed(journal, out, 3, |told| Rewriting { place: journal.len() as u32, ..told })
    }),
    ("the place where a run would stop, for 4", |journal, out| {
        changed(journal, out, 4, |told| Rewriting { place: run_place(journal), ..told })
    }),
    ("the place where a run would stop, for 5", |journal, out| {
        changed(journal, out, 5, |told| Rewriting { place: run_place(journal), ..told })
    }),
    ("a journal of 65,536 bytes refused", |journal, out| match journal.len() {
        LONGEST_JOURNAL => Rewriting::refused(3, 0),
        _ => rewrite(journal, out),
    }),
    ("a journal of 65,537 bytes read", |journal, out| {
        match journal.len() == LONGEST_JOURNAL + 1 && rewrite(&journal[1..], out).number == 0 {
            true => Rewriting::refused(16, 0),
            false => rewrite(journal, out),
        }
    }),
    ("a result of 65,536 bytes refused", |journal, out| match result(journal, out.len()) {
        Ok(result) => put(journal, &result, out, LONGEST_JOURNAL - 1),
        Err((number, place)) => Rewriting::refused(number, place),
    }),
    ("a result of 65,537 bytes accepted", |journal, out| {
        with_limit(journal, out, LONGEST_JOURNAL + 1)
    }),
    ("a result of any length accepted", |journal, out| with_limit(journal, out, usize::MAX)),
    ("a result one byte longer than the buffer", |journal, out| {
        match result(journal, out.len() + 1) {
            Ok(mut result) => {
                let taken = result.len();
                result.truncate(out.len());
                out[..result.len()].copy_from_slice(&result);
                Rewriting::accepted(journal, taken)
            }
            Err((number, place)) => Rewriting::refused(number, place),
        }
    }),
    ("a result as long as the buffer refused", |journal, out| {
        match result(journal, out.len().saturating_sub(1)) {
            Err((16, _)) if !out.is_empty() => Rewriting::refused(16, 0),
            _ => rewrite(journal, out),
        }
    }),
    ("the journal's length held against the buffer", |journal, out| {
        match result(journal, usize::MAX) {
            Ok(result) if journal.len() <= out.len() => {
                let written = result.len().min(out.len());
                out[..written].copy_from_slice(&result[..written]);
                Rewriting::accepted(journal, result.len())
            }
            _ => rewrite(journal, out),
        }
    }),
    ("more than 8,192 spans refused", |journal, out| match counts(journal) {
        Ok(counts) if counts[0x0B] == 0 && counts[0x02] > 8_192 => Rewriting::refused(16, 0),
        _ => rewrite(journal, out),
    }),
];

/// What is told or left besides.
const LEFT: [Wrong; 14] = [
    ("another number", |journal, out| {
        let told = rewrite(journal, out);
        Rewriting { number: told.number + 1, ..told }
    }),
    ("place 0 where it is accepted", |journal, out| {
        changed(journal, out, 0, |told| Rewriting { place: 0, ..told })
    }),
    ("the result's length for the place", |journal, out| {
        changed(journal, out, 0, |told| Rewriting { place: told.length, ..told })
    }),
    ("the journal's length for the result's", |journal, out| {
        changed(journal, out, 0, |told| Rewriting { length: told.place, ..told })
    }),
    ("length 0 where it is accepted", |journal, out| {
        changed(journal, out, 0, |told| Rewriting { length: 0, ..told })
    }),
    ("a length with 16", |journal, out| {
        let taken = text(journal).map_or(0, |text| rewritten(&text).len());
        changed(journal, out, 16, |told| Rewriting { length: taken as u32, ..told })
    }),
    ("a length with 15", |journal, out| {
        changed(journal, out, 15, |told| Rewriting { length: told.place, ..told })
    }),
    ("a length with 4 or 5", |journal, out| {
        let told = rewrite(journal, out);
        let length = if matches!(told.number, 4 | 5) { told.place } else { told.length };
        Rewriting { length, ..told }
    }),
    ("a byte written with 16", |journal, out| first_byte(journal, out, 16)),
    ("a byte written with 15", |journal, out| first_byte(journal, out, 15)),
    ("a byte written with 3", |journal, out| first_byte(journal, out, 3)),
    ("the result written as far as it goes with 16", |journal, out| {
        if let Ok(result) = result(journal, usize::MAX) {
            let written = result.len().min(out.len());
            out[..written].copy_from_slice(&result[..written]);
        }
        rewrite(journal, out)
    }),
    ("the commands before a damaged place written", |journal, out| {
        let told = rewrite(journal, out);
        if matches!(told.number, 4 | 5) {
            rewrite(&journal[..told.place as usize], out);
        }
        told
    }),
    ("a byte written behind the result", |journal, out| {
        let told = rewrite(journal, out);
        if let (0, Some(byte)) = (told.number, out.get_mut(told.length as usize)) {
            *byte ^= 1;
        }
        told
    }),
];

/// All of them.
pub fn all() -> Vec<Wrong> {
    [&OTHER_ANSWERS[..], &OTHER_RESULTS, &REFUSALS, &LEFT].concat()
}

/// What stands before a span: the commands, the cabinets and the spans, and of these such as have two
/// different cabinets, and known ones.
#[derive(Clone, Copy, Default)]
struct Before {
    commands: usize,
    cabinets: usize,
    spans: usize,
    unequal: usize,
    known: usize,
}

impl Before {
    fn take(&mut self, bytes: &[u8]) {
        self.commands += 1;
        self.cabinets += usize::from(bytes[0] == 0x01);
        if bytes[0] == 0x02 {
            let operand = |at: usize| 256 * usize::from(bytes[at]) + usize::from(bytes[at + 1]);
            let (a, b) = (operand(1), operand(3));
            self.spans += 1;
            self.unequal += usize::from(a != b);
            self.known += usize::from(a.max(b) < self.cabinets);
        }
    }
}

/// A span by 0B in this duct, from its bytes by 02.
fn in_duct(span: &[u8], duct: usize) -> Vec<u8> {
    [&[0x0B], &span[1..5], &(duct as u16).to_be_bytes()].concat()
}

/// The text with each 02 as it is made from its bytes and what stands before it.
fn made(text: &Text, make: &dyn Fn(&[u8], Before) -> Vec<u8>) -> Vec<u8> {
    let mut before = Before::default();
    let mut result = Vec::new();
    for (_, bytes) in text {
        match bytes[0] {
            0x02 => result.extend(make(bytes, before)),
            _ => result.extend(*bytes),
        }
        before.take(bytes);
    }
    result
}

fn of_spans(journal: &[u8], out: &mut [u8], make: fn(&[u8], Before) -> Vec<u8>) -> Rewriting {
    of_result(journal, out, |text| made(text, &make))
}

/// The right refusals, but another result.
fn of_result(journal: &[u8], out: &mut [u8], result: impl Fn(&Text) -> Vec<u8>) -> Rewriting {
    let text = match text(journal) {
        Ok(text) => text,
        Err((number, place)) => return Rewriting::refused(number, place),
    };
    match first_in_duct(&text) {
        Some(place) => Rewriting::refused(15, place),
        None => put(journal, &result(&text), out, LONGEST_JOURNAL),
    }
}

/// Writes a result of at most so many bytes, if there is room for it.
fn put(journal: &[u8], result: &[u8], out: &mut [u8], most: usize) -> Rewriting {
    if result.len() > most || result.len() > out.len() {
        return Rewriting::refused(16, 0);
    }
    out[..result.len()].copy_from_slice(result);
    Rewriting::accepted(journal, result.len())
}

/// The right rewriting where a result may have so many bytes.
fn with_limit(journal: &[u8], out: &mut [u8], most: usize) -> Rewriting {
    match text(journal) {
        Ok(text) if first_in_duct(&text).is_none() => put(journal, &rewritten(&text), out, most),
        _ => rewrite(journal, out),
    }
}

/// The right rewriting; where it returns this number, it tells something else.
fn changed(
    journal: &[u8],
    out: &mut [u8],
    number: u32,
    change: impl Fn(Rewriting) -> Rewriting,
) -> Rewriting {
    let told = rewrite(journal, out);
    if told.number == number {
        change(told)
    } else {
        told
    }
}

/// 15 for a 0B before the place that meets this number.
fn before_damage(journal: &[u8], out: &mut [u8], number: u32) -> Rewriting {
    changed(journal, out, number, |told| {
        let before = text(&journal[..told.place as usize]).ok();
        let first = before.and_then(|text| first_in_duct(&text));
        first.map_or(told, |place| Rewriting::refused(15, place))
    })
}

/// Changes the first byte of the output buffer where this number is returned.
fn first_byte(journal: &[u8], out: &mut [u8], number: u32) -> Rewriting {
    let told = rewrite(journal, out);
    if let (true, Some(byte)) = (told.number == number, out.first_mut()) {
        *byte ^= 1;
    }
    told
}

/// The caller's place and length are left as they were: on a refusal, or where the journal is accepted.
pub struct Unfilled {
    pub refused: bool,
}

impl Engine for Unfilled {
    fn name(&self) -> &'static str {
        match self.refused {
            true => "place and length not filled where a rewriting is refused",
            false => "place and length not filled where a journal is rewritten",
        }
    }

    fn run(&self, call: Call) -> u32 {
        Second::new().run(call)
    }

    fn forecast(&self, journal: &[u8], place: &mut u32, length: &mut u32) -> u32 {
        Second::new().forecast(journal, place, length)
    }

    fn rewrite(&self, journal: &[u8], out: &mut [u8], place: &mut u32, length: &mut u32) -> u32 {
        let before = (*place, *length);
        let number = Second::new().rewrite(journal, out, place, length);
        if (number != 0) == self.refused {
            (*place, *length) = before;
        }
        number
    }

    fn join(&self, call: Join) -> u32 {
        Second::new().join(call)
    }

    fn forecast_exact(&self, call: Exact) -> u32 {
        Second::new().forecast_exact(call)
    }
}
