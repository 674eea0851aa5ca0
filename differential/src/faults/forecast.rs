//! Forecasts that are wrong on purpose. The comparison must find each of them.

use crate::engine::exact::Exact;
use crate::engine::join::Join;
use crate::engine::{Call, Engine, Forecast, MOST_CABINETS, MOST_SPANS};
use crate::second::command::{read, Capacities};
use crate::second::forecast::{counts, length, Counts};
use crate::second::routes::Asked;
use crate::second::{Misforecast, Second};

/// What is wrong, and how it is made so.
type Wrong = (&'static str, Misforecast);

/// Lengths that do not suffice for some journals: a run with exactly so much room must find them
/// where the second implementation has them too.
pub const TOO_SMALL: [Wrong; 19] = [
    ("5 for 03 only", |journal, right| {
        of_length(journal, right, |counts| length(counts) - 2 * counts[0x04])
    }),
    ("5 for 04 only", |journal, right| {
        of_length(journal, right, |counts| length(counts) - 2 * counts[0x03])
    }),
    ("3 for 03 and 04", |journal, right| {
        of_length(journal, right, |counts| length(counts) - 2 * (counts[0x03] + counts[0x04]))
    }),
    ("4 for 03 and 04", |journal, right| {
        of_length(journal, right, |counts| length(counts) - counts[0x03] - counts[0x04])
    }),
    ("the part of 06 left out", |journal, right| {
        of_length(journal, right, |counts| length(counts) - (3 + 2 * spans(counts)) * counts[6])
    }),
    ("0B not counted as a span", |journal, right| {
        of_length(journal, right, |counts| {
            let mut without = *counts;
            without[0x0B] = 0;
            length(&without)
        })
    }),
    ("0B counted with 7 alone", |journal, right| {
        of_length(journal, right, |counts| {
            let mut without = *counts;
            without[0x0B] = 0;
            length(&without) + 7 * counts[0x0B]
        })
    }),
    ("0B not counted in the parts of 06 and 0C", |journal, right| {
        of_length(journal, right, |counts| {
            length(counts) - 2 * counts[0x0B] * (counts[6] + counts[0x0C])
        })
    }),
    ("the part of 0C left out", |journal, right| {
        of_length(journal, right, |counts| length(counts) - (5 + 2 * spans(counts)) * counts[0x0C])
    }),
    ("3 + 2s for 0C", |journal, right| {
        of_length(journal, right, |counts| length(counts) - 2 * counts[0x0C])
    }),
    ("5 + s for 0C", |journal, right| {
        of_length(journal, right, |counts| length(counts) - spans(counts) * counts[0x0C])
    }),
    ("0 for 09", |journal, right| {
        of_length(journal, right, |counts| length(counts) - counts[0x09])
    }),
    ("1 for 0A", |journal, right| {
        of_length(journal, right, |counts| length(counts) - counts[0x0A])
    }),
    ("2 for 0F", |journal, right| {
        of_length(journal, right, |counts| length(counts) - counts[0x0F])
    }),
    ("0 for 0D", |journal, right| {
        of_length(journal, right, |counts| length(counts) - counts[0x0D])
    }),
    ("1 for 0E", |journal, right| {
        of_length(journal, right, |counts| length(counts) - 3 * counts[0x0E])
    }),
    ("3 for 0E", |journal, right| {
        of_length(journal, right, |counts| length(counts) - counts[0x0E])
    }),
    ("L one less", |journal, right| {
        let once = |k: usize| if k > 1 { k } else { 0 };
        of_length(journal, right, |counts| {
            length(counts) - 5 * (2 * once(counts[1]) + once(spans(counts)))
        })
    }),
    ("a length one byte too small", |journal, right| {
        of_length(journal, right, |counts| length(counts).saturating_sub(1))
    }),
];

/// Other faults, which only the comparison can find.
pub const WRONG: [Wrong; 9] = [
    ("c and s exchanged in the parts of 06, 07 and 0C", |journal, right| {
        of_length(journal, right, |counts| {
            let (c, s, by_spans, cut) =
                (counts[1], spans(counts), counts[6] + counts[0x0C], counts[7]);
            length(counts) + 2 * (c * by_spans + s * cut) - 2 * (s * by_spans + c * cut)
        })
    }),
    ("06, 07 and 0C with the c and s before them", |journal, right| {
        of_length(journal, right, |counts| length(counts) - for_later(journal))
    }),
    ("5 for 05 too", |journal, right| {
        of_length(journal, right, |counts| length(counts) + counts[0x05])
    }),
    ("4 for 0D", |journal, right| {
        of_length(journal, right, |counts| length(counts) + 3 * counts[0x0D])
    }),
    ("0D counted as a span", |journal, right| {
        of_length(journal, right, |counts| {
            let mut other = *counts;
            other[0x0B] += counts[0x0D];
            length(&other)
        })
    }),
    ("the place where a run would stop", |journal, right| match right.number {
        4 | 5 => Forecast { place: run_place(journal), ..right },
        _ => right,
    }),
    ("a length on a refusal", |journal, right| match counts(&journal[..right.place as usize]) {
        Ok(counts) if right.number != 0 => Forecast { length: length(&counts) as u32, ..right },
        _ => right,
    }),
    ("a place for number 3", |journal, right| match right.number {
        3 => Forecast { place: journal.len() as u32, ..right },
        _ => right,
    }),
    ("another number forecast", |_, right| Forecast { number: right.number + 1, ..right }),
];

/// The span commands.
fn spans(counts: &Counts) -> usize {
    counts[0x02] + counts[0x0B]
}

/// Where the journal is accepted, with this length in place of the right one.
fn of_length(journal: &[u8], right: Forecast, length: impl Fn(&Counts) -> usize) -> Forecast {
    match counts(journal) {
        Ok(counts) if right.number == 0 => Forecast { length: length(&counts) as u32, ..right },
        _ => right,
    }
}

/// What 06, 07 and 0C count for the spans and cabinets that come later in the journal.
fn for_later(journal: &[u8]) -> usize {
    let (mut by_spans, mut cut, mut later) = (0, 0, 0);
    let mut rest = journal;
    while let Some(Ok((_, length))) = rest.first().map(|_| read(rest)) {
        match rest[0] {
            0x01 => later += 2 * cut,
            0x02 | 0x0B => later += 2 * by_spans,
            0x06 | 0x0C => by_spans += 1,
            0x07 => cut += 1,
            _ => {}
        }
        rest = &rest[length..];
    }
    later
}

/// Where a run with the greatest capacities and ample room stops.
pub fn run_place(journal: &[u8]) -> u32 {
    let capacities = Capacities::new(MOST_CABINETS, MOST_SPANS);
    let choose = &mut |asked: &Asked| Second::new().own_pair(asked);
    Second::new().walk(capacities, journal, usize::MAX, choose, &mut |_| ()).place as u32
}

/// On a refusal the caller's place and length are left as they were.
pub struct Unfilled;

impl Engine for Unfilled {
    fn name(&self) -> &'static str {
        "place and length not filled on a refusal"
    }

    fn run(&self, call: Call) -> u32 {
        Second::new().run(call)
    }

    fn forecast(&self, journal: &[u8], place: &mut u32, length: &mut u32) -> u32 {
        let before = (*place, *length);
        let number = Second::new().forecast(journal, place, length);
        if number != 0 {
            (*place, *length) = before;
        }
        number
    }

    fn rewrite(&self, journal: &[u8], out: &mut [u8], place: &mut u32, length: &mut u32) -> u32 {
        Second::new().rewrite(journal, out, place, length)
    }

    fn join(&self, call: Join) -> u32 {
        Second::new().join(call)
    }

    fn forecast_exact(&self, call: Exact) -> u32 {
        Second::new().forecast_exact(call)
    }
}
