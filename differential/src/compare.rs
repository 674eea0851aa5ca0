//! One case run, forecast and rewritten by an engine and by the second implementation, and every byte
//! compared.
//!
//! First come the forecast and the rewriting, then a run with exactly the room that is forecast, which is ample. Its
//! answers tell which pairs of routes the engine gives; each must serve. With these pairs the second
//! implementation tells every byte of that run, and of the run with the room of the case. Last comes the forecast
//! to the byte, which must agree with these runs.

mod ample;
mod exact;
mod forecast;
mod held;
pub mod join;
pub mod joined;
mod rewrite;

use crate::cases::{begin_with, hex, Case};
use crate::engine::{Call, Engine};
use crate::names::{Planner, Read};
use crate::random::Random;
use crate::second::routes::Asked;
use crate::second::{Accepted, Run, Second};
use ample::Ample;

pub use held::hold;

/// Entries before and after each buffer that no engine may touch.
const GUARD: usize = 64;

/// What was compared so far.
#[derive(Clone, Copy, Default)]
pub struct Tally {
    pub journals: usize,
    /// How often each number from 0 to 14 was returned.
    pub returned: [usize; 15],
    pub commands: usize,
    pub notices: usize,
    /// Pairs of routes that were given with ample room.
    pub pairs: usize,
    /// How often 03 was answered, and how often 04.
    pub sizes: [usize; 2],
    /// How often all sizes of a district of several rings were told, and added up.
    pub added_up: usize,
    /// How often 0E was answered without a length, and how often with one.
    pub lengths: [usize; 2],
    /// How often a share was an exact half that went down, and how often one that went up.
    pub halves: [usize; 2],
    /// How often each number from 0 to 5 was returned by a forecast.
    pub forecast: [usize; 6],
    /// Runs with exactly the room that was forecast, by the number that the journal's forecast
    /// returned: 0, or 4 and 5 with the room for the commands before the damaged place.
    pub exact: [usize; 6],
    /// How often each number from 0 to 16 was returned by a rewriting.
    pub rewritten: [usize; 17],
    /// Journals held against what they are rewritten to: those accepted to the end, and those refused;
    /// and the pairs of routes given there.
    pub held: [usize; 2],
    pub held_pairs: usize,
    /// How often each number from 0 to 14 was returned by a forecast to the byte. Where it is 0, a run with just so
    /// much room was accepted.
    pub to_the_byte: [usize; 15],
    /// Runs with a byte less than that, all of which met 11.
    pub byte_less: usize,
}

impl Tally {
    /// One journal more, whose run returned this number, with what the planner has read.
    fn count(&mut self, number: u32, read: &Read) {
        self.journals += 1;
        self.returned[number as usize] += 1;
        self.commands += read.commands;
        self.notices += read.notices;
        self.added_up += read.added_up;
        for i in 0..2 {
            self.sizes[i] += read.sizes[i];
            self.lengths[i] += read.lengths[i];
            self.halves[i] += read.halves[i];
        }
    }
}

/// The buffers of one call, each between guards, with random contents.
#[derive(Clone)]
struct Lent {
    journal: Vec<u8>,
    work: Vec<u32>,
    answers: Vec<u8>,
    report: Vec<u32>,
}

impl Lent {
    /// With so many bytes of room for the answers.
    fn new(case: &Case, room: usize, random: &mut Random) -> Lent {
        Lent {
            journal: guarded(&case.journal, random),
            work: table(case.work, random),
            answers: bytes(room, random),
            report: words(case.report, random),
        }
    }

    /// The call with these buffers, without their guards.
    fn call(&mut self, case: &Case) -> Call<'_> {
        Call {
            c: case.c,
            s: case.s,
            journal: inner(&mut self.journal),
            work: inner(&mut self.work),
            answers: inner(&mut self.answers),
            report: inner(&mut self.report),
        }
    }
}

/// These bytes between guards.
fn guarded(held: &[u8], random: &mut Random) -> Vec<u8> {
    let mut guarded = bytes(held.len(), random);
    inner(&mut guarded).copy_from_slice(held);
    guarded
}

fn bytes(length: usize, random: &mut Random) -> Vec<u8> {
    (0..length + 2 * GUARD).map(|_| random.number() as u8).collect()
}

fn words(length: usize, random: &mut Random) -> Vec<u32> {
    (0..length + 2 * GUARD).map(|_| random.number() as u32).collect()
}

/// A working table may hold anything before the call: random numbers, small ones that could be
/// taken for names and sizes, zeros or ones.
fn table(length: usize, random: &mut Random) -> Vec<u32> {
    let mut table = words(length, random);
    let held = inner(&mut table);
    match random.below(8) {
        0 => held.fill(0),
        1 => held.fill(u32::MAX),
        2..=3 => held.iter_mut().for_each(|number| *number %= 32),
        _ => {}
    }
    table
}

/// A buffer without its guards.
fn inner<T>(guarded: &mut [T]) -> &mut [T] {
    let end = guarded.len() - GUARD;
    &mut guarded[GUARD..end]
}

/// Compares engine and second implementation on one case. Gives the bytes that all answers take, as
/// far as they were counted; the error says what differs.
pub fn compare(
    engine: &dyn Engine,
    second: &Second,
    case: &Case,
    seed: u64,
    tally: &mut Tally,
) -> Result<usize, String> {
    let random = &mut Random::new(seed);
    let forecast = forecast::compare(engine, second, case, random, tally)?;
    rewrite::compare(engine, second, case, random, tally)?;
    let mut ample = match forecast {
        Some(forecast) => ample::run(engine, second, case, forecast, random, tally)?,
        None => Ample::default(),
    };
    let made = run(engine, second, case, &mut ample, random, tally)?;
    let needed = ample.needed;
    exact::compare(engine, second, case, (forecast, ample, made), random, tally)?;
    Ok(needed)
}

/// The run with the room of the case. Gives what it comes to in the second implementation, where room makes no
/// difference to that.
fn run(
    engine: &dyn Engine,
    second: &Second,
    case: &Case,
    ample: &mut Ample,
    random: &mut Random,
    tally: &mut Tally,
) -> Result<Option<Run>, String> {
    let lent = Lent::new(case, case.answers.bytes(ample.needed), random);
    let mut got = lent.clone();
    let number = engine.run(got.call(case));
    let mut planner = Planner::new(inner(&mut got.answers));
    let mut wanted = lent;
    let mut pairs = ample.pairs.drain(..);
    let choose = &mut |asked: &Asked| pairs.next().unwrap_or_else(|| second.own_pair(asked));
    let watch = &mut |accepted: Accepted| planner.watch(&accepted);
    let wanted_number = second.run_watched(wanted.call(case), choose, watch);
    let planned = planner.result();
    known_beforehand(case, wanted_number, &wanted)?;
    same_number(number, wanted_number)?;
    same_buffers(&got, &wanted)?;
    let read = planned.map_err(|fault| format!("the planner finds: {fault}"))?;
    all_read(&read, number, &got)?;
    tally.count(number, &read);
    Ok(made(wanted_number, &wanted))
}

/// What a run that returned this number left, unless it was refused at the start or for its room.
fn made(number: u32, left: &Lent) -> Option<Run> {
    if matches!(number, 1..=3 | 11) {
        return None;
    }
    let count = |at: usize| left.report[GUARD + at] as usize;
    Some(Run {
        refusal: number,
        place: count(1),
        commands: count(2),
        answers: left.answers[GUARD..GUARD + count(3)].to_vec(),
        cabinets: count(4),
        spans: count(5),
    })
}

/// The planner has read as many commands and bytes as the report counts; none, if the start
/// refused the run and there is no report.
fn all_read(read: &Read, number: u32, got: &Lent) -> Result<(), String> {
    let report = &got.report[GUARD..];
    let counted = if (1..=3).contains(&number) { [0, 0] } else { [report[2], report[3]] };
    if [read.commands, read.bytes] != counted.map(|count| count as usize) {
        return Err(format!(
            "the planner reads {} answers of {} bytes, reported are {counted:?}",
            read.commands, read.bytes
        ));
    }
    Ok(())
}

/// What is known beforehand is held against the second implementation; the engine is held to that.
fn known_beforehand(case: &Case, number: u32, wanted: &Lent) -> Result<(), String> {
    if case.returned.is_some_and(|known| known != number) {
        return Err(format!("second returns {number}, {:?} was known beforehand", case.returned));
    }
    if let Some((parts, report)) = &case.left {
        let answers = &wanted.answers[GUARD..wanted.answers.len() - GUARD];
        if !begin_with(answers, parts) {
            let known = parts.iter().map(|part| part.iter().map(|one| hex(one)).collect());
            let known: Vec<Vec<String>> = known.collect();
            return Err(format!("second answers {}, known beforehand is {known:?}", hex(answers)));
        }
        let left = &wanted.report[GUARD..][..case.report];
        if left != report {
            return Err(format!("second reports {left:?}, known beforehand is {report:?}"));
        }
    }
    Ok(())
}

fn same_number(got: u32, wanted: u32) -> Result<(), String> {
    if got != wanted {
        return Err(format!("returned {got}, second returns {wanted}"));
    }
    Ok(())
}

fn same_buffers(got: &Lent, wanted: &Lent) -> Result<(), String> {
    same("journal", &got.journal, &wanted.journal)?;
    same("answers", &got.answers, &wanted.answers)?;
    same("report", &got.report, &wanted.report)?;
    same("work", &got.work, &wanted.work)
}

fn same<T: PartialEq + std::fmt::Debug>(
    buffer: &str,
    got: &[T],
    wanted: &[T],
) -> Result<(), String> {
    if got == wanted {
        return Ok(());
    }
    let at = (0..got.len()).find(|&at| got[at] != wanted[at]).unwrap_or(0);
    Err(format!(
        "{buffer} differs at {}: {:?}, second has {:?} (places below 0 or past the end are guards)",
        at as isize - GUARD as isize,
        got[at],
        wanted[at]
    ))
}
