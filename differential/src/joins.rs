//! The joining of document 02's ninth request: an engine compared with the second implementation, and the
//! joined journals held against the two that they were made from.

pub mod bugs;
pub mod case;
pub mod histories;
mod known;
mod long;
pub mod memo;
mod random;
mod ways;

use crate::cases::Case;
use crate::compare::join::{compare, Tables};
use crate::compare::joined::{Held, Holder};
use crate::compare::{compare as compare_run, Tally};
use crate::engine::join::JOIN_WORK;
use crate::engine::Engine;
use crate::raising::{parts, Reading};
use crate::random::Random;
use crate::second::join::Both;
use crate::second::Second;
use case::{Couple, Joining};
use memo::Memo;
use std::rc::Rc;
use std::time::{Duration, Instant};
use ways::Ways;

pub use known::known;
pub use long::{large, long};

const RANDOM_COUPLES: u64 = 3_000;

/// Joined journals of up to so many cabinets and spans are compared as any other.
const MOST_RUN: usize = 300;

/// The numbers that a joining can return.
const NUMBERS: [u32; 5] = [0, 2, 17, 18, 19];

/// An engine under test, and what was compared so far.
pub struct Joins {
    engine: Box<dyn Engine>,
    second: Second,
    /// How joined journals are read where they are held against the two; none if they are not.
    reading: Option<Reading>,
    memo: Rc<Memo>,
    tables: Tables,
    work: Vec<u32>,
    pub joinings: usize,
    ways: Ways,
    held: Held,
    /// The runs of joined journals.
    runs: Tally,
    /// The first difference.
    fault: Option<String>,
}

impl Joins {
    pub fn new(engine: Box<dyn Engine>) -> Joins {
        Joins::by(engine, Rc::default())
    }

    /// The same, with runs in the second implementation that were made before.
    fn by(engine: Box<dyn Engine>, memo: Rc<Memo>) -> Joins {
        Joins {
            engine,
            second: Second::new(),
            reading: Some(Reading::right()),
            memo,
            tables: Tables::new(&mut Random::new(9)),
            work: vec![0; JOIN_WORK],
            joinings: 0,
            ways: Ways::default(),
            held: Held::default(),
            runs: Tally::default(),
            fault: None,
        }
    }

    /// Compares the joinings of two journals, and holds the first of them against the two.
    fn couple(&mut self, couple: &Couple, seed: u64) {
        let both = [&couple.first, &couple.second].map(|journal| self.memo.judge(journal));
        self.judged(couple, both, seed);
    }

    fn judged(&mut self, couple: &Couple, both: Both, seed: u64) {
        let random = &mut Random::new(seed);
        for joining in &couple.joinings {
            let fault = self.joining(couple, both, joining, random).err();
            self.tell(fault, couple, joining, seed);
        }
        if let Some(joining) = couple.joinings.first() {
            let fault = match self.hold(couple, joining) {
                Ok(Some(whole)) => self.run(couple, both, whole, seed).err(),
                held => held.err(),
            };
            self.tell(fault, couple, joining, seed);
        }
    }

    fn joining(
        &mut self,
        couple: &Couple,
        both: Both,
        joining: &Joining,
        random: &mut Random,
    ) -> Result<(), String> {
        if self.fault.is_some() {
            return Ok(());
        }
        let Joins { engine, second, tables, .. } = self;
        let number = compare(engine.as_ref(), second, (couple, both), joining, tables, random)?;
        self.joinings += 1;
        self.ways.count(number, couple, both, joining);
        Ok(())
    }

    /// Holds a joined journal against the two, and gives it; none if it is refused, or nothing is held.
    fn hold(&mut self, couple: &Couple, joining: &Joining) -> Result<Option<Vec<u8>>, String> {
        let (Some(reading), None) = (self.reading, &self.fault) else {
            return Ok(None);
        };
        let (engine, second, work) = (self.engine.as_ref(), &self.second, &mut self.work[..]);
        Holder { engine, second, reading, work }.hold(couple, &joining.seams, &mut self.held)
    }

    /// Some of the joined journals are compared as any other, with capacities for just what is in them.
    fn run(
        &mut self,
        couple: &Couple,
        both: Both,
        whole: Vec<u8>,
        seed: u64,
    ) -> Result<(), String> {
        let seams = couple.joinings[0].seams.len();
        let cabinets = both.iter().map(|judged| judged.cabinets).sum::<usize>();
        let spans = both.iter().map(|judged| judged.spans).sum::<usize>() + seams;
        if cabinets + spans > MOST_RUN || !seed.is_multiple_of(4) {
            return Ok(());
        }
        let (c, s) = (cabinets.max(1) as u32, spans.max(1) as u32);
        let case = Case::new(&format!("{}, joined", couple.label), c, s, whole).returns(0);
        let (engine, second) = (self.engine.as_ref(), &self.second);
        compare_run(engine, second, &case, seed, &mut self.runs).map(|_| ())
    }

    fn tell(&mut self, fault: Option<String>, couple: &Couple, joining: &Joining, seed: u64) {
        if let Some(fault) = fault {
            let (name, case) = (self.engine.name(), couple.describe(joining));
            self.fault.get_or_insert(format!("{name} differs: {fault}\n{case}\nseed {seed}"));
        }
    }

    pub fn couples(&mut self, couples: &[Couple], seed: u64) {
        for couple in couples {
            if self.fault.is_none() {
                self.couple(couple, seed + self.joinings as u64);
            }
        }
    }

    /// Random journals with the seeds from `first` on.
    pub fn random(&mut self, first: u64, count: u64) {
        for seed in first..first + count {
            if self.fault.is_some() {
                return;
            }
            let (couple, both) = random::couple(seed, &self.second);
            self.judged(&couple, both, seed);
        }
    }

    /// Every part once.
    pub fn all(&mut self, seed: u64) {
        self.couples(&known(), seed);
        self.couples(&long(), seed);
        self.couples(&[large()], seed);
        self.random(seed, RANDOM_COUPLES);
        self.every_way();
    }

    pub fn soak(&mut self, seed: u64, time: Duration) {
        let start = Instant::now();
        let mut next = seed;
        while start.elapsed() < time && self.fault.is_none() {
            self.random(next, 100);
            next += 100;
        }
    }

    /// Every way to every number must have come up; and where journals were held, every command of the second,
    /// every field of its answers, a share that is another than before, an answered seam, and a journal that
    /// exceeds each capacity.
    fn every_way(&mut self) {
        let Held { accepted, exceeding, refused, answers, fields, other_shares, seams } =
            &self.held;
        let commands = (0x01..=0x0F).map(|byte| (format!("answer to {byte:02X}"), answers[byte]));
        let fields = parts().map(|part| {
            (format!("field {part:?}"), fields.get(&part).copied().unwrap_or_default())
        });
        let counts = [
            ("joined journal accepted", *accepted),
            ("joined journal with too many cabinets", exceeding[0]),
            ("joined journal with too many spans", exceeding[1]),
            ("run refused", *refused),
            ("other share", *other_shares),
            ("answered seam", *seams),
        ];
        let counts = counts.map(|(what, count)| (what.to_string(), count));
        let missing = commands.chain(fields).chain(counts).find(|(_, count)| *count == 0);
        let missing = missing.map(|(what, _)| what).or_else(|| self.ways.missing());
        if let Some(what) = missing {
            self.fault.get_or_insert(format!("no joining with this came up: {what}"));
        }
    }

    pub fn result(&self) -> Result<String, String> {
        if let Some(fault) = &self.fault {
            return Err(fault.clone());
        }
        let Held { accepted, exceeding, refused, answers, other_shares, seams, .. } = &self.held;
        let ways = NUMBERS.map(|number| format!("{number}: {}", self.ways.told(number)));
        Ok(format!(
            "{} joins as second does, every byte: {} joinings ({}); {accepted} joined journals answer as \
             the two did, {} answers of the second raised ({} pairs of routes that serve, {} shares of \
             which {other_shares} are others) and {seams} of seams, {exceeding:?} meet 9 for their cabinets \
             and spans, {} are compared as other journals are; {refused} times 17 for a run that is refused",
            self.engine.name(),
            self.joinings,
            ways.join("; "),
            answers.iter().sum::<usize>(),
            answers[0x0C],
            answers[0x0F],
            self.runs.journals,
        ))
    }
}
