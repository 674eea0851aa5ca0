//! A joined journal held against the two that it was made from, by runs of one engine, with capacities 4,096
//! and 8,192 and ample room: 17 comes exactly if the run of one of the two is refused; the run of the result
//! is accepted exactly if the cabinets and spans together are within the capacities, and meets 9 else; its
//! answers are those of the first, then those of the second raised, then one for each seam.

mod answers;

use crate::cases::hex;
use crate::engine::join::{Join, Seam, JOIN_WORK};
use crate::engine::{Call, Engine, LONGEST_JOURNAL, MOST_CABINETS, MOST_SPANS, REPORT_NUMBERS};
use crate::joins::case::Couple;
use crate::names::{decode, Answer};
use crate::raising::{Counted, Part, Reading};
use crate::second::rewrite::text;
use crate::second::Second;
use answers::Raised;
use std::collections::BTreeMap;

/// What was held so far.
#[derive(Clone, Default)]
pub struct Held {
    /// Joined journals that a run accepts.
    pub accepted: usize,
    /// Joined journals that meet 9, for their cabinets and for their spans.
    pub exceeding: [usize; 2],
    /// Joinings refused with 17, for a run that is refused.
    pub refused: usize,
    /// The answers of the second's commands, by the command's byte.
    pub answers: [usize; 16],
    /// Their fields, where the first network has cabinets and spans, and not so many of one as of the other.
    pub fields: BTreeMap<Part, usize>,
    /// Shares that are not those of the second network alone.
    pub other_shares: usize,
    /// Answers of seams.
    pub seams: usize,
}

/// What a run leaves.
struct Ran {
    number: u32,
    place: usize,
    answers: Vec<Vec<u8>>,
    cabinets: usize,
    spans: usize,
}

/// Where joined journals are held: the engine, the second implementation for the shares, a reading, and a
/// working table.
pub struct Holder<'a> {
    pub engine: &'a dyn Engine,
    pub second: &'a Second,
    pub reading: Reading,
    pub work: &'a mut [u32],
}

impl Holder<'_> {
    /// Holds what the engine makes of two journals and these seams, with room for the longest result, and gives
    /// it; none if it is refused.
    pub fn hold(
        &mut self,
        couple: &Couple,
        seams: &[Seam],
        held: &mut Held,
    ) -> Result<Option<Vec<u8>>, String> {
        let told = |fault: String| format!("joined, against the two runs: {fault}");
        let (number, result) = self.join(couple, seams);
        let first = self.run(&couple.first).map_err(told)?;
        let second = self.run(&couple.second).map_err(told)?;
        let numbers = [first.number, second.number];
        if (number == 17) != (numbers != [0, 0]) {
            return Err(told(format!("{number} where the runs return {numbers:?}")));
        }
        held.refused += usize::from(number == 17);
        if number != 0 {
            return Ok(None);
        }
        let whole = self.run(&result).map_err(told)?;
        self.check_capacities([&first, &second], &whole, seams, &result, held).map_err(told)?;
        self.check_answers(couple, [first, second], &whole, seams.len(), held).map_err(told)?;
        Ok(Some(result))
    }

    fn join(&mut self, couple: &Couple, seams: &[Seam]) -> (u32, Vec<u8>) {
        let mut out = vec![0; couple.size(seams).min(LONGEST_JOURNAL)];
        let mut length = 0;
        let number = self.engine.join(Join {
            first: &couple.first,
            second: &couple.second,
            seams,
            work: &mut *self.work,
            out: &mut out,
            length: &mut length,
        });
        out.truncate(length as usize);
        (number, out)
    }

    /// The room that is forecast for a journal, or for the commands before a damaged place.
    fn room(&self, journal: &[u8]) -> usize {
        let (mut place, mut length) = (0, 0);
        let number = self.engine.forecast(journal, &mut place, &mut length);
        if matches!(number, 4 | 5) {
            self.engine.forecast(&journal[..place as usize], &mut 0, &mut length);
        }
        length as usize
    }

    /// A run of a journal with as much room; one that is too long is refused with 3.
    fn run(&mut self, journal: &[u8]) -> Result<Ran, String> {
        let mut answers = vec![0; self.room(journal)];
        let mut report = [0; REPORT_NUMBERS];
        let number = self.engine.run(Call {
            c: MOST_CABINETS,
            s: MOST_SPANS,
            journal,
            work: &mut self.work[..JOIN_WORK],
            answers: &mut answers,
            report: &mut report,
        });
        if number == 11 {
            return Err("11 with ample room".to_string());
        }
        let [_, place, commands, bytes, cabinets, spans] = report.map(|number| number as usize);
        let answers = split(&answers[..bytes])?;
        if answers.len() != commands {
            return Err(format!("{} answers to {commands} commands", answers.len()));
        }
        Ok(Ran { number, place, answers, cabinets, spans })
    }

    /// 0 exactly if there is capacity for all; else 9 at the first command that finds none.
    fn check_capacities(
        &self,
        [first, second]: [&Ran; 2],
        whole: &Ran,
        seams: &[Seam],
        result: &[u8],
        held: &mut Held,
    ) -> Result<(), String> {
        let counted = Counted {
            cabinets: [first.cabinets, second.cabinets],
            spans: [first.spans, second.spans],
            seams: seams.len(),
        };
        let full = full(result);
        let number = if (self.reading.accepted)(counted) { 0 } else { 9 };
        let place = full.map_or(result.len(), |(place, _)| place);
        if (whole.number, whole.place) != (number, place) {
            let got = (whole.number, whole.place);
            return Err(format!("returns {got:?}, not {:?}, with {counted:?}", (number, place)));
        }
        match full {
            Some((_, byte)) => held.exceeding[usize::from(byte != 0x01)] += 1,
            None if [whole.cabinets, whole.spans] != counted.together() => {
                return Err(format!("{} and {} reported", whole.cabinets, whole.spans));
            }
            None => held.accepted += 1,
        }
        Ok(())
    }

    /// The answers of the whole, as far as it is accepted: those of the first are as they were.
    fn check_answers(
        &self,
        couple: &Couple,
        [first, second]: [Ran; 2],
        whole: &Ran,
        seams: usize,
        held: &mut Held,
    ) -> Result<(), String> {
        let counts = [first.cabinets, first.spans];
        let before = first.answers.len();
        let given = &whole.answers;
        let all = before + second.answers.len() + seams;
        if whole.number == 0 && given.len() != all {
            return Err(format!("{} answers, not {all}", given.len()));
        }
        if let Some(i) = (0..before.min(given.len())).find(|&i| given[i] != first.answers[i]) {
            let (got, wanted) = (hex(&given[i]), hex(&first.answers[i]));
            return Err(format!("command {i} of the first is answered by {got}, not {wanted}"));
        }
        let rest = given.get(before..).unwrap_or(&[]);
        let behind = rest.len().min(second.answers.len());
        let mut raised = Raised::behind(couple, self.reading, counts, self.second);
        raised.check_all(&second.answers, &rest[..behind], held)?;
        held.seams += rest.len() - behind;
        let number = first.spans + second.spans;
        let mut sewn = rest[behind..].iter().enumerate();
        sewn.try_for_each(|(i, answer)| check_seam(i, answer, number + i))
    }
}

/// The answers one by one.
fn split(mut answers: &[u8]) -> Result<Vec<Vec<u8>>, String> {
    let mut split = Vec::new();
    while !answers.is_empty() {
        let (_, length) = decode(answers).ok_or("the bytes are no answer")?;
        split.push(answers[..length].to_vec());
        answers = &answers[length..];
    }
    Ok(split)
}

/// The first command that finds no capacity, with its byte; none if there is none.
fn full(journal: &[u8]) -> Option<(usize, u8)> {
    let (mut cabinets, mut spans) = (0, 0);
    let finds_none = |(_, bytes): &(usize, &[u8])| {
        cabinets += u32::from(bytes[0] == 0x01);
        spans += u32::from(matches!(bytes[0], 0x02 | 0x0B));
        cabinets > MOST_CABINETS || spans > MOST_SPANS
    };
    let first = text(journal).ok()?.into_iter().find(finds_none);
    first.map(|(place, bytes)| (place, bytes[0]))
}

/// Each seam is answered by 82 with the next span.
fn check_seam(i: usize, answer: &[u8], number: usize) -> Result<(), String> {
    match decode(answer) {
        Some((Answer::Span { number: told, .. }, _)) if told == number => Ok(()),
        _ => Err(format!("seam {i} is answered by {}, not as span {number}", hex(answer))),
    }
}
