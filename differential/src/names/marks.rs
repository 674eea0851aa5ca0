//! The exchanges as a planner knows them: the cabinets of the accepted 09 commands, and the ring
//! names of its name list. The answers 8A and 8F must follow from these.

use super::Answer;
use crate::second::command::Command;
use std::collections::BTreeSet;

#[derive(Default)]
pub struct Marks {
    marked: BTreeSet<usize>,
    /// The accepted 09 commands.
    accepted: usize,
    /// How often a share was an exact half that went down, and how often one that went up.
    pub halves: [usize; 2],
}

impl Marks {
    /// Takes an accepted command and its answer, given the ring names by then.
    pub fn check(
        &mut self,
        command: Command,
        answer: &Answer,
        rings: &[usize],
    ) -> Result<(), String> {
        if let (Command::Mark(cabinet), Answer::Marked) = (command, answer) {
            self.marked.insert(cabinet);
            self.accepted += 1;
        }
        let counts = self.counts(rings)?;
        match (command, answer) {
            (Command::IsFed(cabinet), Answer::Fed(byte)) => {
                check_fed(*byte, cabinet, counts[rings[cabinet]])
            }
            (Command::Share, Answer::Share(thousandths)) => {
                let fed = rings.iter().filter(|&&ring| counts[ring] > 0).count();
                self.count_half(*thousandths, fed, rings.len());
                check_share(*thousandths, fed, rings.len())
            }
            (Command::Mark(_), Answer::Marked) => Ok(()),
            (Command::Mark(_) | Command::IsFed(_) | Command::Share, _) => {
                Err(format!("{answer:?} is no answer to {command:?}"))
            }
            _ => Ok(()),
        }
    }

    /// How many exchanges each ring holds, by its name. Over all rings, each counted once, they add
    /// up to the accepted 09 commands.
    fn counts(&self, rings: &[usize]) -> Result<Vec<usize>, String> {
        let mut counts = vec![0; rings.len()];
        for &cabinet in &self.marked {
            counts[rings[cabinet]] += 1;
        }
        let sum: usize = counts.iter().sum();
        if sum != self.accepted {
            let accepted = self.accepted;
            return Err(format!("the rings hold {sum} exchanges, {accepted} commands 09 accepted"));
        }
        Ok(counts)
    }

    /// Counts a share that is just half a thousandth off.
    fn count_half(&mut self, thousandths: usize, fed: usize, cabinets: usize) {
        let (told, exact) = (thousandths * cabinets, 1000 * fed);
        if told != exact && 2 * told.abs_diff(exact) == cabinets {
            self.halves[usize::from(told > exact)] += 1;
        }
    }
}

fn check_fed(byte: u8, cabinet: usize, exchanges: usize) -> Result<(), String> {
    if byte != u8::from(exchanges > 0) {
        return Err(format!("0A {cabinet} answers {byte}, its ring holds {exchanges} exchanges"));
    }
    Ok(())
}

fn check_share(thousandths: usize, fed: usize, cabinets: usize) -> Result<(), String> {
    if !is_share(thousandths, fed, cabinets) {
        return Err(format!("0F answers {thousandths}, {fed} of {cabinets} cabinets are fed"));
    }
    Ok(())
}

/// A share is right if it is less than half a thousandth off, or just half of one and even; for an empty
/// network it is 0.
pub fn is_share(thousandths: usize, fed: usize, cabinets: usize) -> bool {
    let off = (thousandths * cabinets).abs_diff(1000 * fed);
    match cabinets {
        0 => thousandths == 0,
        _ => 2 * off < cabinets || (2 * off == cabinets && thousandths.is_multiple_of(2)),
    }
}
