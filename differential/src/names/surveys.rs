//! The survey lengths as a planner knows them: the records of the accepted 0D commands. The answers 8E
//! must follow from these.

use super::Answer;
use crate::second::command::Command;
use std::collections::BTreeMap;

#[derive(Default)]
pub struct Lengths {
    /// For each span, and each day for which it has a record, the metres of the first one entered.
    by_day: BTreeMap<usize, BTreeMap<usize, usize>>,
    /// How often 8E told that there is no length, and how often it told one.
    pub told: [usize; 2],
}

impl Lengths {
    /// Takes an accepted command and its answer, given how many spans there are by then.
    pub fn check(&mut self, command: Command, answer: &Answer, spans: usize) -> Result<(), String> {
        match (command, answer) {
            (Command::Record(record), Answer::Recorded) => {
                check_known(record.span, spans)?;
                let days = self.by_day.entry(record.span).or_default();
                days.entry(record.day).or_insert(record.metres);
                Ok(())
            }
            (Command::Length(span), Answer::Length { flag, metres }) => {
                check_known(span, spans)?;
                self.told[usize::from(*flag == 1)] += 1;
                self.check_length(span, *flag, *metres)
            }
            (Command::Record(_) | Command::Length(_), _) => {
                Err(format!("{answer:?} is no answer to {command:?}"))
            }
            _ => Ok(()),
        }
    }

    /// The latest day is the last of them.
    fn check_length(&self, span: usize, flag: u8, metres: usize) -> Result<(), String> {
        let latest = self.by_day.get(&span).and_then(|days| days.last_key_value());
        let known = latest.map_or((0, 0), |(_, &metres)| (1, metres));
        if (flag, metres) != known {
            return Err(format!("0E {span} answers {flag} {metres}, its records have {known:?}"));
        }
        Ok(())
    }
}

fn check_known(span: usize, spans: usize) -> Result<(), String> {
    if span >= spans {
        return Err(format!("span {span} is accepted, {spans} spans are there"));
    }
    Ok(())
}
