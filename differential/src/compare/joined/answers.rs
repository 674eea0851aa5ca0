//! The answers of the second's commands in a joined journal, held against those of the second alone.

use super::Held;
use crate::cases::hex;
use crate::engine::{MOST_CABINETS, MOST_SPANS};
use crate::joins::case::Couple;
use crate::literal::of_one_duct;
use crate::names::{decode, Answer};
use crate::pairs::serve;
use crate::raising::{fields, Fed, Part, Reading, Stand};
use crate::second::command::{Capacities, Command};
use crate::second::exchanges::counts;
use crate::second::join::{commands, spelled};
use crate::second::routes::Asked;
use crate::second::{Accepted, Second};
use crate::spans::Span;
use std::vec::IntoIter;

/// The second's commands behind the first journal, whose answers are taken one after the other.
pub struct Raised {
    reading: Reading,
    /// The cabinets and spans of the first.
    counts: [usize; 2],
    /// The second's commands.
    commands: Vec<Command>,
    /// The spans of the whole by now.
    spans: Vec<Span>,
    /// Both networks at each 0F to come.
    stands: IntoIter<Stand>,
}

impl Raised {
    pub fn behind(
        couple: &Couple,
        reading: Reading,
        counts: [usize; 2],
        second: &Second,
    ) -> Raised {
        let first = commands(&couple.first).into_iter();
        let spans = first.filter_map(Command::span).collect();
        let stands = stands(second, couple).into_iter();
        Raised { reading, counts, commands: commands(&couple.second), spans, stands }
    }

    /// The answers in the whole, given the old ones.
    pub fn check_all(
        &mut self,
        old: &[Vec<u8>],
        got: &[Vec<u8>],
        held: &mut Held,
    ) -> Result<(), String> {
        for (i, (old, got)) in old.iter().zip(got).enumerate() {
            let command = self.commands[i];
            held.answers[usize::from(spelled(command)[0])] += 1;
            self.count(old, held);
            self.check(command, old, got, held)
                .map_err(|fault| format!("command {i} of the second, {command:?}: {fault}"))?;
        }
        Ok(())
    }

    fn check(
        &mut self,
        command: Command,
        old: &[u8],
        got: &[u8],
        held: &mut Held,
    ) -> Result<(), String> {
        let raise = self.reading.raised(Part::Cabinet, self.counts);
        if let Some(Span { a, b, duct }) = command.span() {
            self.spans.push(Span { a: a + raise, b: b + raise, duct });
        }
        match command {
            Command::Routes(a, b) => self.check_routes(a, b, got),
            Command::Share => {
                held.other_shares += usize::from(old != got);
                self.check_share(got)
            }
            _ => {
                let wanted = self.reading.answer(old, self.counts).ok_or("no answer")?;
                check_bytes(got, &wanted)
            }
        }
    }

    /// Any pair serves that does in the whole as it stands.
    fn check_routes(&mut self, a: usize, b: usize, got: &[u8]) -> Result<(), String> {
        let Some((Answer::Routes(pair), _)) = decode(got) else {
            return Err(format!("0C is answered by {}", hex(got)));
        };
        let raise = self.reading.raised(Part::Routed, self.counts);
        serve(of_one_duct, &self.spans, a + raise, b + raise, &pair)
    }

    /// The share over both networks as they then stand.
    fn check_share(&mut self, got: &[u8]) -> Result<(), String> {
        let stand = self.stands.next().ok_or("a 0F more than the second implementation meets")?;
        let [high, low] = ((self.reading.share)(stand) as u16).to_be_bytes();
        check_bytes(got, &[0x8F, high, low])
    }

    /// Counts the fields of an answer of which it matters what they are raised by.
    fn count(&self, answer: &[u8], held: &mut Held) {
        let [cabinets, spans] = self.counts;
        if cabinets == spans || cabinets == 0 || spans == 0 {
            return;
        }
        for (_, part) in fields(answer).unwrap_or_default() {
            *held.fields.entry(part).or_default() += 1;
        }
        if answer[0] == 0x8C {
            *held.fields.entry(Part::Routed).or_default() += 1;
        }
    }
}

fn check_bytes(got: &[u8], wanted: &[u8]) -> Result<(), String> {
    if got != wanted {
        return Err(format!("answered by {}, not {}", hex(got), hex(wanted)));
    }
    Ok(())
}

/// Both networks where each 0F of the second is answered, by the second implementation.
fn stands(second: &Second, couple: &Couple) -> Vec<Stand> {
    if !commands(&couple.second).contains(&Command::Share) {
        return Vec::new();
    }
    let first = fed(second, &couple.first).1;
    let (asked, end) = fed(second, &couple.second);
    asked.into_iter().map(|second| Stand { first, second, end }).collect()
}

/// The cabinets of a network, and those of them that are fed, where each 0F is answered and in the end.
fn fed(second: &Second, journal: &[u8]) -> (Vec<Fed>, Fed) {
    let (mut asked, mut end, mut marked) = (Vec::new(), Fed::default(), Vec::new());
    let watch = &mut |accepted: Accepted| {
        let rings = &accepted.after.groups.ring;
        match accepted.command {
            Command::Mark(cabinet) => marked.push(cabinet),
            Command::Share => asked.push(count_fed(rings, &marked)),
            _ => {}
        }
        end = count_fed(rings, &marked);
    };
    let capacities = Capacities::new(MOST_CABINETS, MOST_SPANS);
    let choose = &mut |_: &Asked| Default::default();
    second.walk(capacities, journal, usize::MAX, choose, watch);
    (asked, end)
}

fn count_fed(rings: &Vec<usize>, marked: &[usize]) -> Fed {
    let exchanges = counts(rings, marked);
    let fed = rings.iter().filter(|&&ring| exchanges[ring] > 0).count();
    Fed { cabinets: rings.len(), fed }
}
