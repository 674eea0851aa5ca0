//! A journal and its rewriting held against each other: the run of the old journal in the second
//! implementation, where 02 spans have no mates, and that of the rewritten one in the engine. With ample
//! room and the same capacities the answers must be the same, byte by byte, but for 0C, where any pair
//! serves that serves in the other; and so must the refusal, at the command that corresponds.

use super::ample::{apart, without_room};
use super::{inner, same_buffers, same_number, Lent, Tally};
use crate::cases::Case;
use crate::engine::{Engine, Forecast, Rewriting, LONGEST_JOURNAL};
use crate::literal::of_one_duct;
use crate::pairs::{serve, Pair, Pairs};
use crate::random::Random;
use crate::second::command::Capacities;
use crate::second::rewrite::text;
use crate::second::routes::Asked;
use crate::second::{report_of, Run, Second};
use crate::spans::Span;

/// Holds a case's journal, where the engine rewrites it, against what it is rewritten to. `old` is the
/// second implementation by the old rule of mates.
pub fn hold(
    engine: &dyn Engine,
    old: &Second,
    case: &Case,
    seed: u64,
    tally: &mut Tally,
) -> Result<(), String> {
    let Some(result) = rewritten(engine, &case.journal) else {
        return Ok(());
    };
    let told = |fault: String| format!("rewritten, against the old reading: {fault}");
    let room = same_room(engine, &case.journal, &result).map_err(told)?;
    let old_case = without_room(case);
    let new_case = Case { journal: result, ..old_case.clone() };
    let random = &mut Random::new(seed ^ 0x7E57);
    let mut lent = Lent::new(&new_case, 0, random);
    lent.answers = apart(&lent.answers, room);
    let mut got = lent.clone();
    let number = engine.run(got.call(&new_case));
    let mut pairs = Both::of(Pairs::of(inner(&mut got.answers)));
    let capacities = Capacities::new(old_case.c, old_case.s);
    let choose = &mut |asked: &Asked| pairs.next(asked);
    let run = old.walk(capacities, &old_case.journal, room, choose, &mut |_| ());
    let given = pairs.result().map_err(told);
    let mut wanted = lent;
    leave(&run, corresponding(&old_case.journal, run.place), &mut wanted, &new_case);
    same_number(number, run.refusal).map_err(told)?;
    tally.held_pairs += given?;
    same_buffers(&got, &wanted).map_err(told)?;
    tally.held[usize::from(number != 0)] += 1;
    Ok(())
}

/// What the engine makes of a journal with ample room; none if it is refused.
fn rewritten(engine: &dyn Engine, journal: &[u8]) -> Option<Vec<u8>> {
    let mut out = vec![0; (2 * journal.len()).min(LONGEST_JOURNAL)];
    let (mut place, mut length) = (0, 0);
    let number = engine.rewrite(journal, &mut out, &mut place, &mut length);
    let told = Rewriting { number, place, length };
    out.truncate(told.length as usize);
    (told.number == 0).then_some(out)
}

/// The room that is forecast, the same for both.
fn same_room(engine: &dyn Engine, old: &[u8], new: &[u8]) -> Result<usize, String> {
    let forecast = |journal: &[u8]| {
        let (mut place, mut length) = (0, 0);
        let number = engine.forecast(journal, &mut place, &mut length);
        Forecast { number, place, length }
    };
    let (old, new) = (forecast(old), forecast(new));
    if new.number != 0 || old.number != 0 || new.length != old.length {
        return Err(format!("the forecast is {old:?}, and {new:?} once it is rewritten"));
    }
    Ok(old.length as usize)
}

/// Pairs of routes that must serve in both readings.
struct Both<'a> {
    pairs: Pairs<'a>,
    given: usize,
    fault: Option<String>,
}

impl<'a> Both<'a> {
    fn of(pairs: Pairs<'a>) -> Both<'a> {
        Both { pairs, given: 0, fault: None }
    }

    /// The pair that the engine gives. That it serves in the old reading is tested where it is read; in
    /// the new one each span lies in the duct of its number and 1.
    fn next(&mut self, asked: &Asked) -> Pair {
        let pair = self.pairs.next(asked);
        let spans = asked.network.spans.iter().enumerate();
        let new: Vec<Span> = spans.map(|(n, span)| Span { duct: n + 1, ..*span }).collect();
        if let Err(why) = serve(of_one_duct, &new, asked.a, asked.b, &pair) {
            self.fault.get_or_insert(format!("a pair serves in the old reading alone: {why}"));
        }
        self.given += 1;
        pair
    }

    fn result(self) -> Result<usize, String> {
        self.pairs.result()?;
        self.fault.map_or(Ok(self.given), Err)
    }
}

/// The place in the rewritten journal of the command at this place: each 02 before it is two bytes longer.
fn corresponding(journal: &[u8], place: usize) -> usize {
    let text = text(journal).expect("the journal is rewritten");
    let is_before = |(at, bytes): &&(usize, &[u8])| *at < place && bytes[0] == 0x02;
    place + 2 * text.iter().filter(is_before).count()
}

/// What the run must leave in the buffers.
fn leave(run: &Run, place: usize, wanted: &mut Lent, case: &Case) {
    let call = wanted.call(case);
    call.answers[..run.answers.len()].copy_from_slice(&run.answers);
    let mut report = report_of(run);
    report[1] = place as u32;
    call.ends(report);
}
