//! A second implementation of document 01 and of document 02's requests 1, 2, 3 and 5 to 11, to compare
//! others with. After each command everything is computed anew from the list of spans; nothing is
//! kept but the naming book, the list of exchanges and the list of survey records. Which pair of routes
//! 0C is answered with is not settled: a run takes the pairs from whoever asks for it, or makes its own
//! choice.

pub mod book;
pub mod command;
pub mod exact;
pub mod exchanges;
pub mod forecast;
pub mod groups;
pub mod join;
pub mod mates;
pub mod rewrite;
pub mod routes;
pub mod sizes;
pub mod surveys;

use crate::engine::exact::Exact;
use crate::engine::join::Join;
use crate::engine::{Call, Engine, Forecast, Rewriting, REPORT_NUMBERS};
use crate::pairs::Pair;
use book::{Book, Fault};
use command::{answer, read, refusal, Capacities, Command};
use exchanges::{Exchanges, Misfeed};
use forecast::forecast;
use join::{join, Both};
use mates::{Misduct, Rule};
use rewrite::rewrite;
use routes::{Asked, Choice, Misroute};
use sizes::{Missize, Sizes};
use std::rc::Rc;
use surveys::{Mismeasure, Surveys};

#[derive(Default)]
pub struct Second {
    rule: Rule,
    fault: Option<Fault>,
    misfeed: Option<Misfeed>,
    misduct: Option<Misduct>,
    choice: Choice,
    misroute: Option<Misroute>,
    mismeasure: Option<Mismeasure>,
    missize: Option<Missize>,
    misforecast: Option<Misforecast>,
    misrewrite: Option<Misrewrite>,
    misjoin: Option<Misjoin>,
    misexact: Option<Misexact>,
}

/// A fault put in on purpose: what is forecast for a journal in place of its right forecast.
pub type Misforecast = fn(&[u8], Forecast) -> Forecast;

/// A fault put in on purpose: a rewriting of a journal in place of the right one.
pub type Misrewrite = fn(&[u8], &mut [u8]) -> Rewriting;

/// A fault put in on purpose: a joining, given what the two runs come to, in place of the right one.
pub type Misjoin = fn(Both, Join) -> u32;

/// A fault put in on purpose: a forecast to the byte, given what the run with ample room comes to unless the start
/// refuses it, in place of the right one.
pub type Misexact = fn(Option<&Run>, Exact) -> u32;

/// Gives the pair that a 0C is answered with.
pub type Choose<'a> = dyn FnMut(&Asked) -> Pair + 'a;

/// The state of a run: the naming book, and the exchanges and the survey records beside it. For the sizes
/// nothing is kept, but where a fault does.
#[derive(Clone)]
pub struct State {
    pub book: Rc<Book>,
    pub exchanges: Exchanges,
    pub surveys: Surveys,
    pub sizes: Sizes,
}

impl State {
    /// The state after a command that no line before 11 refuses; none if it is as it was.
    fn after(&self, command: Command) -> Option<State> {
        let right = self.rightly_after(command);
        match self.surveys.spoiled_by(command) {
            Some(surveys) => Some(State { surveys, ..right.unwrap_or_else(|| self.clone()) }),
            None => right,
        }
    }

    /// The same where no fault is put into what other commands make of the survey records.
    fn rightly_after(&self, command: Command) -> Option<State> {
        let State { book, exchanges, surveys, sizes } = self;
        match command {
            Command::AddCabinet => Some(State {
                book: Rc::new(book.with_cabinet()),
                sizes: sizes.with_cabinet(),
                ..self.clone()
            }),
            Command::Mark(a) => Some(State { exchanges: exchanges.with(a), ..self.clone() }),
            Command::Record(record) => Some(State {
                book: surveys.book_after(book, record),
                surveys: surveys.with(&book.network, record),
                ..self.clone()
            }),
            _ => command.span().map(|span| {
                let after = Rc::new(book.with_span(span));
                let exchanges = exchanges.after_span(&book.names.ring, &after.names.ring);
                let surveys = surveys.after_span(book, &after);
                let sizes = sizes.after_span(book, &after);
                State { book: after, exchanges, surveys, sizes }
            }),
        }
    }
}

/// What a run that was not refused at the start comes to.
#[derive(Default)]
pub struct Run {
    /// 0 if the whole journal was accepted.
    pub refusal: u32,
    /// The journal's length, or the refused command's first byte.
    pub place: usize,
    pub commands: usize,
    pub answers: Vec<u8>,
    pub cabinets: usize,
    pub spans: usize,
}

/// An accepted command, with the book before it and the book after it.
pub struct Accepted<'a> {
    pub command: Command,
    pub before: &'a Book,
    pub after: &'a Book,
}

impl Second {
    pub fn new() -> Second {
        Second::default()
    }

    /// The same by another rule of mates.
    pub fn by(rule: Rule) -> Second {
        Second { rule, ..Second::default() }
    }

    /// The same with a fault.
    pub fn with_fault(fault: Fault) -> Second {
        Second { fault: Some(fault), ..Second::default() }
    }

    /// The same with a fault in the exchanges.
    pub fn with_misfeed(misfeed: Misfeed) -> Second {
        Second { misfeed: Some(misfeed), ..Second::default() }
    }

    /// The same with a fault in the ducts.
    pub fn with_misduct(misduct: Misduct) -> Second {
        Second { misduct: Some(misduct), ..Second::default() }
    }

    /// The same with another choice of the pairs that serve.
    pub fn with_choice(choice: Choice) -> Second {
        Second { choice, ..Second::default() }
    }

    /// The same with a fault in the routes.
    pub fn with_misroute(misroute: Misroute) -> Second {
        Second { misroute: Some(misroute), ..Second::default() }
    }

    /// The same with a fault in the survey lengths.
    pub fn with_mismeasure(mismeasure: Mismeasure) -> Second {
        Second { mismeasure: Some(mismeasure), ..Second::default() }
    }

    /// The same with a fault in the sizes.
    pub fn with_missize(missize: Missize) -> Second {
        Second { missize: Some(missize), ..Second::default() }
    }

    /// The same with a fault in the forecast.
    pub fn with_misforecast(misforecast: Misforecast) -> Second {
        Second { misforecast: Some(misforecast), ..Second::default() }
    }

    /// The same with a fault in the rewriting.
    pub fn with_misrewrite(misrewrite: Misrewrite) -> Second {
        Second { misrewrite: Some(misrewrite), ..Second::default() }
    }

    /// The same with a fault in the joining.
    pub fn with_misjoin(misjoin: Misjoin) -> Second {
        Second { misjoin: Some(misjoin), ..Second::default() }
    }

    /// The same with a fault in the forecast to the byte.
    pub fn with_misexact(misexact: Misexact) -> Second {
        Second { misexact: Some(misexact), ..Second::default() }
    }

    /// The joining, given what the two runs come to.
    pub fn join_judged(&self, both: Both, call: Join) -> u32 {
        self.misjoin.unwrap_or(join)(both, call)
    }

    /// Its own choice of a pair.
    pub fn own_pair(&self, asked: &Asked) -> Pair {
        let network = asked.surveys.network_of_routes(asked.network);
        let right = self.choice.pair(&network, asked.a, asked.b).unwrap_or_default();
        match self.misroute {
            Some(fault) => fault.pair(asked, right),
            None => right,
        }
    }

    /// The state before the first command.
    fn start(&self) -> State {
        State {
            book: Rc::new(Book::empty(self.rule, self.fault, self.misduct)),
            exchanges: Exchanges::none(self.misfeed),
            surveys: Surveys::none(self.mismeasure),
            sizes: Sizes::none(self.missize),
        }
    }

    /// Runs a journal from an empty network. Each accepted command is shown to `watch`.
    pub fn walk(
        &self,
        capacities: Capacities,
        journal: &[u8],
        room: usize,
        choose: &mut Choose,
        watch: &mut dyn FnMut(Accepted),
    ) -> Run {
        let mut state = self.start();
        let mut run = Run::default();
        while run.place < journal.len() {
            let front = Front {
                bytes: &journal[run.place..],
                written: run.answers.len(),
                left: room - run.answers.len(),
            };
            let step = match self.step(&state, capacities, front, choose) {
                Ok(step) => step,
                Err(number) => {
                    run.refusal = number;
                    break;
                }
            };
            let after = &step.state.as_ref().unwrap_or(&state).book;
            watch(Accepted { command: step.command, before: &state.book, after });
            run.place += step.length;
            run.commands += 1;
            run.answers.extend(step.answer);
            if let Some(after) = step.state {
                state = after;
            }
        }
        run.cabinets = state.book.network.cabinets;
        run.spans = state.book.network.spans.len();
        run
    }

    /// The run with all its buffers; each accepted command is shown to `watch`.
    pub fn run_watched(
        &self,
        call: Call,
        choose: &mut Choose,
        watch: &mut dyn FnMut(Accepted),
    ) -> u32 {
        let number = call.start_refusal();
        if number != 0 {
            return number;
        }
        let capacities = Capacities::new(call.c, call.s);
        let run = self.walk(capacities, call.journal, call.answers.len(), choose, watch);
        call.answers[..run.answers.len()].copy_from_slice(&run.answers);
        call.ends(report_of(&run))
    }

    /// Takes the command at the front, or gives the number that refuses it.
    fn step(
        &self,
        state: &State,
        capacities: Capacities,
        front: Front,
        choose: &mut Choose,
    ) -> Result<Taken, u32> {
        let (command, length) = read(front.bytes)?;
        let right = refusal(command, state, capacities);
        let right = self.misroute.map_or(right, |f| f.refusal(command, &state.book, right));
        let refused =
            self.mismeasure.map_or(right, |f| f.refusal(command, state, capacities, right));
        if let Some(number) = refused {
            return Err(number);
        }
        let next = state.after(command);
        let (network, surveys) = (&state.book.network, &state.surveys);
        let Front { written, left, .. } = front;
        let mut pair = |a, b| choose(&Asked { network, surveys, a, b, written, left });
        let mut answer = answer(command, state, next.as_ref().unwrap_or(state), &mut pair);
        if let Some(fault) = self.misroute {
            fault.spoil(&mut answer);
        }
        if let Some(fault) = self.mismeasure {
            fault.spoil(command, &mut answer);
        }
        if let Some(fault) = self.missize {
            fault.spoil(command, &mut answer);
        }
        if answer.len() > left {
            return Err(11);
        }
        Ok(Taken { command, length, answer, state: next })
    }
}

/// The journal from the command on that is to be taken, and the answer bytes written and left.
struct Front<'a> {
    bytes: &'a [u8],
    written: usize,
    left: usize,
}

/// An accepted command, its length in the journal, its answer, and the state after it where it
/// changes the state.
struct Taken {
    command: Command,
    length: usize,
    answer: Vec<u8>,
    state: Option<State>,
}

/// The report of a run that was not refused at the start.
pub fn report_of(run: &Run) -> [u32; REPORT_NUMBERS] {
    let counts = [run.place, run.commands, run.answers.len(), run.cabinets, run.spans];
    let mut report = [run.refusal; REPORT_NUMBERS];
    for (entry, count) in report[1..].iter_mut().zip(counts) {
        *entry = u32::try_from(count).expect("every count of a run fits 32 bits");
    }
    report
}

impl Engine for Second {
    fn name(&self) -> &'static str {
        "second"
    }

    fn run(&self, call: Call) -> u32 {
        self.run_watched(call, &mut |asked| self.own_pair(asked), &mut |_| ())
    }

    fn forecast(&self, journal: &[u8], place: &mut u32, length: &mut u32) -> u32 {
        let right = forecast(journal);
        let told = self.misforecast.map_or(right, |spoil| spoil(journal, right));
        told.tell(place, length)
    }

    fn rewrite(&self, journal: &[u8], out: &mut [u8], place: &mut u32, length: &mut u32) -> u32 {
        self.misrewrite.unwrap_or(rewrite)(journal, out).tell(place, length)
    }

    fn join(&self, call: Join) -> u32 {
        let both = [call.first, call.second].map(|journal| self.judge(journal));
        self.join_judged(both, call)
    }

    fn forecast_exact(&self, call: Exact) -> u32 {
        self.exact_by(None, call)
    }
}
