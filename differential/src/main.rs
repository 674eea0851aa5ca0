//! Compares an engine with the second implementation, byte by byte.
//!
//!     differential [--engine NAME] [--seed N]   all parts, once
//!     differential --join                       the joinings alone
//!     differential [--join] --soak SECONDS      random journals, or joinings of two, for so long
//!     differential --program PATH               the program at PATH
//!     differential [--join] --seeded-bug        faults put in on purpose must be found

use differential::cases::{Case, Room};
use differential::compare::{compare, hold, Tally};
use differential::engine::Engine;
use differential::incremental::Incremental;
use differential::joins::Joins;
use differential::second::mates::Rule;
use differential::second::routes::OTHER_CHOICES;
use differential::second::Second;
use differential::{
    ducts, exchanges, faults, forecasts, histories, joins, journals, program, records, refusals,
    rewriting, routes, sizes, surveys, to_the_byte,
};
use std::process::ExitCode;
use std::time::{Duration, Instant};

const RANDOM_JOURNALS: u64 = 24_000;
const SMALL_JOURNALS: u64 = 200;

/// The numbers that a rewriting can return.
const REWRITING: [usize; 6] = [0, 3, 4, 5, 15, 16];

/// The numbers that a forecast to the byte can return: all of a run but 11.
const TO_THE_BYTE: [usize; 14] = [0, 1, 2, 3, 4, 5, 6, 7, 8, 9, 10, 12, 13, 14];

/// What the command line asks for.
struct Wish {
    engine: Option<String>,
    seed: u64,
    soak: Option<u64>,
    program: Option<String>,
    seeded_bug: bool,
    join: bool,
}

fn wish() -> Result<Wish, String> {
    let mut wish =
        Wish { engine: None, seed: 1, soak: None, program: None, seeded_bug: false, join: false };
    let mut words = std::env::args().skip(1);
    while let Some(word) = words.next() {
        let mut value = || words.next().ok_or(format!("{word} needs a value"));
        match word.as_str() {
            "--engine" => wish.engine = Some(value()?),
            "--seed" => wish.seed = number(&value()?)?,
            "--soak" => wish.soak = Some(number(&value()?)?),
            "--program" => wish.program = Some(value()?),
            "--seeded-bug" => wish.seeded_bug = true,
            "--join" => wish.join = true,
            _ => return Err(format!("unknown argument {word}")),
        }
    }
    Ok(wish)
}

fn number(text: &str) -> Result<u64, String> {
    text.parse().map_err(|_| format!("{text} is no number"))
}

/// The engine by its name; by default the register where it is linked.
fn engine(name: Option<&str>) -> Result<Box<dyn Engine>, String> {
    match name {
        #[cfg(feature = "register")]
        None | Some("register") => Ok(Box::new(differential::register::Register::default())),
        #[cfg(not(feature = "register"))]
        None => Ok(Box::new(Incremental)),
        Some("incremental") => Ok(Box::new(Incremental)),
        Some("second") => Ok(Box::new(Second::new())),
        Some(other) => Err(format!("no engine {other} in this build")),
    }
}

/// An engine under test, and what was compared so far.
struct Test {
    engine: Box<dyn Engine>,
    second: Second,
    /// The second implementation by the old rule of mates, where journals are held against what they are
    /// rewritten to.
    old: Option<Second>,
    /// The journal that was held last, and its capacities: where it comes again it is not held again.
    last: (u32, u32, Vec<u8>),
    tally: Tally,
    /// The first difference.
    fault: Option<String>,
}

impl Test {
    fn new(engine: Box<dyn Engine>) -> Test {
        let (second, old) = (Second::new(), Some(Second::by(Rule::NoMate)));
        Test { engine, second, old, last: (0, 0, Vec::new()), tally: Tally::default(), fault: None }
    }

    /// Compares a case. Gives the bytes that all its answers take, as far as they were counted.
    fn case(&mut self, case: &Case, seed: u64) -> usize {
        if self.fault.is_some() {
            return 0;
        }
        let compared = compare(self.engine.as_ref(), &self.second, case, seed, &mut self.tally);
        let held = compared.and_then(|needed| self.hold(case, seed).map(|()| needed));
        held.unwrap_or_else(|fault| {
            let name = self.engine.name();
            let case = case.describe();
            self.fault = Some(format!("{name} differs: {fault}\n{case}\nseed {seed}"));
            0
        })
    }

    /// Holds a case's journal against what it is rewritten to.
    fn hold(&mut self, case: &Case, seed: u64) -> Result<(), String> {
        let (c, s, journal) = &self.last;
        match &self.old {
            Some(old) if (*c, *s, journal) != (case.c, case.s, &case.journal) => {
                self.last = (case.c, case.s, case.journal.clone());
                hold(self.engine.as_ref(), old, case, seed, &mut self.tally)
            }
            _ => Ok(()),
        }
    }

    /// A case that does not come from a seed: each has other contents in its buffers.
    fn given(&mut self, case: &Case, seed: u64) {
        self.case(case, seed + self.tally.journals as u64);
    }

    fn cases(&mut self, cases: &[Case], seed: u64) {
        cases.iter().for_each(|case| self.given(case, seed));
    }

    /// Random journals with the seeds from `first` on.
    fn random(&mut self, first: u64, count: u64) {
        for seed in first..first + count {
            if self.fault.is_some() {
                return;
            }
            self.case(&journals::random_case(seed), seed);
        }
    }

    /// Every part once.
    fn all(&mut self, seed: u64) {
        self.cases(&histories::marked(), seed);
        self.cases(&histories::unmarked(), seed);
        self.cases(&exchanges::known(), seed);
        self.cases(&ducts::known(), seed);
        self.cases(&routes::known(), seed);
        self.cases(&surveys::known(), seed);
        self.cases(&sizes::known(), seed);
        self.cases(&refusals::all(), seed);
        self.cases(&refusals::empty_buffers(), seed);
        self.cases(&forecasts::known(), seed);
        self.cases(&rewriting::known(), seed);
        self.cases(&to_the_byte::known(), seed);
        self.cases(&joins::histories::runs(), seed);
        for (cabinets, spans) in [(2, 0), (2, 3), (3, 3), (3, 4), (4, 3), (4, 4)] {
            journals::every_list(cabinets, spans, &mut |case| self.given(&case, seed));
        }
        for (cabinets, spans) in [(2, 3), (3, 3), (3, 4), (4, 3)] {
            journals::every_mark(cabinets, spans, &mut |case| self.given(&case, seed));
        }
        self.every_list_in_ducts(seed);
        for (cabinets, spans) in [(2, 2), (2, 3), (2, 4), (3, 3), (3, 4), (4, 3)] {
            journals::every_two_routes(cabinets, spans, &mut |case| self.given(&case, seed));
        }
        self.every_record(seed);
        self.every_room(seed, SMALL_JOURNALS);
        self.random(seed, RANDOM_JOURNALS);
        self.cases(&histories::largest(), seed);
        self.cases(&ducts::chain_of_mates(), seed);
        self.cases(&routes::long_ladder(), seed);
        self.given(&surveys::all_spans(), seed);
        self.given(&sizes::whole_plant(), seed);
        self.given(&rewriting::greatest(), seed);
        self.every_number();
    }

    /// Small journals with the seeds from `first` on, each with every length of the answer buffer
    /// from 0 to one more than it takes.
    fn every_room(&mut self, first: u64, count: u64) {
        for seed in first..first + count {
            let mut case = journals::small(seed);
            let needed = self.case(&case, seed);
            for room in 0..=needed + 1 {
                case.answers = Room::Bytes(room);
                case.returned = (room < needed).then_some(11);
                self.given(&case, seed);
            }
        }
    }

    /// Every list of a few spans between a few cabinets, some of the spans in ducts.
    fn every_list_in_ducts(&mut self, seed: u64) {
        for (cabinets, spans) in [(2, 2), (2, 3), (2, 4), (2, 5), (3, 2), (3, 3), (3, 4), (4, 3)] {
            journals::every_list_in_ducts(cabinets, spans, &mut |case| self.given(&case, seed));
        }
        for (cabinets, spans) in [(3, 5), (4, 4)] {
            journals::every_list_by_turns(cabinets, spans, &mut |case| self.given(&case, seed));
        }
        journals::every_list_with_mates(4, 5, &mut |case| self.given(&case, seed));
    }

    /// Every list of a few records, every arrangement of some, and every choice of them between spans in
    /// ducts.
    fn every_record(&mut self, seed: u64) {
        for (spans, most) in [(1, 5), (2, 4)] {
            for count in 1..=most {
                records::every_list(spans, count, &mut |case| self.given(&case, seed));
            }
        }
        records::every_arrangement(&mut |case| self.given(&case, seed));
        for (cabinets, ducts, spans) in
            [(2, 2, 2), (2, 2, 3), (2, 2, 4), (2, 2, 5), (3, 2, 3), (3, 1, 4), (4, 1, 3)]
        {
            let each = &mut |case| self.given(&case, seed);
            records::every_choice_in_ducts(cabinets, ducts, spans, each);
        }
    }

    fn soak(&mut self, seed: u64, time: Duration) {
        let start = Instant::now();
        let mut next = seed;
        loop {
            self.random(next, 100);
            next += 100;
            if start.elapsed() >= time || self.fault.is_some() {
                return;
            }
        }
    }

    /// Every number that the table knows must have been returned by some run, every one that the
    /// forecast knows by some forecast, with runs in the room forecast unless it is 3, every one that a
    /// rewriting knows by some rewriting, and every one that a forecast to the byte knows by one of these, with
    /// runs in a byte less. 03 and 04 must have been answered, and a district of several
    /// rings and all of these measured; 0E must have been answered without a length and with one, 0F for an
    /// exact half that goes down and for one that goes up, and a journal that is accepted and one that is
    /// refused held against what they are rewritten to.
    fn every_number(&mut self) {
        let Tally { returned, forecast, exact, lengths, rewritten, held, .. } = &self.tally;
        let Tally { sizes, added_up, halves, to_the_byte, byte_less, .. } = &self.tally;
        let runs = (0..=14).map(|number| ("run", number, returned[number]));
        let forecasts = [0, 3, 4, 5].map(|number| ("forecast", number, forecast[number]));
        let exact = [0, 4, 5].map(|number| ("run in the room forecast", number, exact[number]));
        let sizes = [0, 1].map(|kind| ("answer 83 or 84", kind, sizes[kind]));
        let sums = [("district whose rings add up", 0, *added_up)];
        let lengths = [0, 1].map(|flag| ("answer 8E", flag, lengths[flag]));
        let halves = [0, 1].map(|up| ("exact half", up, halves[up]));
        let rewritten = REWRITING.map(|number| ("rewriting", number, rewritten[number]));
        let to_the_byte =
            TO_THE_BYTE.map(|number| ("forecast to the byte", number, to_the_byte[number]));
        let byte_less = [("run with a byte less than forecast", 11, *byte_less)];
        let held = [0, 1].map(|refused| ("journal held against another", refused, held[refused]));
        let in_runs = runs.chain(exact).chain(sizes).chain(sums).chain(lengths).chain(halves);
        let told = forecasts.into_iter().chain(rewritten).chain(to_the_byte).chain(byte_less);
        let mut all = in_runs.chain(held).chain(told);
        if let Some((what, number, _)) = all.find(|&(_, _, count)| count == 0) {
            self.fault.get_or_insert(format!("no {what} for number {number}"));
        }
    }

    fn result(&self) -> Result<String, String> {
        if let Some(fault) = &self.fault {
            return Err(fault.clone());
        }
        let (name, runs) = (self.engine.name(), self.runs());
        let (forecasts, rewritings) = (self.forecasts(), self.rewritings());
        Ok(format!("{name} equals second, every byte: {runs}; {forecasts}; {rewritings}"))
    }

    /// What was compared of runs.
    fn runs(&self) -> String {
        let Tally { journals, returned, commands, notices, pairs, lengths, .. } = self.tally;
        let Tally { sizes, added_up, halves, .. } = self.tally;
        format!(
            "{journals} journals ({} accepted to the end, refused by 1 to 14: {:?}), {commands} commands, \
             {notices} notices; {pairs} pairs of routes, all of which serve; {} sizes of districts and {} of \
             rings told, {added_up} times all of a district of several rings; {} lengths of spans told, and \
             {} times that there is none; {} shares that are exact halves go down, and {} up",
            returned[0],
            &returned[1..],
            sizes[0],
            sizes[1],
            lengths[1],
            lengths[0],
            halves[0],
            halves[1]
        )
    }

    /// What was compared of forecasts, from the journal alone and to the byte.
    fn forecasts(&self) -> String {
        let Tally { forecast, exact, to_the_byte, byte_less, .. } = self.tally;
        format!(
            "{} forecasts ({} accepted, refused by 3 to 5: {:?}), {} runs with exactly the room forecast, {} \
             of them of damaged journals; {} forecasts to the byte ({} accepted, and so their runs with just \
             so much room, refused by 1 to 10 and 12 to 14: {:?}), {byte_less} runs with a byte less that \
             meet 11",
            forecast.iter().sum::<usize>(),
            forecast[0],
            &forecast[3..],
            exact.iter().sum::<usize>(),
            exact[4] + exact[5],
            to_the_byte.iter().sum::<usize>(),
            to_the_byte[0],
            TO_THE_BYTE[1..].iter().map(|&number| to_the_byte[number]).collect::<Vec<usize>>()
        )
    }

    /// What was compared of rewritings.
    fn rewritings(&self) -> String {
        let Tally { rewritten, held, held_pairs, .. } = self.tally;
        format!(
            "{} rewritings ({} accepted, refused by 3, 4, 5, 15 and 16: {:?}), {} journals that answer as \
             they did once they are rewritten, {} of them refused, with {held_pairs} pairs of routes",
            rewritten.iter().sum::<usize>(),
            rewritten[0],
            REWRITING[1..].iter().map(|&number| rewritten[number]).collect::<Vec<usize>>(),
            held[0] + held[1],
            held[1]
        )
    }
}

/// Empty buffers with null pointers, where the register is linked.
#[cfg(feature = "register")]
fn null_pointers(seed: u64) -> Result<String, String> {
    let mut test = Test::new(Box::new(differential::register::Register { null_if_empty: true }));
    test.cases(&refusals::empty_buffers(), seed);
    test.result()?;
    let null = Box::new(differential::register::Register { null_if_empty: true });
    let mut joins = Joins::new(null);
    joins.couples(&joins::known(), seed);
    joins.result()?;
    Ok(format!("; {} cases with null for empty buffers", test.tally.journals + joins.joinings))
}

#[cfg(not(feature = "register"))]
fn null_pointers(_: u64) -> Result<String, String> {
    Ok(String::new())
}

/// Every fault put in on purpose must be found: an engine's by the comparison with the second
/// implementation, and one that both have by the planner beside the run, by the histories that are
/// known beforehand, or by a run with exactly the room forecast. A choice of routes that serve is no
/// fault, and must be accepted.
fn seeded_bugs(seed: u64) -> Result<String, String> {
    let parts =
        [ducts::known(), routes::known(), surveys::known(), refusals::all(), sizes::known()];
    let known = parts.concat();
    let mut found = engine_bugs(&known, seed)? + exchange_bugs(seed)? + duct_bugs(&known, seed)?;
    found += route_bugs(&known, seed)? + survey_bugs(seed)? + forecast_bugs(seed)?;
    found += size_bugs(seed)? + rewriting_bugs(seed)? + exact_bugs(seed)?;
    found += joins::bugs::found(seed)?;
    let accepted = other_choices(seed)?;
    Ok(format!(
        "{found} faults put in on purpose, ties broken the other way among them, are found; \
         {accepted} pairs of routes by other choices are accepted"
    ))
}

/// Every engine with a fault must be found by the comparison, in its runs or in its forecasts. Here and
/// below, gives how often one was found.
fn engine_bugs(known: &[Case], seed: u64) -> Result<usize, String> {
    let runs = faults::engines().into_iter().map(|named| (", second ", named));
    let forecasts = faults::forecasts().into_iter().map(|named| ("the forecast is", named));
    let mut found = 0;
    for (said, (name, engine)) in runs.chain(forecasts) {
        let mut test = Test::new(engine);
        test.cases(known, seed);
        found_by(said, &name, test, seed)?;
        found += 1;
    }
    Ok(found)
}

/// Every fault in names and notices that the second implementation has too must be found by what demand 3
/// asks, and every one in the exchanges by the planner's marks and by the histories worked out by hand.
fn exchange_bugs(seed: u64) -> Result<usize, String> {
    let mut found = 0;
    for (fault, said) in faults::against_demand_3() {
        let test = in_both(|| Second::with_fault(fault));
        found_by(said, &format!("{fault:?} in both"), test, seed)?;
        found += 1;
    }
    for (fault, said) in faults::IN_EXCHANGES {
        let test = || in_both(|| Second::with_misfeed(fault));
        found_by(said, &format!("{fault:?} in both"), test(), seed)?;
        found_in(&exchanges::known(), KNOWN, &format!("{fault:?} in both"), test(), seed)?;
        found += 2;
    }
    Ok(found)
}

/// Every fault in the ducts that the second implementation has too must be found by what is known
/// beforehand, and some by the planner besides.
fn duct_bugs(known: &[Case], seed: u64) -> Result<usize, String> {
    let mut found = 0;
    for fault in faults::IN_DUCTS {
        let test = in_both(|| Second::with_misduct(fault));
        found_in(known, KNOWN, &format!("{fault:?} in both"), test, seed)?;
        found += 1;
    }
    for (fault, said) in faults::IN_DUCTS_BY_PLANNER {
        let test = in_both(|| Second::with_misduct(fault));
        found_by(said, &format!("{fault:?} in both"), test, seed)?;
        found += 1;
    }
    Ok(found)
}

/// Every fault in the routes must be found by the test that a pair serves, and every one in what refuses
/// 0C that the second implementation has too by what is known beforehand.
fn route_bugs(known: &[Case], seed: u64) -> Result<usize, String> {
    let mut found = 0;
    for (fault, said) in faults::IN_ROUTES {
        let test = Test::new(Box::new(Second::with_misroute(fault)));
        found_by(said, &format!("{fault:?}"), test, seed)?;
        found += 1;
    }
    for (fault, said) in faults::IN_REFUSALS_OF_ROUTES {
        let test = in_both(|| Second::with_misroute(fault));
        found_in(known, said, &format!("{fault:?} in both"), test, seed)?;
        found += 1;
    }
    Ok(found)
}

/// Every fault in the survey lengths that the second implementation has too must be found by the histories
/// worked out by hand, and most by the planner's records; those in the routes that records make wrong by
/// both.
fn survey_bugs(seed: u64) -> Result<usize, String> {
    let mut found = 0;
    for fault in faults::IN_SURVEYS {
        let test = || in_both(|| Second::with_mismeasure(fault));
        found_in(&surveys::known(), KNOWN, &format!("{fault:?} in both"), test(), seed)?;
        found += 1;
        if let Some(said) = faults::said_of_surveys(fault) {
            found_by(said, &format!("{fault:?} in both"), test(), seed)?;
            found += 1;
        }
    }
    for (fault, said) in faults::IN_ROUTES_BY_RECORDS {
        let test = || Test::new(Box::new(Second::with_mismeasure(fault)));
        found_in(&surveys::known(), said, &format!("{fault:?}"), test(), seed)?;
        found_by(said, &format!("{fault:?}"), test(), seed)?;
        found += 2;
    }
    Ok(found)
}

/// Every length that does not suffice must be found by a run with exactly that room, where the second
/// implementation has it too.
fn forecast_bugs(seed: u64) -> Result<usize, String> {
    let known = [
        histories::marked(),
        exchanges::known(),
        ducts::known(),
        routes::known(),
        surveys::known(),
        sizes::known(),
    ]
    .concat();
    let mut found = 0;
    for (name, misforecast) in faults::TOO_SMALL {
        let mut test = in_both(|| Second::with_misforecast(misforecast));
        test.cases(&known, seed);
        found_by("bytes of room that are forecast", &format!("{name} in both"), test, seed)?;
        found += 1;
    }
    Ok(found)
}

/// Every fault in the sizes that the second implementation has too must be found by the histories worked out
/// by hand, and by the planner's name list; some also since the rings of a district do not add up to it.
fn size_bugs(seed: u64) -> Result<usize, String> {
    let known = sizes::known();
    let mut found = 0;
    for fault in faults::IN_SIZES {
        let test = || in_both(|| Second::with_missize(fault));
        found_in(&known, KNOWN, &format!("{fault:?} in both"), test(), seed)?;
        found_by("the list has", &format!("{fault:?} in both"), test(), seed)?;
        found += 2;
    }
    for fault in faults::IN_SUMS {
        let test = in_both(|| Second::with_missize(fault));
        found_by("add up to", &format!("{fault:?} in both, by its sum"), test, seed)?;
        found += 1;
    }
    Ok(found)
}

/// Every fault in the rewriting must be found by the comparison, and where the second implementation has it
/// too by the journals that are known beforehand; those that change answers also by holding a journal
/// against what it is rewritten to. Gives how often one was found.
fn rewriting_bugs(seed: u64) -> Result<usize, String> {
    let known = rewriting::known();
    let mut found = 0;
    for (name, engine) in faults::rewriters() {
        found_in(&known, ", second has", &name, Test::new(engine), seed)?;
        found += 1;
    }
    for (name, misrewrite) in faults::rewritings() {
        let test = in_both(|| Second::with_misrewrite(misrewrite));
        found_in(&known, KNOWN, &format!("{name} in both"), test, seed)?;
        found += 1;
    }
    for (name, misrewrite) in faults::OTHER_ANSWERS {
        let mut test = in_both(|| Second::with_misrewrite(misrewrite));
        test.old = Some(Second::by(Rule::NoMate));
        found_by("against the old reading", &format!("{name} in both"), test, seed)?;
        found += 1;
    }
    Ok(found)
}

/// Every fault in the forecast to the byte must be found by the comparison, and where the second implementation
/// has it too by the journals that are known beforehand; other lengths, numbers and places also by runs. The
/// lengths of another choice of routes must be found by the comparison with random journals, and by runs. Gives
/// how often one was found.
fn exact_bugs(seed: u64) -> Result<usize, String> {
    let known = to_the_byte::known();
    let unknown: Vec<Case> =
        known.iter().map(|case| Case { exact: None, ..case.clone() }).collect();
    let mut found = 0;
    for (name, misexact) in faults::exact::all() {
        let engine = Box::new(Second::with_misexact(misexact));
        found_in(&known, ", second has", name, Test::new(engine), seed)?;
        let test = in_both(|| Second::with_misexact(misexact));
        found_in(&known, KNOWN, &format!("{name} in both"), test, seed)?;
        found += 2;
    }
    for (name, misexact) in faults::exact::against_runs() {
        let test = in_both(|| Second::with_misexact(misexact));
        found_in(&unknown, AGAINST_RUNS, &format!("{name} in both, by runs"), test, seed)?;
        found += 1;
    }
    for (name, misexact) in faults::exact::OTHER_ROUTES {
        let engine = Box::new(Second::with_misexact(misexact));
        found_by("the forecast to the byte is", name, Test::new(engine), seed)?;
        let test = in_both(|| Second::with_misexact(misexact));
        found_by(AGAINST_RUNS, &format!("{name} in both, by runs"), test, seed)?;
        found += 2;
    }
    Ok(found)
}

/// Routes by every other choice must be accepted. Gives the number of pairs.
fn other_choices(seed: u64) -> Result<usize, String> {
    let mut pairs = 0;
    for choice in OTHER_CHOICES {
        let mut test = Test::new(Box::new(Second::with_choice(choice)));
        test.cases(&routes::known(), seed);
        test.every_room(seed, 20);
        test.random(seed, 1000);
        test.result().map_err(|fault| format!("{choice:?} is not accepted: {fault}"))?;
        pairs += test.tally.pairs;
    }
    Ok(pairs)
}

/// The engine and the second implementation with the same fault.
fn in_both(second: impl Fn() -> Second) -> Test {
    let mut test = Test::new(Box::new(second()));
    test.second = second();
    test.old = None;
    test
}

/// Random journals until these words are said of the fault.
fn found_by(said: &str, name: &str, mut test: Test, seed: u64) -> Result<(), String> {
    for seed in seed..seed + RANDOM_JOURNALS {
        test.random(seed, 1);
        if test.fault.take().is_some_and(|fault| fault.contains(said)) {
            return Ok(());
        }
    }
    Err(format!("not found: {name}"))
}

/// What is said of a case that goes against what is known beforehand.
const KNOWN: &str = "known beforehand";

/// What is said of a forecast to the byte that runs of the engine do not bear out.
const AGAINST_RUNS: &str = "the forecast to the byte, held against runs";

/// One of these cases must be the first with a fault, and these words must be said of it.
fn found_in(
    cases: &[Case],
    said: &str,
    name: &str,
    mut test: Test,
    seed: u64,
) -> Result<(), String> {
    test.cases(cases, seed);
    match test.fault {
        Some(fault) if fault.contains(said) => Ok(()),
        _ => Err(format!("not known to be wrong: {name}")),
    }
}

fn run(wish: Wish) -> Result<String, String> {
    if wish.seeded_bug && wish.join {
        let found = joins::bugs::found(wish.seed)?;
        return Ok(format!("{found} faults put in on purpose into the joining are found"));
    }
    if wish.seeded_bug {
        return seeded_bugs(wish.seed);
    }
    if let Some(path) = &wish.program {
        let count = program::drive(path, wish.seed)?;
        return Ok(format!("the program writes what it must: {count} inputs"));
    }
    if wish.join {
        return joined(&wish);
    }
    let mut test = Test::new(engine(wish.engine.as_deref())?);
    match wish.soak {
        Some(seconds) => {
            test.soak(wish.seed, Duration::from_secs(seconds));
            test.result()
        }
        None => {
            test.all(wish.seed);
            let line = test.result()?;
            Ok(format!("{line}{}\n{}", null_pointers(wish.seed)?, joined(&wish)?))
        }
    }
}

/// The joinings.
fn joined(wish: &Wish) -> Result<String, String> {
    let mut joins = Joins::new(engine(wish.engine.as_deref())?);
    match wish.soak {
        Some(seconds) => joins.soak(wish.seed, Duration::from_secs(seconds)),
        None => joins.all(wish.seed),
    }
    joins.result()
}

fn main() -> ExitCode {
    match wish().and_then(run) {
        Ok(line) => {
            println!("{line}");
            ExitCode::SUCCESS
        }
        Err(fault) => {
            eprintln!("{fault}");
            ExitCode::FAILURE
        }
    }
}
