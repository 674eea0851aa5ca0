//! Measures the engines against each other: runs of journals of several shapes at three sizes, two
//! routes by the size of the network, forecasts and rewritings of long journals, joinings of two, and forecasts to
//! the byte.
//!
//!     bench [--quick]             with --quick one run of each, for a look
//!     bench --routes [--quick]    the routes by the size of the network alone
//!     bench --forecast [--quick]  the forecasts alone
//!     bench --rewrite [--quick]   the rewritings alone
//!     bench --join [--quick]      the joinings alone
//!     bench --exact [--quick]     the forecasts to the byte alone
//!     bench --only SHAPE          the last engine alone, on this shape at the greatest size, for
//!                                 two seconds: for a profiler
//!
//! All figures come from one process. Times are for looking; the ratios are what is compared.

#[path = "bench/exact.rs"]
mod exact;
#[path = "bench/joinings.rs"]
mod joinings;

use differential::engine::{work_needed, Call, Engine, LONGEST_JOURNAL, REPORT_NUMBERS};
use differential::incremental::Incremental;
use differential::journals::{operand_count, Writer, COMMANDS};
use differential::layouts::{self, Layout};
use differential::random::Random;
use differential::second::forecast::counts;
use differential::second::surveys::Record;
use differential::second::Second;
use differential::spans::Span;
use exact::print_exact;
use joinings::print_joinings;
use std::hint::black_box;
use std::time::{Duration, Instant};

const SIZES: [usize; 3] = [256, 1024, 4096];
const ANSWER_ROOM: usize = 24 << 20;

type Shape = (&'static str, fn(usize) -> Writer);

const SHAPES: [Shape; 14] = [
    ("random", random),
    ("chain then loops", chain_then_loops),
    ("one long loop", long_loop),
    ("pairwise doubling", pairwise),
    ("deep queries", deep_queries),
    ("star", star),
    ("name look-ups", look_ups),
    ("wide ranges", wide_ranges),
    ("exchange questions", exchange_questions),
    ("shares", shares),
    ("chain of mates", chain_of_mates),
    ("surveys", surveys),
    ("ladder routes", |cabinets| asked(ladder(cabinets), cabinets / 32)),
    ("random routes", |cabinets| asked(random_ring(cabinets), cabinets / 32)),
];

fn written(layout: &Layout) -> Writer {
    let mut writer = Writer::new();
    writer.enter(layout);
    writer
}

fn random(cabinets: usize) -> Writer {
    written(&layouts::random_spans(&mut Random::new(1), cabinets, 2 * cabinets))
}

fn chain_then_loops(cabinets: usize) -> Writer {
    written(&layouts::chain_then_loops(&mut Random::new(2), cabinets, cabinets))
}

fn long_loop(cabinets: usize) -> Writer {
    let mut writer = written(&layouts::chain(cabinets));
    writer.span(cabinets - 1, 0);
    writer
}

fn pairwise(cabinets: usize) -> Writer {
    written(&layouts::doubling(&mut Random::new(3), cabinets, 2).parted())
}

/// A chain, then sole spans and cut cabinets from end to end.
fn deep_queries(cabinets: usize) -> Writer {
    let mut writer = written(&layouts::chain(cabinets));
    for _ in 0..cabinets / 8 {
        writer.command(0x06, &[0, cabinets - 1]);
        writer.command(0x07, &[cabinets - 1, 0]);
    }
    writer
}

fn star(cabinets: usize) -> Writer {
    written(&layouts::star(cabinets, 2).parted())
}

fn look_ups(cabinets: usize) -> Writer {
    let mut random = Random::new(4);
    let mut writer = written(&layouts::random_spans(&mut random, cabinets, cabinets));
    for i in 0..3 * cabinets {
        writer.command(3 + (i % 2) as u8, &[random.below(cabinets)]);
    }
    writer
}

/// Pairs of far cabinets, each joined to the first: few items change, over a wide range.
fn wide_ranges(cabinets: usize) -> Writer {
    let mut layout = Layout::of(cabinets);
    let half = cabinets / 2;
    layout.spans.extend((0..half).map(|i| Span::new(i, cabinets - 1 - i)));
    layout.spans.extend((1..half).map(|i| Span::new(0, i)));
    written(&layout)
}

/// One cabinet in sixteen is marked, then random spans are entered.
fn with_exchanges(random: &mut Random, cabinets: usize) -> Writer {
    let layout = layouts::random_spans(random, cabinets, cabinets);
    let marked: Vec<usize> = (0..cabinets / 16).map(|_| random.below(cabinets)).collect();
    let mut writer = Writer::new();
    writer.enter_marked(&layout, &marked);
    writer
}

fn exchange_questions(cabinets: usize) -> Writer {
    let mut random = Random::new(7);
    let mut writer = with_exchanges(&mut random, cabinets);
    for _ in 0..3 * cabinets {
        writer.command(0x0A, &[random.below(cabinets)]);
    }
    writer
}

/// Each question is a pass over the cabinets, so there are fewer.
fn shares(cabinets: usize) -> Writer {
    let mut writer = with_exchanges(&mut Random::new(7), cabinets);
    for _ in 0..cabinets / 4 {
        writer.command(0x0F, &[]);
    }
    writer
}

/// A chain whose links lie in ducts, then a mate beside each link; sole spans from end to end; then
/// the span that closes the chain.
fn chain_of_mates(cabinets: usize) -> Writer {
    let mut layout = layouts::chain(cabinets);
    layout.spans.iter_mut().for_each(|span| span.duct = 1 + span.a % 16);
    let mates: Vec<Span> = layout.spans.iter().map(|span| span.turned()).collect();
    layout.spans.extend(mates);
    let mut writer = written(&layout);
    for _ in 0..cabinets / 64 {
        writer.command(0x06, &[0, cabinets - 1]);
    }
    writer.span(cabinets - 1, 0);
    writer
}

/// Two spans from 02, which are mates, from the first cabinet to each other one; then, by turns, records
/// and questions about every eighth span, in random order and on few days.
fn surveys(cabinets: usize) -> Writer {
    let mut random = Random::new(9);
    let mut writer = written(&layouts::star(cabinets, 2));
    let surveyed = writer.spans.len() / 8;
    for _ in 0..cabinets / 2 {
        let span = 8 * random.below(surveyed);
        let (day, metres) = (random.below(16), random.below(65_536));
        writer.record(Record { span, day, metres });
        writer.command(0x0E, &[8 * random.below(surveyed)]);
    }
    writer
}

/// A network, and the next two cabinets to ask about, which share a ring.
type Routes = (Writer, Box<dyn FnMut() -> [usize; 2]>);

/// A ladder, and the two ends of a rail, there and back by turns.
fn ladder(cabinets: usize) -> Routes {
    let mut ends = [0, cabinets / 2 - 1];
    let next = move || {
        ends.reverse();
        ends
    };
    (written(&layouts::ladder(cabinets / 2)), Box::new(next))
}

/// Twice as many random spans as cabinets, and random cabinets of the greatest ring.
fn random_ring(cabinets: usize) -> Routes {
    let mut random = Random::new(8);
    let mut writer = written(&layouts::random_spans(&mut random, cabinets, 2 * cabinets));
    let rings = (0..cabinets).map(|cabinet| writer.others_of_ring(cabinet));
    let greatest = rings.max_by_key(Vec::len).expect("there are cabinets");
    let next = move || {
        let a = *random.pick(&greatest);
        let others: Vec<usize> = greatest.iter().copied().filter(|&b| b != a).collect();
        [a, *random.pick(&others)]
    };
    (writer, Box::new(next))
}

/// The network with so many questions behind it.
fn asked((mut writer, mut next): Routes, count: usize) -> Writer {
    (0..count).for_each(|_| writer.command(0x0C, &next()));
    writer
}

type Network = (&'static str, fn(usize) -> Routes);

/// Networks to ask for routes in, by their numbers of cabinets.
const NETWORKS: [Network; 2] = [("ladder routes", ladder), ("random routes", random_ring)];

const ROUTE_SIZES: [usize; 4] = [512, 1024, 2048, 4096];
const QUESTIONS: usize = 256;

type Long = (&'static str, fn() -> Vec<u8>);

/// Journals to forecast, as long as they may be. A run need not accept them.
const LONG: [Long; 8] = [
    ("01 alone", || alike(0x01)),
    ("02 alone", || alike(0x02)),
    ("0B alone", || alike(0x0B)),
    ("0C alone", || alike(0x0C)),
    ("0D alone", || alike(0x0D)),
    ("0E alone", || alike(0x0E)),
    ("all but 0B", || mixed(|byte| byte != 0x0B, LONGEST_JOURNAL)),
    ("all commands", || mixed(|_| true, LONGEST_JOURNAL)),
];

/// Journals to rewrite, so long that the result has nearly 65,536 bytes, or just as many. A run need not
/// accept them.
const REWRITTEN: [Long; 4] = [
    ("02 alone", || command(0x02, &mut Random::new(5)).repeat(LONGEST_JOURNAL / 7)),
    ("02 and 01 by turns", || {
        let one = [vec![0x01], command(0x02, &mut Random::new(5))].concat();
        one.repeat(LONGEST_JOURNAL / 8)
    }),
    ("all but 0B", || mixed(|byte| byte != 0x0B, 62_500)),
    ("neither 02 nor 0B", || mixed(|byte| byte != 0x02 && byte != 0x0B, LONGEST_JOURNAL)),
];

/// A command with this byte and random operands.
fn command(byte: u8, random: &mut Random) -> Vec<u8> {
    let mut bytes = vec![byte];
    bytes.extend((0..2 * operand_count(byte)).map(|_| random.number() as u8));
    bytes
}

/// As many commands of one byte as there can be.
fn alike(byte: u8) -> Vec<u8> {
    let one = command(byte, &mut Random::new(5));
    one.repeat(LONGEST_JOURNAL / one.len())
}

/// So many bytes: commands of every byte that passes the test, in random order; cabinets where no other
/// command fits.
fn mixed(passes: fn(u8) -> bool, length: usize) -> Vec<u8> {
    let picked: Vec<_> = COMMANDS.into_iter().filter(|(byte, _)| passes(*byte)).collect();
    let longest = picked.iter().map(|(_, operands)| 1 + 2 * operands).max().unwrap_or(1);
    let mut random = Random::new(6);
    let mut journal = Vec::new();
    while journal.len() + longest <= length {
        let (byte, _) = *random.pick(&picked);
        journal.extend(command(byte, &mut random));
    }
    journal.resize(length, 0x01);
    journal
}

/// A journal with the capacities that it is run with.
struct Load {
    journal: Vec<u8>,
    c: u32,
    s: u32,
}

/// The buffers of all runs.
struct Buffers {
    work: Vec<u32>,
    answers: Vec<u8>,
    report: [u32; REPORT_NUMBERS],
}

/// The best time of a run among several; the buffers are filled before each, outside the time.
fn best_time(engine: &dyn Engine, load: &Load, buffers: &mut Buffers, budget: Duration) -> f64 {
    let mut best = f64::INFINITY;
    let start = Instant::now();
    loop {
        let work = &mut buffers.work[..work_needed(load.c, load.s)];
        work.fill(u32::MAX);
        let (journal, answers, report) = (&load.journal, &mut buffers.answers, &mut buffers.report);
        let call = Call { c: load.c, s: load.s, journal, work, answers, report };
        let clock = Instant::now();
        let number = engine.run(call);
        best = best.min(clock.elapsed().as_secs_f64());
        assert_eq!(number, 0, "{} refuses a journal of the benchmark", engine.name());
        if start.elapsed() >= budget {
            return best;
        }
    }
}

/// What one engine took for one journal, and its report.
struct Figure {
    micros_per_command: f64,
    report: [u32; REPORT_NUMBERS],
}

impl Figure {
    fn commands(&self) -> u32 {
        self.report[2]
    }

    /// The reports agree. How many bytes the answers to 0C take is each engine's to say.
    fn agrees(&self, other: &Figure, load: &Load) -> bool {
        let counts = counts(&load.journal).expect("the journal is well-formed");
        let places = (0..REPORT_NUMBERS).filter(|&place| place != 3 || counts[0x0C] == 0);
        places.into_iter().all(|place| self.report[place] == other.report[place])
    }

    fn bytes_per_command(&self) -> f64 {
        f64::from(self.report[3]) / f64::from(self.commands())
    }
}

fn measure(engine: &dyn Engine, load: &Load, buffers: &mut Buffers, budget: Duration) -> Figure {
    let seconds = best_time(engine, load, buffers, budget);
    let report = buffers.report;
    Figure { micros_per_command: 1e6 * seconds / f64::from(report[2]), report }
}

fn engines() -> Vec<Box<dyn Engine>> {
    vec![
        Box::new(Second::new()),
        Box::new(Incremental),
        #[cfg(feature = "register")]
        Box::new(differential::register::Register::default()),
    ]
}

/// The figures of one shape: for each size those of each engine.
fn shape_figures(
    shape: fn(usize) -> Writer,
    buffers: &mut Buffers,
    budget: Duration,
) -> Vec<Vec<Figure>> {
    let mut figures = Vec::new();
    for size in SIZES {
        let journal = shape(size).bytes;
        let load = Load { journal, c: size as u32, s: 2 * size as u32 };
        let row: Vec<Figure> =
            engines().iter().map(|e| measure(e.as_ref(), &load, buffers, budget)).collect();
        assert!(row.iter().all(|figure| figure.agrees(&row[0], &load)), "the reports differ");
        figures.push(row);
    }
    figures
}

fn print_shape(name: &str, figures: &[Vec<Figure>]) {
    for (size, row) in SIZES.iter().zip(figures) {
        print!("{name:<18} {size:>5} {:>6}", row[0].commands());
        print!(" {:>8.1}", row[0].bytes_per_command());
        for figure in row {
            print!(" {:>11.3}", figure.micros_per_command);
        }
        print!(" {:>9.1}", row[0].micros_per_command / row[1].micros_per_command);
        if let Some(register) = row.get(2) {
            print!(" {:>9.1}", row[0].micros_per_command / register.micros_per_command);
            print!(" {:>9.2}", register.micros_per_command / row[1].micros_per_command);
        }
        println!();
    }
}

/// How much longer a command takes at four times the size.
fn print_growth(name: &str, figures: &[Vec<Figure>]) {
    print!("{name:<18}");
    for engine in 0..figures[0].len() {
        for sizes in figures.windows(2) {
            let growth = sizes[1][engine].micros_per_command / sizes[0][engine].micros_per_command;
            print!(" {growth:>9.2}");
        }
    }
    println!();
}

fn runs(quick: bool) -> &'static str {
    if quick {
        "one run"
    } else {
        "the least of several runs"
    }
}

fn print_heads(quick: bool) {
    let runs = runs(quick);
    println!("Time per command in microseconds, {runs} of each journal, all in one process.");
    println!("The working table is not cleared first: it is filled with ones before each run,");
    println!("outside the time. Clearing it at the end is part of the run and of the time. The");
    println!("answers and the report of the run before are left in their buffers.");
    println!("Ratios: sec is the recomputation, incr the hand-written version, reg the register.");
    println!();
    print!("{:<18} {:>5} {:>6} {:>8}", "shape", "size", "cmds", "bytes/c");
    for engine in engines() {
        print!(" {:>11}", engine.name());
    }
    print!(" {:>9}", "sec/incr");
    if engines().len() > 2 {
        print!(" {:>9} {:>9}", "sec/reg", "reg/incr");
    }
    println!();
}

fn print_growth_heads() {
    println!();
    println!("Growth of the time per command from size to size (256 to 1,024; 1,024 to 4,096):");
    print!("{:<18}", "shape");
    for engine in engines() {
        print!(" {:>19}", engine.name());
    }
    println!();
}

/// What a run costs before its first command.
fn print_empty_runs(buffers: &mut Buffers, budget: Duration) {
    println!();
    println!("A run of the empty journal, in microseconds (the table's clearing):");
    for size in SIZES {
        let load = Load { journal: Vec::new(), c: size as u32, s: 2 * size as u32 };
        print!("{:<18} {size:>5}", "empty journal");
        for engine in engines() {
            let seconds = best_time(engine.as_ref(), &load, buffers, budget);
            print!(" {:>11.1}", 1e6 * seconds);
        }
        println!();
    }
}

/// What two routes take by the size of the network: the version written by hand, and the register.
fn print_routes(quick: bool, buffers: &mut Buffers, budget: Duration) {
    println!("Two routes by the size of the network, {} of each, all in one process:", runs(quick));
    println!(
        "microseconds per question, which is what {QUESTIONS} of them add to a run; nanoseconds"
    );
    println!(
        "per cabinet and span; growth at twice the size. The hand-written version keeps lists of"
    );
    println!(
        "the spans at each cabinet; a question is two searches by breadth that end at their goal,"
    );
    println!("and a walk for each route.");
    println!();
    print!("{:<18} {:>5} {:>6}", "network", "size", "spans");
    for engine in engines().iter().skip(1) {
        print!(" {:>14} {:>9} {:>9}", format!("{} us", engine.name()), "ns/item", "growth");
    }
    println!("{}", if engines().len() > 2 { "  reg/incr" } else { "" });
    for (name, network) in NETWORKS {
        let mut before = Vec::new();
        for size in ROUTE_SIZES {
            let seconds = question_times(network, size, buffers, budget);
            print_routes_row(name, size, network(size).0.spans.len(), &seconds, &before);
            before = seconds;
        }
    }
}

/// What a question takes each engine but the first, in seconds.
fn question_times(
    network: fn(usize) -> Routes,
    size: usize,
    buffers: &mut Buffers,
    budget: Duration,
) -> Vec<f64> {
    let load = |writer: Writer| Load { journal: writer.bytes, c: size as u32, s: 2 * size as u32 };
    let (with, without) = (load(asked(network(size), QUESTIONS)), load(network(size).0));
    let mut time = |engine: &dyn Engine| {
        let added = best_time(engine, &with, buffers, budget)
            - best_time(engine, &without, buffers, budget);
        added / QUESTIONS as f64
    };
    engines().iter().skip(1).map(|engine| time(engine.as_ref())).collect()
}

fn print_routes_row(name: &str, size: usize, spans: usize, seconds: &[f64], before: &[f64]) {
    print!("{name:<18} {size:>5} {spans:>6}");
    for (engine, time) in seconds.iter().enumerate() {
        print!(" {:>14.2} {:>9.2}", 1e6 * time, 1e9 * time / (size + spans) as f64);
        match before.get(engine) {
            Some(half) => print!(" {:>9.2}", time / half),
            None => print!(" {:>9}", ""),
        }
    }
    if let [incremental, register] = seconds[..] {
        print!(" {:>9.2}", register / incremental);
    }
    println!();
}

/// The best time of a forecast among several, and the length forecast.
fn best_forecast(engine: &dyn Engine, journal: &[u8], budget: Duration) -> (f64, u32) {
    let mut best = f64::INFINITY;
    let (mut place, mut length) = (0, 0);
    let start = Instant::now();
    loop {
        let clock = Instant::now();
        let number = engine.forecast(black_box(journal), &mut place, &mut length);
        best = best.min(clock.elapsed().as_secs_f64());
        assert_eq!(number, 0, "{} refuses a journal of the benchmark", engine.name());
        if start.elapsed() >= budget {
            return (best, length);
        }
    }
}

/// What a forecast of each long journal costs: the version written by hand, and the register.
fn print_forecasts(quick: bool, budget: Duration) {
    println!("Forecasts of long journals, {} of each, all in one process:", runs(quick));
    println!("nanoseconds per command, then microseconds per journal. The hand-written version is");
    println!("one pass over the bytes that steps over the operands.");
    println!();
    print!("{:<18} {:>6} {:>6}", "journal", "bytes", "cmds");
    for engine in engines().iter().skip(1) {
        print!(" {:>14} {:>14}", format!("{} ns", engine.name()), "us/journal");
    }
    println!("{}", if engines().len() > 2 { "  reg/incr" } else { "" });
    for (name, journal) in LONG {
        print_forecast(name, &journal(), budget);
    }
}

fn print_forecast(name: &str, journal: &[u8], budget: Duration) {
    let commands: usize = counts(journal).expect("the journal is well-formed").iter().sum();
    print!("{name:<18} {:>6} {commands:>6}", journal.len());
    let measured: Vec<(f64, u32)> =
        engines().iter().skip(1).map(|e| best_forecast(e.as_ref(), journal, budget)).collect();
    for (seconds, length) in &measured {
        assert_eq!(*length, measured[0].1, "the forecasts differ");
        print!(" {:>14.3} {:>14.1}", 1e9 * seconds / commands as f64, 1e6 * seconds);
    }
    if let [(incremental, _), (register, _)] = measured[..] {
        print!(" {:>9.2}", register / incremental);
    }
    println!();
}

/// The best time of a rewriting among several, and the result.
fn best_rewriting(engine: &dyn Engine, journal: &[u8], budget: Duration) -> (f64, Vec<u8>) {
    let mut best = f64::INFINITY;
    let mut out = vec![0; LONGEST_JOURNAL];
    let (mut place, mut length) = (0, 0);
    let start = Instant::now();
    loop {
        let clock = Instant::now();
        let number = engine.rewrite(black_box(journal), &mut out, &mut place, &mut length);
        best = best.min(clock.elapsed().as_secs_f64());
        assert_eq!(number, 0, "{} refuses a journal of the benchmark", engine.name());
        if start.elapsed() >= budget {
            out.truncate(length as usize);
            return (best, out);
        }
    }
}

/// What a rewriting of each long journal costs each engine.
fn print_rewritings(quick: bool, budget: Duration) {
    println!("Rewritings of long journals, {} of each, all in one process:", runs(quick));
    println!("nanoseconds per command, then microseconds per journal. The hand-written version is");
    println!("one pass over the bytes that makes the result beside the output buffer.");
    println!();
    print!("{:<18} {:>6} {:>6} {:>6}", "journal", "bytes", "cmds", "02");
    for engine in engines() {
        print!(" {:>14} {:>14}", format!("{} ns", engine.name()), "us/journal");
    }
    println!("{}", if engines().len() > 2 { "  reg/incr" } else { "" });
    for (name, journal) in REWRITTEN {
        print_rewriting(name, &journal(), budget);
    }
}

fn print_rewriting(name: &str, journal: &[u8], budget: Duration) {
    let counts = counts(journal).expect("the journal is well-formed");
    let commands: usize = counts.iter().sum();
    print!("{name:<18} {:>6} {commands:>6} {:>6}", journal.len(), counts[0x02]);
    let measured: Vec<(f64, Vec<u8>)> =
        engines().iter().map(|e| best_rewriting(e.as_ref(), journal, budget)).collect();
    for (seconds, result) in &measured {
        assert!(*result == measured[0].1, "the results differ");
        print!(" {:>14.3} {:>14.1}", 1e9 * seconds / commands as f64, 1e6 * seconds);
    }
    if let [_, (incremental, _), (register, _)] = measured[..] {
        print!(" {:>9.2}", register / incremental);
    }
    println!();
}

/// Runs the last engine on one shape, and prints its time.
fn run_only(name: &str, buffers: &mut Buffers) {
    let (_, shape) = SHAPES.iter().find(|(each, _)| *each == name).expect("no such shape");
    let size = SIZES[SIZES.len() - 1];
    let load = Load { journal: shape(size).bytes, c: size as u32, s: 2 * size as u32 };
    let engine = engines().pop().expect("there are engines");
    let figure = measure(engine.as_ref(), &load, buffers, Duration::from_secs(2));
    println!("{}, {name}: {:.3} microseconds", engine.name(), figure.micros_per_command);
}

/// Prints the part that is asked for alone; says whether one is.
fn part(words: &[String], quick: bool, buffers: &mut Buffers, budget: Duration) -> bool {
    let asks = |word: &str| words.iter().any(|each| each == word);
    if asks("--forecast") {
        print_forecasts(quick, budget);
    } else if asks("--rewrite") {
        print_rewritings(quick, budget);
    } else if asks("--join") {
        print_joinings(quick, buffers);
    } else if asks("--exact") {
        print_exact(quick, buffers);
    } else if asks("--routes") {
        print_routes(quick, buffers, budget);
    } else if let Some(at) = words.iter().position(|word| word == "--only") {
        run_only(words.get(at + 1).map_or("", String::as_str), buffers);
    } else {
        return false;
    }
    true
}

fn main() {
    let words: Vec<String> = std::env::args().collect();
    let quick = words.iter().any(|word| word == "--quick");
    let budget = Duration::from_millis(if quick { 0 } else { 1000 });
    let mut buffers = Buffers {
        work: vec![1; work_needed(4096, 8192)],
        answers: vec![1; ANSWER_ROOM],
        report: [0; REPORT_NUMBERS],
    };
    if part(&words, quick, &mut buffers, budget) {
        return;
    }
    print_heads(quick);
    let mut all = Vec::new();
    for (name, shape) in SHAPES {
        let figures = shape_figures(shape, &mut buffers, budget);
        print_shape(name, &figures);
        all.push((name, figures));
    }
    print_growth_heads();
    all.iter().for_each(|(name, figures)| print_growth(name, figures));
    print_empty_runs(&mut buffers, budget);
    println!();
    print_routes(quick, &mut buffers, budget);
    println!();
    print_forecasts(quick, budget);
    println!();
    print_rewritings(quick, budget);
    println!();
    print_joinings(quick, &mut buffers);
    println!();
    print_exact(quick, &mut buffers);
}
