//! Joinings of two journals, beside runs of the same two with their answers.

use crate::{engines, runs, written, Buffers};
use differential::engine::join::{Join, Seam};
use differential::engine::{Call, Engine, LONGEST_JOURNAL, MOST_CABINETS, MOST_SPANS};
use differential::joins::case::{Couple, Joining};
use differential::joins::large;
use differential::layouts::random_spans;
use differential::random::Random;
use differential::second::forecast::counts;
use std::hint::black_box;
use std::time::{Duration, Instant};

/// How long each engine but the recomputation is measured on each couple. The recomputation joins once.
const BUDGET: Duration = Duration::from_millis(150);

/// The recomputation is left out where the two journals have more spans than this: it would take seconds.
const MOST_RECOMPUTED: usize = 4_096;

/// The couples, each with one joining. Every journal is within the capacities.
fn couples() -> [Couple; 4] {
    [spans_alone(), all_commands(), seams_alone(), refused()]
}

/// Cabinets, and random spans by 02; together too many for one run.
fn spans_alone() -> Couple {
    let random = &mut Random::new(10);
    let mut journal = || written(&random_spans(random, 1_000, 6_200)).bytes;
    let (first, second) = (journal(), journal());
    let mut seam = || Seam::new(random.below(1_000) as u16, random.below(1_000) as u16, 1);
    let seams = (0..200).map(|_| seam()).collect();
    Couple::new("02 alone", first, second).asked(Joining::by(seams))
}

fn all_commands() -> Couple {
    Couple { label: "all commands".to_string(), ..large() }
}

/// A cabinet each, and as many seams as there can be.
fn seams_alone() -> Couple {
    let seams = (0..9_362).map(|i| Seam::new(0, 0, 1 + i % 7)).collect();
    Couple::new("seams alone", vec![0x01], vec![0x01]).asked(Joining::by(seams))
}

/// The same as with all commands, but for a span from a cabinet to itself at the second's end.
fn refused() -> Couple {
    let Couple { first, mut second, joinings, .. } = all_commands();
    second.extend([0x02, 0, 0, 0, 0]);
    let joining = Joining::by(joinings[0].seams.clone()).refused(17);
    Couple::new("refused", first, second).asked(joining)
}

/// What its joining returns.
fn number(couple: &Couple) -> u32 {
    couple.joinings[0].known.as_ref().map_or(0, |known| known.number)
}

/// The best time of a joining among several, and the result.
fn best_joining(
    engine: &dyn Engine,
    couple: &Couple,
    work: &mut [u32],
    budget: Duration,
) -> (f64, Vec<u8>) {
    let mut best = f64::INFINITY;
    let (mut out, mut length) = (vec![0; LONGEST_JOURNAL], 0);
    let Couple { first, second, joinings, .. } = black_box(couple);
    let start = Instant::now();
    loop {
        work.fill(u32::MAX);
        let seams = &joinings[0].seams;
        let call = Join { first, second, seams, work, out: &mut out, length: &mut length };
        let clock = Instant::now();
        let returned = engine.join(call);
        best = best.min(clock.elapsed().as_secs_f64());
        assert_eq!(returned, number(couple), "{}: {}", engine.name(), couple.label);
        if start.elapsed() >= budget {
            out.truncate(length as usize);
            return (best, out);
        }
    }
}

/// The best time of a run of the first journal and then of the second, among several.
fn best_runs(engine: &dyn Engine, couple: &Couple, buffers: &mut Buffers, budget: Duration) -> f64 {
    let mut best = f64::INFINITY;
    let Couple { first, second, .. } = black_box(couple);
    let Buffers { work, answers, report } = buffers;
    let mut run = |journal: &[u8], work: &mut [u32]| {
        engine.run(Call { c: MOST_CABINETS, s: MOST_SPANS, journal, work, answers, report })
    };
    let start = Instant::now();
    loop {
        work.fill(u32::MAX);
        let clock = Instant::now();
        let returned = [run(first, work), run(second, work)];
        best = best.min(clock.elapsed().as_secs_f64());
        let refused = returned != [0, 0];
        assert_eq!(refused, number(couple) == 17, "{}: {}", engine.name(), couple.label);
        if start.elapsed() >= budget {
            return best;
        }
    }
}

/// What a joining of each couple costs each engine, and what runs of both journals cost the last of them.
pub fn print_joinings(quick: bool, buffers: &mut Buffers) {
    println!("Joinings of two journals, {} of each, all in one process:", runs(quick));
    println!("nanoseconds per command and seam, then microseconds per joining. The recomputation");
    println!("joins once, and not at all where there are many spans. The hand-written version");
    println!("runs both journals with their answers, copies the second behind the first, and");
    println!("raises it there. Behind these, for the last engine: a run of the first journal and");
    println!("then one of the second, answers and all, and the joining as a multiple of the two.");
    println!("The working table is filled with ones before each joining or two runs, outside the");
    println!("time.");
    println!();
    print!("{:<18} {:>6} {:>6} {:>6} {:>6}", "journals", "number", "bytes", "cmds", "seams");
    for engine in engines() {
        print!(" {:>14} {:>14}", format!("{} ns", engine.name()), "us/joining");
    }
    print!("{}", if engines().len() > 2 { "  reg/incr" } else { "" });
    println!(" {:>14} {:>9}", "us/both runs", "join/runs");
    let budget = if quick { Duration::ZERO } else { BUDGET };
    for couple in couples() {
        print_joining(&couple, buffers, budget);
    }
}

fn print_joining(couple: &Couple, buffers: &mut Buffers, budget: Duration) {
    let [commands, spans] = commands_and_spans(couple);
    let (bytes, seams) = (couple.first.len() + couple.second.len(), couple.joinings[0].seams.len());
    print!("{:<18} {:>6} {bytes:>6}", couple.label, number(couple));
    print!(" {commands:>6} {seams:>6}");
    let engines = engines();
    let left_out = usize::from(spans > MOST_RECOMPUTED);
    let measured: Vec<(f64, Vec<u8>)> = engines
        .iter()
        .zip([Duration::ZERO, budget, budget])
        .skip(left_out)
        .map(|(engine, budget)| best_joining(engine.as_ref(), couple, &mut buffers.work, budget))
        .collect();
    (0..left_out).for_each(|_| print!(" {:>14} {:>14}", "-", "-"));
    for (seconds, result) in &measured {
        assert!(*result == measured[0].1, "the results differ");
        print!(" {:>14.3} {:>14.1}", 1e9 * seconds / (commands + seams) as f64, 1e6 * seconds);
    }
    let last = measured.len() - 1;
    if engines.len() > 2 {
        print!(" {:>9.2}", measured[last].0 / measured[last - 1].0);
    }
    let engine = engines.last().expect("there are engines");
    let both = best_runs(engine.as_ref(), couple, buffers, budget);
    println!(" {:>14.1} {:>9.2}", 1e6 * both, measured[last].0 / both);
}

/// How many commands and spans both journals have together.
fn commands_and_spans(couple: &Couple) -> [usize; 2] {
    let counts = [&couple.first, &couple.second]
        .map(|journal| counts(journal).expect("the journal is well-formed"));
    let commands = counts.iter().flatten().sum();
    [commands, counts.iter().map(|counts| counts[0x02] + counts[0x0B]).sum()]
}
