//! Forecasts to the byte, beside runs of the same journals with just so much room.

use crate::{engines, runs, Buffers, Load, SHAPES, SIZES};
use differential::engine::exact::Exact;
use differential::engine::{work_needed, Call, Engine};
use differential::second::forecast::{counts, length};
use std::hint::black_box;
use std::time::{Duration, Instant};

/// How long each engine is measured on each journal, with forecasts and runs by turns.
const BUDGET: Duration = Duration::from_millis(600);

/// What one engine took for one journal, in seconds, and the length that it forecasts.
struct Times {
    forecast: f64,
    run: f64,
    length: u32,
}

/// A forecast to the byte, and what it took. The table is filled before it, outside the time.
fn forecast(engine: &dyn Engine, load: &Load, work: &mut [u32]) -> (f64, u32) {
    work.fill(u32::MAX);
    let (mut place, mut length) = (0, 0);
    let Load { journal, c, s } = black_box(load);
    let call = Exact { c: *c, s: *s, journal, work, place: &mut place, length: &mut length };
    let clock = Instant::now();
    let number = engine.forecast_exact(call);
    let seconds = clock.elapsed().as_secs_f64();
    assert_eq!(number, 0, "{} refuses a journal of the benchmark", engine.name());
    (seconds, length)
}

/// What a run with just so much room took.
fn run(engine: &dyn Engine, load: &Load, length: u32, buffers: &mut Buffers) -> f64 {
    let work = &mut buffers.work[..work_needed(load.c, load.s)];
    work.fill(u32::MAX);
    let (answers, report) = (&mut buffers.answers[..length as usize], &mut buffers.report);
    let Load { journal, c, s } = black_box(load);
    let call = Call { c: *c, s: *s, journal, work, answers, report };
    let clock = Instant::now();
    let number = engine.run(call);
    let seconds = clock.elapsed().as_secs_f64();
    assert_eq!([number, buffers.report[3]], [0, length], "{} takes another room", engine.name());
    seconds
}

/// The best times among several.
fn best_times(engine: &dyn Engine, load: &Load, buffers: &mut Buffers, budget: Duration) -> Times {
    let mut best = Times { forecast: f64::INFINITY, run: f64::INFINITY, length: 0 };
    let start = Instant::now();
    loop {
        let work = &mut buffers.work[..work_needed(load.c, load.s)];
        let (seconds, length) = forecast(engine, load, work);
        best.forecast = best.forecast.min(seconds);
        best.run = best.run.min(run(engine, load, length, buffers));
        best.length = length;
        if start.elapsed() >= budget {
            return best;
        }
    }
}

/// What a forecast to the byte of each shape at the greatest size costs: the version written by hand, and the
/// register.
pub fn print_exact(quick: bool, buffers: &mut Buffers) {
    println!("Forecasts to the byte at the greatest size, {} of each, all in one", runs(quick));
    println!("process: microseconds per forecast, then per run of the same journal with just so");
    println!("much room, and the forecast as a multiple of the run. The hand-written version's");
    println!("forecast is a run that drops its answers. Behind the commands stand the bytes that");
    println!("all answers of the last engine take, and those that are forecast from the journal");
    println!("alone. The working table is filled with ones before each, outside the time.");
    println!();
    print!("{:<18} {:>6} {:>9} {:>10}", "shape", "cmds", "answers", "alone");
    for engine in engines().iter().skip(1) {
        print!(" {:>14} {:>11} {:>9}", format!("{} us", engine.name()), "us/run", "fore/run");
    }
    println!("{}", if engines().len() > 2 { "  reg/incr" } else { "" });
    let budget = if quick { Duration::ZERO } else { BUDGET };
    for (name, shape) in SHAPES {
        let size = SIZES[SIZES.len() - 1];
        let load = Load { journal: shape(size).bytes, c: size as u32, s: 2 * size as u32 };
        print_row(name, &load, buffers, budget);
    }
}

fn print_row(name: &str, load: &Load, buffers: &mut Buffers, budget: Duration) {
    let counts = counts(&load.journal).expect("the journal is well-formed");
    let measured: Vec<Times> =
        engines().iter().skip(1).map(|e| best_times(e.as_ref(), load, buffers, budget)).collect();
    let last = measured.last().expect("there are engines");
    print!("{name:<18} {:>6} {:>9}", counts.iter().sum::<usize>(), last.length);
    print!(" {:>10}", length(&counts));
    for Times { forecast, run, .. } in &measured {
        print!(" {:>14.1} {:>11.1} {:>9.2}", 1e6 * forecast, 1e6 * run, forecast / run);
    }
    if let [incremental, register] = &measured[..] {
        print!(" {:>9.2}", register.forecast / incremental.forecast);
    }
    println!();
}
