//! The program of document 01, driven from outside: standard input to standard output.

use crate::cases::{hex, unhex, Case};
use crate::ducts;
use crate::exchanges;
use crate::histories::{marked, TRIANGLE, TRIANGLE_ANSWERS};
use crate::journals::{random_case, Writer};
use crate::pairs::Pairs;
use crate::routes;
use crate::second::command::Capacities;
use crate::second::routes::Asked;
use crate::second::Second;
use crate::sizes;
use crate::spans::Span;
use crate::surveys;
use std::fs::File;
use std::io::Write;
use std::process::{Command, Output, Stdio};

const CABINETS: usize = 256;
const SPANS: usize = 512;
const ANSWERS: usize = 65_536;
const LONGEST: usize = 65_536;

/// What the program must write for an input, given what it has written: the pairs of routes are
/// taken from that, and must serve. Where it has no 8C, as at a refusal for want of room, the second
/// implementation takes a pair of its own.
fn wanted(input: &[u8], written: &[u8]) -> Result<Vec<u8>, String> {
    if input.len() > LONGEST {
        return Ok(vec![0xFF, 3, 0, 0, 0, 0]);
    }
    let capacities = Capacities { cabinets: CABINETS, spans: SPANS };
    let second = Second::new();
    let mut pairs = Pairs::of(written);
    let choose = &mut |asked: &Asked| match written.get(asked.written) {
        Some(0x8C) => pairs.next(asked),
        _ => second.own_pair(asked),
    };
    let run = second.walk(capacities, input, ANSWERS, choose, &mut |_| ());
    pairs.result()?;
    let mut output = run.answers;
    if run.refusal == 0 {
        output.push(0x80);
    } else {
        output.extend([0xFF, run.refusal as u8]);
        output.extend((run.place as u32).to_be_bytes());
    }
    Ok(output)
}

/// What the program at `path` writes, its input fed in pieces of so many bytes.
fn written(path: &str, input: &[u8], piece: usize) -> Result<Vec<u8>, String> {
    let mut child = Command::new(path)
        .stdin(Stdio::piped())
        .stdout(Stdio::piped())
        .stderr(Stdio::piped())
        .spawn()
        .map_err(|fault| format!("{path}: {fault}"))?;
    let mut to_child = child.stdin.take().expect("the input is a pipe");
    let input = input.to_vec();
    // The program may end before it has read a journal that is too long: a write that fails is
    // no fault of the program.
    let feeding = std::thread::spawn(move || {
        input.chunks(piece).try_for_each(|bytes| to_child.write_all(bytes)).ok()
    });
    let output = child.wait_with_output();
    feeding.join().expect("the feeding thread does not panic");
    output_of(path, output)
}

/// The standard output of a program that ended well and wrote nothing to standard error.
fn output_of(path: &str, output: std::io::Result<Output>) -> Result<Vec<u8>, String> {
    let output = output.map_err(|fault| format!("{path}: {fault}"))?;
    if !output.status.success() || !output.stderr.is_empty() {
        let said = String::from_utf8_lossy(&output.stderr);
        return Err(format!("{path}: ended with {}, standard error: {said}", output.status));
    }
    Ok(output.stdout)
}

/// Where its input cannot be read, as a folder cannot, the program writes nothing.
fn nothing_without_input(path: &str) -> Result<(), String> {
    let folder = File::open(".").map_err(|fault| format!("the working folder: {fault}"))?;
    let output = output_of(path, Command::new(path).stdin(folder).output())?;
    if !output.is_empty() {
        return Err(format!("written where the input cannot be read: {}", hex(&output)));
    }
    Ok(())
}

/// Drives the program on some hundred inputs; gives their number, or the first difference.
pub fn drive(path: &str, seed: u64) -> Result<usize, String> {
    let triangle = [unhex(TRIANGLE_ANSWERS), vec![0x80]].concat();
    if wanted(&unhex(TRIANGLE), &triangle)? != triangle {
        return Err("second does not write the triangle as document 01 has it".to_string());
    }
    nothing_without_input(path)?;
    let inputs = inputs(seed);
    for (number, input) in inputs.iter().enumerate() {
        let piece = if number % 2 == 0 { 4096 } else { 1 + number % 7 };
        let output = written(path, input, piece)?;
        let wanted =
            wanted(input, &output).map_err(|fault| format!("input {}\n{fault}", hex(input)))?;
        if output != wanted {
            return Err(format!(
                "input {}\nwritten {}\nwanted  {}",
                hex(input),
                hex(&output),
                hex(&wanted)
            ));
        }
    }
    Ok(inputs.len())
}

fn inputs(seed: u64) -> Vec<Vec<u8>> {
    let known = [
        marked(),
        exchanges::known(),
        ducts::known(),
        routes::known(),
        surveys::known(),
        sizes::known(),
    ];
    let cases = known.concat().into_iter();
    let mut inputs: Vec<Vec<u8>> = cases.map(|case: Case| case.journal).collect();
    inputs.extend((seed..seed + 300).map(|seed| random_case(seed).journal));
    inputs.extend([CABINETS, CABINETS + 1].map(|count| vec![0x01; count]));
    for duct in [0, 5] {
        inputs.extend([SPANS, SPANS + 1].map(|count| spans(count, duct)));
    }
    inputs.extend([LONGEST, LONGEST + 1, LONGEST + 2, 200_000].map(questions));
    inputs.push(too_many_answers());
    inputs.push(too_many_routes());
    inputs
}

/// Two cabinets and so many spans between them, by 02 or in a duct that is not 0, all mates.
fn spans(count: usize, duct: usize) -> Vec<u8> {
    let mut writer = Writer::new();
    writer.cabinet();
    writer.cabinet();
    (0..count).for_each(|_| writer.add(Span { a: 0, b: 1, duct }));
    writer.bytes
}

/// So many bytes: a cabinet, and the same question again and again, whose answers take fewer bytes than it.
fn questions(length: usize) -> Vec<u8> {
    let mut writer = Writer::new();
    writer.cabinet();
    while writer.bytes.len() < length {
        writer.command(0x0A, &[0]);
    }
    writer.bytes.truncate(length);
    writer.bytes
}

/// Long lists, again and again, until the answer buffer is full.
fn too_many_answers() -> Vec<u8> {
    let mut writer = Writer::new();
    (0..CABINETS).for_each(|_| writer.cabinet());
    (1..CABINETS).for_each(|cabinet| writer.span(cabinet - 1, cabinet));
    (0..200).for_each(|_| writer.command(0x06, &[0, CABINETS - 1]));
    writer.bytes
}

/// A loop, and the two ways round it again and again, until the answer buffer is full. Every pair has
/// the same length.
fn too_many_routes() -> Vec<u8> {
    let mut writer = Writer::new();
    (0..CABINETS).for_each(|_| writer.cabinet());
    (0..CABINETS).for_each(|cabinet| writer.span(cabinet, (cabinet + 1) % CABINETS));
    (0..200).for_each(|_| writer.command(0x0C, &[0, CABINETS / 2]));
    writer.bytes
}
