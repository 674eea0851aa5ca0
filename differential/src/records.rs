//! Journals with survey records: every list of a few of them, every arrangement of some, and every choice
//! of them between spans in ducts.

use crate::cases::{unhex, Case};
use crate::exchanges::fields;
use crate::journals::{has_mates, Writer};
use crate::layouts::{self, Layout};
use crate::literal;
use crate::second::surveys::Record;
use crate::spans::Span;

/// The metres of the first record, of the second, and so on.
const METRES: [usize; 5] = [300, 0, 65_535, 7, 256];

/// Days for every arrangement of records of one span, and of those of two.
const DAYS_OF_ONE: [usize; 5] = [0, 1, 255, 256, 65_535];
const DAYS_OF_TWO: [usize; 3] = [0, 1, 65_535];

/// Days and metres of the records between spans, by turns.
const MEASURED: [(usize, usize); 6] =
    [(0, 0), (65_535, 65_535), (1, 2), (2, 1), (65_535, 0), (0, 65_535)];

/// What stands for 02 and for the two ducts of a list, by turns. Some differ in their high byte or in
/// their highest bit alone.
const DUCTS: [[usize; 3]; 3] = [[0, 1, 2], [0, 0x0101, 0x0001], [0, 0xFFFF, 0x7FFF]];

/// Two cabinets, and one span or two mates between them, with the answers.
fn beginning(spans: usize) -> (Writer, Vec<u8>) {
    let mut writer = Writer::new();
    writer.enter(&Layout { cabinets: 2, spans: vec![Span::in_duct(0, 1, 5); spans] });
    let mut answers = unhex("81 0000 81 0001 82 0000 0000 0001 01 0001 0000");
    if spans == 2 {
        answers.extend(unhex("82 0001 0000 0000"));
    }
    (writer, answers)
}

/// The answer to 0E.
fn told(length: Option<usize>) -> Vec<u8> {
    let flag = u8::from(length.is_some());
    [vec![0x8E], fields(flag, &[length.unwrap_or(0) as u16])].concat()
}

/// This journal, whose commands are all accepted with these answers.
fn accepted(label: &str, writer: Writer, commands: usize, answers: Vec<u8>) -> Case {
    let Writer { bytes, cabinets, spans, .. } = writer;
    let counts = [bytes.len(), commands, answers.len(), cabinets, spans.len()];
    let [place, commands, written, c, s] = counts.map(|count| count as u32);
    let case = Case::with_room(label, c, s, bytes, 0);
    case.leaves(answers, [0, place, commands, written, c, s])
}

/// Every list of so many records, up to five, of one span or of two, measured on the days 0 to 2, each
/// record with other metres. Before the first of them and behind each comes the question about each
/// span, answered as the definition word for word has it.
pub fn every_list(spans: usize, count: usize, each: &mut dyn FnMut(Case)) {
    let choices: Vec<[usize; 2]> =
        (0..spans).flat_map(|span| (0..3).map(move |day| [span, day])).collect();
    let mut number = 0;
    layouts::every_list(&choices, count, &mut |list| {
        let measured = list.into_iter().zip(METRES);
        let records: Vec<Record> =
            measured.map(|([span, day], metres)| Record { span, day, metres }).collect();
        let label = format!("list {number} of {count} records of {spans} spans");
        each(asked_behind_each(&label, spans, &records));
        number += 1;
    });
}

fn asked_behind_each(label: &str, spans: usize, records: &[Record]) -> Case {
    let (mut writer, mut answers) = beginning(spans);
    for entered in 0..=records.len() {
        if entered > 0 {
            writer.record(records[entered - 1]);
            answers.push(0x8D);
        }
        for span in 0..spans {
            writer.command(0x0E, &[span]);
            answers.extend(told(literal::length(&records[..entered], span)));
        }
    }
    accepted(label, writer, 2 + spans + records.len() + (records.len() + 1) * spans, answers)
}

/// Records of different days in every arrangement, of one span and of two: in the end the length of each
/// span is that of its last day.
pub fn every_arrangement(each: &mut dyn FnMut(Case)) {
    let on_days = |span: usize, days: &[usize]| -> Vec<Record> {
        days.iter().zip(METRES).map(|(&day, metres)| Record { span, day, metres }).collect()
    };
    // The second span's metres are those of the first and 1 more.
    let of_second = on_days(1, &DAYS_OF_TWO).into_iter();
    let of_second = of_second.map(|r| Record { metres: (r.metres + 1) % 65_536, ..r });
    let of_two: Vec<Record> = on_days(0, &DAYS_OF_TWO).into_iter().chain(of_second).collect();
    arrangements(&on_days(0, &DAYS_OF_ONE), &mut |records| each(arranged(&[256], records)));
    arrangements(&of_two, &mut |records| each(arranged(&[65_535, 0], records)));
}

/// These records, and behind them the question about each span, answered with these lengths.
fn arranged(lengths: &[usize], records: &[Record]) -> Case {
    let (mut writer, mut answers) = beginning(lengths.len());
    for &record in records {
        writer.record(record);
        answers.push(0x8D);
    }
    for (span, &length) in lengths.iter().enumerate() {
        writer.command(0x0E, &[span]);
        answers.extend(told(Some(length)));
    }
    let days: Vec<[usize; 2]> = records.iter().map(|r| [r.span, r.day]).collect();
    let label = format!("spans and days {days:?}");
    accepted(&label, writer, 2 + 2 * lengths.len() + records.len(), answers)
}

/// Every arrangement of these.
pub fn arrangements<T: Copy>(items: &[T], each: &mut dyn FnMut(&[T])) {
    arrange(&mut items.to_vec(), 0, each);
}

/// Every arrangement that keeps so many at the front.
fn arrange<T: Copy>(items: &mut Vec<T>, kept: usize, each: &mut dyn FnMut(&[T])) {
    if kept == items.len() {
        return each(items);
    }
    for next in kept..items.len() {
        items.swap(kept, next);
        arrange(items, kept + 1, each);
        items.swap(kept, next);
    }
}

/// Every list of so many spans between so many cabinets, each by 02 or in one of so many ducts, with
/// directions by turns; between more than two cabinets only those in which some span has a mate. Of every
/// choice among the spans a record is entered: of each behind itself, and so before every span that comes
/// after it, or of all before the last span. Behind all of them comes every question.
pub fn every_choice_in_ducts(
    cabinets: usize,
    ducts: usize,
    spans: usize,
    each: &mut dyn FnMut(Case),
) {
    let choices = every_choice(spans);
    let mut number = 0;
    layouts::every_list_by_turns(cabinets, ducts, spans, &mut |spans| {
        if cabinets == 2 || has_mates(&spans) {
            for behind in &choices {
                each(recorded_between(number, cabinets, &spans, behind));
                number += 1;
            }
        }
    });
}

/// For each span those that are recorded behind it.
type Behind = Vec<Vec<usize>>;

/// Every choice among so many spans, two or more, each recorded behind itself; then all of them before
/// the last span. No two are alike.
fn every_choice(spans: usize) -> Vec<Behind> {
    let chosen = |choice: usize| (0..spans).filter(move |span| choice >> span & 1 == 1);
    let mut all: Vec<Behind> = Vec::new();
    for choice in 0..1 << spans {
        all.push((0..spans).map(|i| chosen(choice).filter(|&span| span == i).collect()).collect());
    }
    for choice in 0..1 << (spans - 1) {
        let mut behind = vec![Vec::new(); spans];
        behind[spans - 2].extend(chosen(choice));
        if !all.contains(&behind) {
            all.push(behind);
        }
    }
    all
}

fn recorded_between(number: usize, cabinets: usize, spans: &[Span], behind: &Behind) -> Case {
    let mut writer = Writer::new();
    (0..cabinets).for_each(|_| writer.cabinet());
    for (i, &span) in spans.iter().enumerate() {
        let duct = DUCTS[number % DUCTS.len()][span.duct];
        writer.add(Span { duct, ..span });
        for &span in &behind[i] {
            let (day, metres) = MEASURED[(number + span) % MEASURED.len()];
            writer.record(Record { span, day, metres });
        }
    }
    writer.sweep();
    let label = format!("records between {} spans in ducts, number {number}", spans.len());
    Case::new(&label, cabinets as u32, spans.len() as u32, writer.bytes).returns(0)
}
