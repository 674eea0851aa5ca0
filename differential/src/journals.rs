//! Journals by seed: layouts entered with questions between, damaged journals, and bare bytes.

use crate::cases::{Case, Room};
use crate::engine::{work_needed, MOST_CABINETS, MOST_SPANS, REPORT_NUMBERS};
use crate::layouts::{self, random_spans, Layout, DUCTS, MEDIUM, STYLES};
use crate::literal::{of_one_duct, share_ring, Plant};
use crate::random::Random;
use crate::second::groups::{groups, Labels, Network};
use crate::second::surveys::Record;
use crate::spans::Span;

/// The command bytes, each with the number of its operands.
pub const COMMANDS: [(u8, usize); 15] = [
    (0x01, 0),
    (0x02, 2),
    (0x03, 1),
    (0x04, 1),
    (0x05, 2),
    (0x06, 2),
    (0x07, 2),
    (0x08, 1),
    (0x09, 1),
    (0x0A, 1),
    (0x0B, 3),
    (0x0C, 2),
    (0x0D, 3),
    (0x0E, 1),
    (0x0F, 0),
];

/// The number of operands behind a command byte.
pub fn operand_count(byte: u8) -> usize {
    let known = COMMANDS.iter().find(|command| command.0 == byte);
    known.expect("the byte is a command's").1
}

/// The bytes that are no command's: 00, and 10 to FF.
pub fn unknown_bytes() -> impl Iterator<Item = u8> {
    (0x00..=0xFF).filter(|&byte| COMMANDS.iter().all(|command| command.0 != byte))
}

/// Days to measure on: few at a time, so that several records are of one day, and a later day comes
/// before an earlier one. Some differ in one byte or in the highest bit alone.
const DAYS: [&[usize]; 6] =
    [&[0], &[0, 1, 2], &[0, 65_535], &[255, 256, 257], &[0x7FFF, 0x8000], &[1, 0x0101, 0x0201]];

/// Lengths to measure.
const METRES: [usize; 8] = [0, 1, 5, 255, 256, 0x8000, 65_534, 65_535];

/// Writes a journal, and keeps as much of the network as it takes to write commands that are
/// accepted.
#[derive(Default)]
pub struct Writer {
    pub bytes: Vec<u8>,
    pub cabinets: usize,
    pub spans: Vec<Span>,
    exchanges: Vec<usize>,
    /// The next cabinet on the way to the one that stands for the district.
    toward: Vec<usize>,
    /// A label for each cabinet's ring, once it is asked for and until the next cabinet or span.
    rings: Option<Labels>,
}

impl Writer {
    pub fn new() -> Writer {
        Writer::default()
    }

    /// A command byte and its operands.
    pub fn command(&mut self, byte: u8, operands: &[usize]) {
        self.bytes.push(byte);
        for &operand in operands {
            self.bytes.extend((operand as u16).to_be_bytes());
        }
    }

    pub fn cabinet(&mut self) {
        self.command(0x01, &[]);
        self.toward.push(self.cabinets);
        self.cabinets += 1;
        self.rings = None;
    }

    /// A span by 02.
    pub fn span(&mut self, a: usize, b: usize) {
        self.add(Span::new(a, b));
    }

    /// A span by 02, or by 0B where it lies in a duct.
    pub fn add(&mut self, span: Span) {
        let Span { a, b, duct } = span;
        match duct {
            0 => self.command(0x02, &[a, b]),
            _ => self.command(0x0B, &[a, b, duct]),
        }
        let (one, other) = (self.stands_for(a), self.stands_for(b));
        self.toward[one] = other;
        self.spans.push(span);
        self.rings = None;
    }

    /// Marks a cabinet, unless it is an exchange already.
    pub fn mark(&mut self, cabinet: usize) {
        if !self.exchanges.contains(&cabinet) {
            self.command(0x09, &[cabinet]);
            self.exchanges.push(cabinet);
        }
    }

    /// Records a length of a span.
    pub fn record(&mut self, record: Record) {
        self.command(0x0D, &[record.span, record.day, record.metres]);
    }

    /// Records a length of some span, measured on one of these days, and asks for it now and then; nothing
    /// if there is no span.
    fn record_any(&mut self, random: &mut Random, days: &[usize]) {
        if self.spans.is_empty() {
            return;
        }
        let span = self.some_span(random);
        self.record(Record { span, day: *random.pick(days), metres: *random.pick(&METRES) });
        if random.chance(30) {
            self.command(0x0E, &[span]);
        }
    }

    /// A span: every other time one of the last three, so that one span has several records.
    fn some_span(&self, random: &mut Random) -> usize {
        let spans = self.spans.len();
        let newest = if random.chance(50) { 3.min(spans) } else { spans };
        spans - 1 - random.below(newest)
    }

    /// A span, and before it the cabinets that it needs and that are not there yet.
    fn add_with_cabinets(&mut self, span: Span) {
        while self.cabinets <= span.a.max(span.b) {
            self.cabinet();
        }
        self.add(span);
    }

    fn stands_for(&mut self, cabinet: usize) -> usize {
        let mut here = cabinet;
        while self.toward[here] != here {
            self.toward[here] = self.toward[self.toward[here]];
            here = self.toward[here];
        }
        here
    }

    fn joined(&mut self, a: usize, b: usize) -> bool {
        self.stands_for(a) == self.stands_for(b)
    }

    /// The other cabinets of a cabinet's ring.
    pub fn others_of_ring(&mut self, cabinet: usize) -> Vec<usize> {
        let Writer { cabinets, ref spans, .. } = *self;
        let network = || Network::new(cabinets, spans.clone());
        let rings = self.rings.get_or_insert_with(|| groups(&network()).ring);
        let shares = |&other: &usize| other != cabinet && rings[other] == rings[cabinet];
        (0..cabinets).filter(shares).collect()
    }

    /// Asks for two routes from a cabinet to another of its ring; nothing if it has no other.
    pub fn ask_routes(&mut self, random: &mut Random, cabinet: usize) {
        let others = self.others_of_ring(cabinet);
        if !others.is_empty() {
            self.command(0x0C, &[cabinet, *random.pick(&others)]);
        }
    }

    /// Enters all cabinets, then all spans.
    pub fn enter(&mut self, layout: &Layout) {
        self.enter_marked(layout, &[]);
    }

    /// Enters all cabinets, marks these of them, then enters all spans.
    pub fn enter_marked(&mut self, layout: &Layout, marked: &[usize]) {
        (0..layout.cabinets).for_each(|_| self.cabinet());
        marked.iter().for_each(|&cabinet| self.mark(cabinet));
        layout.spans.iter().for_each(|&span| self.add(span));
    }

    /// A question that is accepted; nothing if the cabinets or spans for it are missing.
    pub fn question(&mut self, random: &mut Random) {
        let byte = *random.pick(&[0x03, 0x04, 0x05, 0x06, 0x07, 0x08, 0x0A, 0x0C, 0x0E, 0x0F]);
        if byte == 0x0F {
            return self.command(byte, &[]);
        }
        if self.cabinets == 0 {
            return;
        }
        let (a, b) = (random.below(self.cabinets), random.below(self.cabinets));
        match byte {
            0x05 if a == b => {}
            0x06 | 0x07 if !self.joined(a, b) => {}
            0x05..=0x07 => self.command(byte, &[a, b]),
            0x08 | 0x0E if self.spans.is_empty() => {}
            0x08 => self.command(byte, &[random.below(self.spans.len())]),
            0x0E => self.command(byte, &[self.some_span(random)]),
            0x0C => self.ask_routes(random, a),
            _ => self.command(byte, &[a]),
        }
    }

    /// A command or question whose operands may be unknown, equal, in two districts or rings, an
    /// exchange already, or duct 0; a span may be that behind the last.
    fn any(&mut self, random: &mut Random) {
        if random.chance(20) && !self.exchanges.is_empty() {
            return self.command(0x09, &[*random.pick(&self.exchanges)]);
        }
        if random.chance(30) && self.cabinets > 0 {
            return self.command(0x0C, &[(); 2].map(|_| random.below(self.cabinets)));
        }
        let mut operands = [(); 3].map(|_| random.below(self.cabinets + 2));
        if random.chance(20) {
            operands[1] = operands[0];
        }
        if random.chance(50) {
            operands[2] = 0;
        }
        let byte = if random.chance(20) { 0x0B } else { random.pick(&COMMANDS[1..]).0 };
        if matches!(byte, 0x08 | 0x0D | 0x0E) {
            operands[0] = random.below(self.spans.len() + 2);
        }
        self.command(byte, &operands[..operand_count(byte)]);
    }

    /// Every question about exchanges.
    fn exchange_questions(&mut self) {
        (0..self.cabinets).for_each(|cabinet| self.command(0x0A, &[cabinet]));
        self.command(0x0F, &[]);
    }

    /// Every question that is accepted.
    pub fn sweep(&mut self) {
        for a in 0..self.cabinets {
            self.command(0x03, &[a]);
            self.command(0x04, &[a]);
            for b in 0..self.cabinets {
                if a != b {
                    self.command(0x05, &[a, b]);
                }
                if self.joined(a, b) {
                    self.command(0x06, &[a, b]);
                    self.command(0x07, &[a, b]);
                }
            }
            for b in self.others_of_ring(a) {
                self.command(0x0C, &[a, b]);
            }
        }
        for span in 0..self.spans.len() {
            self.command(0x08, &[span]);
            self.command(0x0E, &[span]);
        }
        self.exchange_questions();
    }
}

/// A layout of one of the styles, some with spans laid in ducts besides, or with parallel spans laid
/// apart, and the style's name.
fn layout(random: &mut Random) -> (&'static str, Layout) {
    let (name, style) = if random.chance(1) { MEDIUM } else { *random.pick(&STYLES) };
    let mut layout = style(random);
    let ducts = *random.pick(&DUCTS);
    match random.below(6) {
        0..=1 => {}
        2 => layout.part(),
        _ => {
            let percent = *random.pick(&[15, 50, 100]);
            layout.lay(random, percent, ducts);
        }
    }
    (name, layout)
}

/// A journal of one of the styles, with marks, records and questions between, and at the end of some more marks,
/// each followed by 0F; and the style's name.
pub fn styled(random: &mut Random) -> (&'static str, Writer) {
    let (name, layout) = layout(random);
    let late = random.chance(50);
    let marks = *random.pick(&[0, 5, 15, 50]);
    let records = *random.pick(&[0, 0, 10, 50, 150]);
    let days = *random.pick(&DAYS);
    let questions = *random.pick(&[0, 0, 10, 50, 150]);
    let often = |random: &mut Random, percent: usize| {
        percent / 100 + usize::from(random.chance(percent % 100))
    };
    let mut writer = Writer::new();
    if random.chance(10) {
        writer.command(0x0F, &[]);
    }
    if !late {
        (0..layout.cabinets).for_each(|_| writer.cabinet());
    }
    for &span in &layout.spans {
        writer.add_with_cabinets(span);
        if random.chance(marks) {
            writer.mark(random.below(writer.cabinets));
        }
        (0..often(random, records)).for_each(|_| writer.record_any(random, days));
        (0..often(random, questions)).for_each(|_| writer.question(random));
    }
    while writer.cabinets < layout.cabinets {
        writer.cabinet();
    }
    if layout.cabinets <= 8 && random.chance(50) {
        writer.sweep();
    }
    for _ in 0..*random.pick(&[0, 0, 1, 5]) {
        writer.mark(random.below(writer.cabinets));
        writer.command(0x0F, &[]);
    }
    (name, writer)
}

/// Some bytes changed, put in, taken out or cut off.
fn damage(random: &mut Random, bytes: &mut Vec<u8>) {
    for _ in 0..random.between(1, 4) {
        if bytes.is_empty() {
            return;
        }
        let at = random.below(bytes.len());
        match random.below(6) {
            0 => bytes[at] = random.number() as u8,
            1 => bytes[at] = random.below(0x11) as u8,
            2 => bytes.insert(at, random.below(0x11) as u8),
            3 => drop(bytes.remove(at)),
            4 => bytes[at] ^= 1 << random.below(8),
            _ => bytes.truncate(at),
        }
    }
}

/// Bytes that are commands now and then.
fn bare_bytes(random: &mut Random) -> Vec<u8> {
    let mut bytes = vec![0x01; random.below(6)];
    for _ in 0..random.below(60) {
        bytes.push(match random.below(100) {
            0..=4 => random.number() as u8,
            5..=14 => 0x00,
            _ => random.pick(&COMMANDS).0,
        });
    }
    bytes
}

/// A journal that is all accepted but for its last command perhaps, a damaged one, or bare bytes,
/// with capacities around what it takes and buffers of the least length or somewhat more; now and
/// then with a capacity outside its range or a buffer that is too short.
pub fn random_case(seed: u64) -> Case {
    let mut random = Random::new(seed);
    let (style, mut writer) = styled(&mut random);
    if random.chance(20) {
        writer.any(&mut random);
    }
    let mut journal = writer.bytes;
    let mut label = style.to_string();
    match random.below(10) {
        0..=1 => {
            damage(&mut random, &mut journal);
            label.push_str(", damaged");
        }
        2 => {
            journal = bare_bytes(&mut random);
            label = "bare bytes".to_string();
        }
        _ => {}
    }
    let (c, s) = capacities(&mut random, writer.cabinets, writer.spans.len());
    let mut case = Case::new(&format!("{label}, seed {seed}"), c, s, journal);
    case.answers = match random.below(10) {
        0..=1 => Room::Part(random.number()),
        2 => Room::Under(1),
        3..=4 => Room::Over(0),
        _ => Room::Over(random.below(40)),
    };
    case.work += random.below(5);
    case.report += random.below(4);
    match random.below(100) {
        0 => case.c = *random.pick(&[0, MOST_CABINETS + 1, u32::MAX]),
        1 => case.s = *random.pick(&[0, MOST_SPANS + 1, u32::MAX]),
        2 => case.work = random.below(work_needed(c, s)),
        3 => case.report = random.below(REPORT_NUMBERS),
        _ => {}
    }
    case
}

fn capacities(random: &mut Random, cabinets: usize, spans: usize) -> (u32, u32) {
    let near = |random: &mut Random, taken: usize, most: u32| match random.below(40) {
        0 => 1,
        1 => most,
        2..=5 => (taken as u32).saturating_sub(1).max(1),
        6..=20 => (taken as u32).max(1),
        _ => taken as u32 + 1 + random.below(20) as u32,
    };
    (near(random, cabinets, MOST_CABINETS), near(random, spans, MOST_SPANS))
}

/// Every list of so many spans from 02 between so many cabinets, in both directions.
fn lists_of_spans(cabinets: usize, spans: usize, each: &mut dyn FnMut(usize, Vec<Span>)) {
    let mut number = 0;
    layouts::every_list(&layouts::both_directions(cabinets), spans, &mut |spans| {
        each(number, spans);
        number += 1;
    });
}

/// Every list of so many spans between so many cabinets, by 02 and, where some are parallel, once more
/// with these laid apart.
pub fn every_list(cabinets: usize, spans: usize, each: &mut dyn FnMut(Case)) {
    lists_of_spans(cabinets, spans, &mut |number, spans| {
        let layout = Layout { cabinets, spans };
        if has_mates(&layout.spans) {
            each(with_marks(number, &layout.clone().parted()));
        }
        each(with_marks(number, &layout));
    });
}

/// A layout, followed by every question; then one cabinet after the other is marked, each mark followed
/// by every question about exchanges.
fn with_marks(number: usize, layout: &Layout) -> Case {
    let (cabinets, count) = (layout.cabinets, layout.spans.len());
    let mut writer = Writer::new();
    writer.enter(layout);
    writer.sweep();
    for i in 0..cabinets {
        writer.mark((number + i) % cabinets);
        writer.exchange_questions();
    }
    let label = format!("every list of {count} spans, number {number}");
    Case::new(&label, cabinets as u32, count.max(1) as u32, writer.bytes).returns(0)
}

/// Every list of so many spans between so many cabinets, each by 02 or in one of two ducts, and each
/// in both directions.
pub fn every_list_in_ducts(cabinets: usize, spans: usize, each: &mut dyn FnMut(Case)) {
    let mut number = 0;
    layouts::every_list_in_ducts(&layouts::both_directions(cabinets), 2, spans, &mut |spans| {
        each(with_record(number, Layout { cabinets, spans }));
        number += 1;
    });
}

/// The same with directions by turns.
pub fn every_list_by_turns(cabinets: usize, spans: usize, each: &mut dyn FnMut(Case)) {
    let mut number = 0;
    layouts::every_list_by_turns(cabinets, 2, spans, &mut |spans| {
        each(with_record(number, Layout { cabinets, spans }));
        number += 1;
    });
}

/// The same with one duct, in which some span has a mate. Of two lists that differ only in that 02 and the
/// duct are exchanged one comes: that whose first span is by 02, or the other, by turns.
pub fn every_list_with_mates(cabinets: usize, spans: usize, each: &mut dyn FnMut(Case)) {
    let mut number = 0;
    layouts::every_list_by_turns(cabinets, 1, spans, &mut |spans| {
        let turn = spans.iter().map(|span| span.a * span.b + span.a + span.b).sum::<usize>() % 2;
        if spans[0].duct == turn && has_mates(&spans) {
            each(with_record(number, Layout { cabinets, spans }));
            number += 1;
        }
    });
}

/// Has some span a mate?
pub fn has_mates(spans: &[Span]) -> bool {
    let mates = |i: usize| spans[..i].iter().any(|&span| of_one_duct(span, spans[i]));
    (0..spans.len()).any(mates)
}

/// A layout of which one cabinet is an exchange, and one span or none has a record, which is entered
/// behind it and before the next span; followed by every question.
fn with_record(number: usize, layout: Layout) -> Case {
    let (cabinets, count) = (layout.cabinets, layout.spans.len());
    let (day, metres) = (number % 3, METRES[number % METRES.len()]);
    let mut writer = Writer::new();
    writer.enter_marked(&Layout::of(cabinets), &[number % cabinets]);
    for (number_of_span, &span) in layout.spans.iter().enumerate() {
        writer.add(span);
        if number_of_span == number % (count + 1) {
            writer.record(Record { span: number_of_span, day, metres });
        }
    }
    writer.sweep();
    let label = format!("every list of {count} spans in ducts, number {number}");
    Case::new(&label, cabinets as u32, count.max(1) as u32, writer.bytes).returns(0)
}

/// Every list of so many spans between so many cabinets, parallel ones laid apart, with every one of these
/// cabinets marked before each span and after the last; every span is followed by every question about
/// exchanges.
pub fn every_mark(cabinets: usize, spans: usize, each: &mut dyn FnMut(Case)) {
    lists_of_spans(cabinets, spans, &mut |number, spans| {
        let spans = Layout { cabinets, spans }.parted().spans;
        for (marked, place) in (0..cabinets).flat_map(|a| (0..=spans.len()).map(move |i| (a, i))) {
            let mut writer = Writer::new();
            (0..cabinets).for_each(|_| writer.cabinet());
            for (i, &span) in spans.iter().enumerate() {
                if i == place {
                    writer.mark(marked);
                }
                writer.add(span);
                writer.exchange_questions();
            }
            writer.mark(marked);
            writer.exchange_questions();
            let label = format!("cabinet {marked} marked at span {place} of list {number}");
            let (c, s) = (cabinets as u32, spans.len() as u32);
            each(Case::new(&label, c, s, writer.bytes).returns(0));
        }
    });
}

/// Every list of so many spans between so many cabinets, each by 02 or in one of two ducts, with
/// directions by turns; behind each of them 0C of every two cabinets, which is answered exactly if
/// these share a ring by the definition word for word.
pub fn every_two_routes(cabinets: usize, spans: usize, each: &mut dyn FnMut(Case)) {
    let mut number = 0;
    layouts::every_list_by_turns(cabinets, 2, spans, &mut |spans| {
        let layout = Layout { cabinets, spans };
        for (a, b) in (0..cabinets).flat_map(|a| (0..cabinets).map(move |b| (a, b))) {
            if a != b {
                each(with_routes(number, &layout, a, b));
            }
        }
        number += 1;
    });
}

fn with_routes(number: usize, layout: &Layout, a: usize, b: usize) -> Case {
    let Layout { cabinets, ref spans } = *layout;
    let mut writer = Writer::new();
    writer.enter(layout);
    writer.command(0x0C, &[a, b]);
    let network = Network::new(cabinets, spans.clone());
    let answered = share_ring(Plant::of(&network), a, b);
    let label = format!("0C {a} {b} behind list {number} of {} spans", spans.len());
    let case = Case::new(&label, cabinets as u32, spans.len().max(1) as u32, writer.bytes);
    case.returns(if answered { 0 } else { 14 })
}

/// A small journal, to be run with every length of the answer buffer.
pub fn small(seed: u64) -> Case {
    let mut random = Random::new(seed);
    let cabinets = random.between(2, 5);
    let count = random.between(0, 7);
    let mut layout = random_spans(&mut random, cabinets, count);
    let ducts = *random.pick(&DUCTS);
    match random.below(4) {
        0 => {}
        1 => layout.part(),
        many => layout.lay(&mut random, 50 * (many - 1), ducts),
    }
    let days = *random.pick(&DAYS);
    let mut writer = Writer::new();
    for &span in &layout.spans {
        writer.add_with_cabinets(span);
        if random.chance(30) {
            writer.mark(random.below(writer.cabinets));
        }
        (0..random.below(3)).for_each(|_| writer.record_any(&mut random, days));
        (0..random.below(3)).for_each(|_| writer.question(&mut random));
    }
    if random.chance(20) {
        let byte = *random.pick(&[0x08, 0x0D, 0x0E]);
        let unknown = writer.spans.len();
        writer.command(byte, &[unknown, 1, 1][..operand_count(byte)]);
    }
    let label = format!("small, seed {seed}");
    Case::new(&label, cabinets as u32, count.max(1) as u32, writer.bytes)
}

/// Networks of the greatest size, each with some exchanges, and with records and questions at the end.
pub fn large(seed: u64, layout: &Layout) -> Vec<u8> {
    let mut random = Random::new(seed);
    let mut writer = Writer::new();
    let marked = [(); 20].map(|_| random.below(layout.cabinets));
    writer.enter_marked(layout, &marked);
    (0..200).for_each(|_| writer.record_any(&mut random, &[0, 1, 2]));
    while writer.bytes.len() < 60_000 {
        writer.question(&mut random);
    }
    writer.bytes
}
