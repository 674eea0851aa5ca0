//! Networks to write journals from: a number of cabinets and the spans in their order of entry.

use crate::random::Random;
use crate::spans::Span;

#[derive(Clone, Debug, Default)]
pub struct Layout {
    pub cabinets: usize,
    pub spans: Vec<Span>,
}

impl Layout {
    pub fn of(cabinets: usize) -> Layout {
        Layout { cabinets, spans: Vec::new() }
    }

    fn add(&mut self, a: usize, b: usize) {
        if a != b {
            self.spans.push(Span::new(a, b));
        }
    }

    /// A chain of so many cabinets from `first` on.
    fn chain(&mut self, first: usize, size: usize) {
        for cabinet in first + 1..first + size {
            self.add(cabinet - 1, cabinet);
        }
    }

    /// A way from one cabinet to another over so many new ones.
    fn way(&mut self, from: usize, to: usize, between: usize) {
        let mut last = from;
        for _ in 0..between {
            self.cabinets += 1;
            self.add(last, self.cabinets - 1);
            last = self.cabinets - 1;
        }
        self.add(last, to);
    }

    /// Enters the spans in another order in `percent` of a hundred cases, adds spans between any
    /// two cabinets, from `least` to `most` of them, and gives the cabinets other numbers.
    fn mixed(mut self, random: &mut Random, percent: usize, least: usize, most: usize) -> Layout {
        if random.chance(percent) {
            random.shuffle(&mut self.spans);
        }
        for _ in 0..random.between(least, most) {
            self.add(random.below(self.cabinets), random.below(self.cabinets));
        }
        self.renumber(random);
        self
    }

    /// Gives the cabinets other numbers, and turns some spans round.
    fn renumber(&mut self, random: &mut Random) {
        let mut numbers: Vec<usize> = (0..self.cabinets).collect();
        random.shuffle(&mut numbers);
        for span in &mut self.spans {
            *span = Span { a: numbers[span.a], b: numbers[span.b], ..*span };
            if random.chance(50) {
                *span = span.turned();
            }
        }
    }

    /// Lays spans from 02 into one of these ducts, each in `percent` of a hundred cases.
    pub fn lay(&mut self, random: &mut Random, percent: usize, ducts: &[usize]) {
        for span in self.spans.iter_mut().filter(|span| span.duct == 0) {
            if random.chance(percent) {
                span.duct = *random.pick(ducts);
            }
        }
    }

    /// Lays each span from 02 that lies beside an earlier one into a duct of its own number, so that the
    /// two are no mates.
    pub fn part(&mut self) {
        for number in 1..self.spans.len() {
            let span = self.spans[number];
            let lies_beside = |other: &Span| other.duct == 0 && other.lies_beside(span);
            if span.duct == 0 && self.spans[..number].iter().any(lies_beside) {
                self.spans[number].duct = number;
            }
        }
    }

    /// The same layout with parallel spans laid apart.
    pub fn parted(mut self) -> Layout {
        self.part();
        self
    }
}

/// Ducts to lay spans in: few at a time, so that there are mates. Some differ in one byte alone.
pub const DUCTS: [&[usize]; 6] =
    [&[1], &[1, 2], &[5, 6, 7], &[0x0100, 0x0200], &[0x0001, 0x0101, 0xFF01], &[0xFFFF, 0xFFFE]];

/// A style's name, and how a layout of it is made.
pub type Style = (&'static str, fn(&mut Random) -> Layout);

pub const STYLES: [Style; 15] = [
    ("dense", dense),
    ("sparse", sparse),
    ("tree-like", tree_like),
    ("doubled spans", doubled),
    ("equal sizes", equal_sizes),
    ("pairwise doubling", pairwise),
    ("loops at cut cabinets", cactus),
    ("chain then loops", chain_and_loops),
    ("loop of loops", loop_of_loops),
    ("ladder of equal loops", equal_loops),
    ("sets of mates", sets_of_mates),
    ("loops of mates", loops_of_mates),
    ("ladders", ladders),
    ("short cuts", short_cuts),
    ("sixteens", sixteens),
];

/// Some hundred cabinets: a chain then loops, random spans, or pairwise doubling.
pub const MEDIUM: Style = ("medium size", medium);

fn medium(random: &mut Random) -> Layout {
    let cabinets = random.between(100, 400);
    let mut layout = match random.below(3) {
        0 => chain_then_loops(random, cabinets, cabinets / 2),
        1 => random_spans(random, cabinets, cabinets + cabinets / 2),
        _ => doubling(random, 256, 2),
    };
    layout.renumber(random);
    layout
}

fn dense(random: &mut Random) -> Layout {
    let cabinets = random.between(2, 9);
    let spans = random.between(cabinets, 4 * cabinets);
    random_spans(random, cabinets, spans)
}

fn sparse(random: &mut Random) -> Layout {
    let cabinets = random.between(2, 40);
    let spans = random.between(cabinets / 2, cabinets + 4);
    random_spans(random, cabinets, spans)
}

/// So many spans, each between two cabinets taken at random.
pub fn random_spans(random: &mut Random, cabinets: usize, spans: usize) -> Layout {
    let mut layout = Layout::of(cabinets);
    while layout.spans.len() < spans {
        layout.add(random.below(cabinets), random.below(cabinets));
    }
    layout
}

fn tree_like(random: &mut Random) -> Layout {
    let cabinets = random.between(2, 30);
    let mut layout = Layout::of(cabinets);
    let reach = random.between(1, cabinets);
    for cabinet in 1..cabinets {
        layout.add(cabinet, cabinet - 1 - random.below(reach.min(cabinet)));
    }
    layout.mixed(random, 60, 0, 5)
}

fn doubled(random: &mut Random) -> Layout {
    let cabinets = random.between(2, 12);
    let mut layout = Layout::of(cabinets);
    for _ in 0..random.between(1, 2 * cabinets) {
        let old = layout.spans.len();
        if old > 0 && random.chance(50) {
            layout.spans.push(layout.spans[random.below(old)].turned());
        } else {
            layout.add(random.below(cabinets), random.below(cabinets));
        }
    }
    layout
}

/// Several groups of one size, chains or loops, joined at random.
fn equal_sizes(random: &mut Random) -> Layout {
    let (groups, size) = (random.between(2, 7), random.between(1, 4));
    let cabinets = groups * size;
    let mut layout = Layout::of(cabinets);
    let closed = random.chance(60);
    for group in 0..groups {
        layout.chain(group * size, size);
        if closed && size > 1 {
            layout.add(group * size + size - 1, group * size);
        }
    }
    layout.mixed(random, 50, 1, 2 * groups)
}

fn pairwise(random: &mut Random) -> Layout {
    let (levels, ways) = (random.between(1, 5), random.between(1, 2));
    let mut layout = doubling(random, 1 << levels, ways);
    layout.renumber(random);
    layout
}

/// Groups of one size are joined in pairs, by one or two spans, until one is left. The number of
/// cabinets is a power of 2.
pub fn doubling(random: &mut Random, cabinets: usize, ways: usize) -> Layout {
    let mut layout = Layout::of(cabinets);
    let mut size = 1;
    while size < cabinets {
        let mut level = Vec::new();
        for start in (0..cabinets).step_by(2 * size) {
            for _ in 0..ways {
                let (a, b) = (start + random.below(size), start + size + random.below(size));
                level.push(Span::new(a, b));
            }
        }
        random.shuffle(&mut level);
        layout.spans.extend(level);
        size *= 2;
    }
    layout
}

/// Loops that hang at each other by single cabinets.
fn cactus(random: &mut Random) -> Layout {
    let mut layout = Layout::of(1);
    for _ in 0..random.between(1, 7) {
        let start = random.below(layout.cabinets);
        let mut last = start;
        for _ in 0..random.between(1, 4) {
            layout.cabinets += 1;
            layout.add(last, layout.cabinets - 1);
            last = layout.cabinets - 1;
        }
        if random.chance(75) {
            layout.add(last, start);
        }
    }
    layout.mixed(random, 50, 0, 3)
}

fn chain_and_loops(random: &mut Random) -> Layout {
    let cabinets = random.between(2, 40);
    let loops = random.below(cabinets);
    let mut layout = chain_then_loops(random, cabinets, loops);
    if random.chance(70) {
        layout.renumber(random);
    }
    layout
}

/// A chain from end to end, then spans between cabinets of it.
pub fn chain_then_loops(random: &mut Random, cabinets: usize, loops: usize) -> Layout {
    let mut layout = chain(cabinets);
    while layout.spans.len() < cabinets - 1 + loops {
        let start = random.below(cabinets);
        let reach = random.between(1, 16.min(cabinets));
        layout.add(start, (start + reach).min(cabinets - 1));
    }
    layout
}

pub fn chain(cabinets: usize) -> Layout {
    let mut layout = Layout::of(cabinets);
    layout.chain(0, cabinets);
    layout
}

/// Every other cabinet is joined to the first, `ways` times.
pub fn star(cabinets: usize, ways: usize) -> Layout {
    let mut layout = Layout::of(cabinets);
    for _ in 0..ways {
        for cabinet in 1..cabinets {
            layout.add(0, cabinet);
        }
    }
    layout
}

/// Loops of one or of several sizes, joined to one great loop: its last span makes all of them one.
fn loop_of_loops(random: &mut Random) -> Layout {
    let loops = random.between(2, 6);
    let same = random.between(1, 4);
    let equal = random.chance(60);
    let mut layout = Layout::of(0);
    let mut doors = Vec::new();
    for _ in 0..loops {
        let size = if equal { same } else { random.between(1, 5) };
        let first = layout.cabinets;
        layout.cabinets += size;
        layout.chain(first, size);
        layout.add(first + size - 1, first);
        doors.push((first + random.below(size), first + random.below(size)));
    }
    random.shuffle(&mut layout.spans);
    for i in 0..loops {
        layout.add(doors[i].1, doors[(i + 1) % loops].0);
    }
    layout.renumber(random);
    layout
}

/// Loops of one size that share a cabinet with the next; spans between far ones then join several.
fn equal_loops(random: &mut Random) -> Layout {
    let (loops, size) = (random.between(2, 6), random.between(2, 4));
    let mut layout = Layout::of(loops * (size - 1) + 1);
    for i in 0..loops {
        let first = i * (size - 1);
        for j in 0..size {
            layout.add(first + j, first + (j + 1) % size);
        }
    }
    layout.mixed(random, 50, 1, 4)
}

/// Few pairs of cabinets with many spans each: most of them mates, the others in another duct or from
/// 02.
fn sets_of_mates(random: &mut Random) -> Layout {
    let cabinets = random.between(2, 7);
    let mut links = Layout::of(cabinets);
    for cabinet in 1..cabinets {
        links.add(random.below(cabinet), cabinet);
    }
    for _ in 0..random.below(3) {
        links.add(random.below(cabinets), random.below(cabinets));
    }
    let ducts = *random.pick(&DUCTS);
    links.lay(random, 90, ducts);
    let strays = *random.pick(&[0, 5, 25]);
    let mut layout = Layout::of(cabinets);
    for _ in 0..random.between(cabinets, 5 * cabinets) {
        let mut span = *random.pick(&links.spans);
        if random.chance(strays) {
            span.duct = *random.pick(&[0, ducts[0], ducts[ducts.len() - 1]]);
        }
        layout.spans.push(span);
    }
    layout.renumber(random);
    layout
}

/// Chains whose links are sets of mates, closed or not, and joined at cabinets; most links in one
/// duct all along, entered in any order or link by link.
fn loops_of_mates(random: &mut Random) -> Layout {
    let mut layout = Layout::of(1);
    let ducts = *random.pick(&DUCTS);
    for _ in 0..random.between(1, 3) {
        let start = random.below(layout.cabinets);
        let (first, links) = (layout.cabinets, random.between(1, 4));
        layout.cabinets += links;
        let mut round: Vec<usize> = (first..first + links).collect();
        round.insert(0, start);
        if random.chance(60) {
            round.push(start);
        }
        for link in round.windows(2) {
            let duct = if random.chance(85) { *random.pick(ducts) } else { 0 };
            let span = Span::in_duct(link[0], link[1], duct);
            layout.spans.extend(vec![span; random.between(1, 4)]);
        }
    }
    layout.mixed(random, 70, 0, 2)
}

/// Two chains of so many cabinets each, and a rung between each two of them.
pub fn ladder(rungs: usize) -> Layout {
    let mut layout = Layout::of(2 * rungs);
    layout.chain(0, rungs);
    layout.chain(rungs, rungs);
    for rung in 0..rungs {
        layout.add(rung, rungs + rung);
    }
    layout
}

/// Ladders that lack some of their spans, one behind the other, some joined by a cabinet, others by a
/// span; few spans beside, most of these mates.
fn ladders(random: &mut Random) -> Layout {
    let mut layout = Layout::of(1);
    let lacking = *random.pick(&[0, 10, 30]);
    for _ in 0..random.between(1, 3) {
        let first = layout.cabinets - usize::from(random.chance(70));
        let next = ladder(random.between(1, 6));
        if first == layout.cabinets {
            layout.add(random.below(first), first);
        }
        layout.cabinets = first + next.cabinets;
        for Span { a, b, .. } in next.spans {
            if !random.chance(lacking) {
                layout.add(first + a, first + b);
            }
        }
    }
    layout.lay(random, 40, &[1, 2]);
    for _ in 0..random.below(4) {
        if let Some(&span) = layout.spans.get(random.below(layout.spans.len().max(1))) {
            layout.spans.push(span);
        }
    }
    layout.mixed(random, 50, 0, 2)
}

/// Two long ways from end to end, and several short ones from the first cabinet of one to the last of
/// the other. The shortest way takes one of these; two routes that are apart take none, or one there
/// and another back.
fn short_cuts(random: &mut Random) -> Layout {
    let mut layout = Layout::of(4);
    let [start, end, one, other] = [0, 1, 2, 3];
    layout.way(start, one, random.below(2));
    layout.way(other, end, random.below(2));
    let short = random.below(3);
    for _ in 0..random.between(1, 3) {
        layout.way(one, other, short);
    }
    for (from, to) in [(one, end), (start, other)] {
        let between = random.between(1, 5);
        layout.way(from, to, between);
    }
    layout.mixed(random, 80, 0, 1)
}

/// Small loops and cabinets by themselves, a multiple of 16 in all, so that a share of them can be an exact
/// half: each is 62.5 thousandths of 16, and 12.5 of 80.
fn sixteens(random: &mut Random) -> Layout {
    let mut layout = Layout::of(*random.pick(&[16, 32, 48, 80]));
    let mut first = 0;
    for _ in 0..random.between(2, 5) {
        let size = random.between(2, 3);
        layout.chain(first, size);
        layout.add(first + size - 1, first);
        first += size;
    }
    layout.mixed(random, 50, 0, 4)
}

/// Every list of `count` of these.
pub fn every_list<T: Copy>(choices: &[T], count: usize, each: &mut dyn FnMut(Vec<T>)) {
    let most = choices.len();
    for code in 0..most.pow(count as u32) {
        each((0..count as u32).map(|i| choices[code / most.pow(i) % most]).collect());
    }
}

/// The spans between so many cabinets, in both directions.
pub fn both_directions(cabinets: usize) -> Vec<Span> {
    let from = |a: usize| (0..cabinets).filter(move |&b| a != b).map(move |b| Span::new(a, b));
    (0..cabinets).flat_map(from).collect()
}

/// The spans between so many cabinets, each from less to greater.
pub fn rising(cabinets: usize) -> Vec<Span> {
    (0..cabinets).flat_map(|b| (0..b).map(move |a| Span::new(a, b))).collect()
}

/// Every list of `count` of these spans, each by 02 or in one of so many ducts, one or two, numbered
/// from 1. Lists that differ only in that two ducts are exchanged come once: the first span in a duct
/// is in duct 1.
pub fn every_list_in_ducts(
    spans: &[Span],
    ducts: usize,
    count: usize,
    each: &mut dyn FnMut(Vec<Span>),
) {
    let in_each = |&span: &Span| (0..=ducts).map(move |duct| Span { duct, ..span });
    let choices: Vec<Span> = spans.iter().flat_map(in_each).collect();
    every_list(&choices, count, &mut |list| {
        let first = list.iter().map(|span| span.duct).find(|&duct| duct != 0);
        if first.is_none_or(|duct| duct == 1) {
            each(list);
        }
    });
}

/// The same between so many cabinets, with directions by turns: the first span goes from less to
/// greater, the second from greater to less, and so on.
pub fn every_list_by_turns(
    cabinets: usize,
    ducts: usize,
    count: usize,
    each: &mut dyn FnMut(Vec<Span>),
) {
    every_list_in_ducts(&rising(cabinets), ducts, count, &mut |mut spans| {
        spans.iter_mut().skip(1).step_by(2).for_each(|span| *span = span.turned());
        each(spans);
    });
}
