//! The definitions of document 01, with the exchanges, the ducts, the routes, the survey lengths and the sizes
//! of document 02's requests 2, 3, 5, 6, 7 and 8, word for word, for small networks: every loss is tried,
//! every simple cycle and every route is searched for, every two records are compared. Slow on purpose.

use crate::pairs::Pair;
use crate::second::groups::Network;
use crate::second::mates::Rule;
use crate::second::surveys::Record;
use crate::spans::Span;

/// Which spans are mates.
pub type Mates = fn(Span, Span) -> bool;

/// Document 01 knows no mates.
pub fn never(_: Span, _: Span) -> bool {
    false
}

/// All 02 spans between the same two cabinets are mates of each other, and of no 0B span; 0B spans are
/// as by the rule below.
pub fn of_one_duct(one: Span, other: Span) -> bool {
    let from_02 = one.duct == 0 && other.duct == 0;
    (from_02 && have_same_ends(one, other)) || of_one_told_duct(one, other)
}

/// Spans of one duct between the same two cabinets, in either direction, are mates. A span from 02
/// has no mate: the rule before document 02's seventh request.
pub fn of_one_told_duct(one: Span, other: Span) -> bool {
    let from_0b = one.duct != 0 && other.duct != 0;
    from_0b && one.duct == other.duct && have_same_ends(one, other)
}

fn have_same_ends(one: Span, other: Span) -> bool {
    (one.a, one.b) == (other.a, other.b) || (one.a, one.b) == (other.b, other.a)
}

/// The definition word for word of a rule.
pub fn mates(rule: Rule) -> Mates {
    match rule {
        Rule::OneDuct => of_one_duct,
        Rule::NoMate => of_one_told_duct,
    }
}

/// A network, and which of its spans are mates.
#[derive(Clone, Copy)]
pub struct Plant<'a> {
    pub network: &'a Network,
    pub mates: Mates,
}

impl<'a> Plant<'a> {
    /// The network as document 02 sees it, by the network's rule of mates.
    pub fn of(network: &'a Network) -> Plant<'a> {
        Plant { network, mates: mates(network.rule) }
    }

    /// The network as document 01 sees it: the ducts mean nothing.
    pub fn without_mates(network: &'a Network) -> Plant<'a> {
        Plant { network, mates: never }
    }

    fn spans(self) -> std::ops::Range<usize> {
        0..self.network.spans.len()
    }

    /// Are these two different spans mates?
    fn are_mates(self, s: usize, t: usize) -> bool {
        s != t && (self.mates)(self.network.spans[s], self.network.spans[t])
    }

    /// A span without mates is a set by itself.
    fn in_one_set(self, s: usize, t: usize) -> bool {
        s == t || self.are_mates(s, t)
    }

    /// Has the span the least number of its set of mates?
    fn is_least(self, span: usize) -> bool {
        self.spans().filter(|&mate| self.in_one_set(span, mate)).min() == Some(span)
    }
}

/// Cabinets joined by some walk over the spans that are not lost.
pub fn joined(network: &Network, lost: &dyn Fn(usize) -> bool, a: usize, b: usize) -> bool {
    let mut met = vec![false; network.cabinets];
    met[a] = true;
    loop {
        let mut grew = false;
        for (number, &span) in network.spans.iter().enumerate() {
            if !lost(number) && met[span.a] != met[span.b] {
                met[span.a] = true;
                met[span.b] = true;
                grew = true;
            }
        }
        if !grew {
            return met[b];
        }
    }
}

/// To lose a span is to lose its mates with it.
fn joined_without_span(plant: Plant, lost: usize, a: usize, b: usize) -> bool {
    joined(plant.network, &|span| plant.in_one_set(span, lost), a, b)
}

fn joined_without_cabinet(plant: Plant, removed: usize, a: usize, b: usize) -> bool {
    let spans = &plant.network.spans;
    joined(plant.network, &|span| spans[span].touches(removed), a, b)
}

pub fn share_district(plant: Plant, a: usize, b: usize) -> bool {
    joined(plant.network, &|_| false, a, b)
}

/// They share a district, and still do after the loss of any single span.
pub fn share_ring(plant: Plant, a: usize, b: usize) -> bool {
    share_district(plant, a, b) && plant.spans().all(|span| joined_without_span(plant, span, a, b))
}

/// Do two cabinets share a group?
pub type Share = fn(Plant, usize, usize) -> bool;

/// The size of a cabinet's group, which is a district or a ring: how many cabinets share it.
pub fn size(plant: Plant, share: Share, cabinet: usize) -> usize {
    (0..plant.network.cabinets).filter(|&other| share(plant, cabinet, other)).count()
}

/// The sum of the sizes of all rings of a cabinet's district, each counted once: for the least cabinet that
/// shares it.
pub fn sum_of_rings(plant: Plant, cabinet: usize) -> usize {
    let inside = (0..plant.network.cabinets).filter(|&a| share_district(plant, cabinet, a));
    let is_least = |a: usize| (0..a).all(|lesser| !share_ring(plant, lesser, a));
    inside.filter(|&a| is_least(a)).map(|a| size(plant, share_ring, a)).sum()
}

/// Some exchange shares the cabinet's ring.
pub fn is_fed(plant: Plant, exchanges: &[usize], cabinet: usize) -> bool {
    exchanges.iter().any(|&exchange| share_ring(plant, exchange, cabinet))
}

/// The share of all cabinets whose ring holds an exchange, in thousandths; 0 for an empty network.
pub fn fed_share(plant: Plant, exchanges: &[usize]) -> usize {
    let cabinets = plant.network.cabinets;
    let fed = (0..cabinets).filter(|&cabinet| is_fed(plant, exchanges, cabinet)).count();
    nearest_share(fed, cabinets)
}

/// Of 0 to 1000 thousandths the number that no other is nearer to so many of so many than, of two equally
/// near the even one; 0 of none.
pub fn nearest_share(part: usize, whole: usize) -> usize {
    if whole == 0 {
        return 0;
    }
    let distance = |thousandths: usize| (thousandths * whole).abs_diff(1000 * part);
    (0..=1000).min_by_key(|&one| (distance(one), one % 2)).unwrap_or(0)
}

/// One span, or mates, or some simple cycle that uses at most one of a set of mates holds both.
pub fn share_mesh(plant: Plant, s: usize, t: usize) -> bool {
    plant.in_one_set(s, t) || Cycle::new(plant, s, t).closes(plant.network.spans[s].a)
}

/// The search for a simple cycle through the spans s and t: a way from one end of s to the other
/// that holds t, takes no cabinet twice, and takes neither s nor two of a set of mates.
struct Cycle<'a> {
    plant: Plant<'a>,
    t: usize,
    end: usize,
    /// The cabinets on the way, and the spans of the cycle so far.
    met: Vec<usize>,
    taken: Vec<usize>,
}

impl<'a> Cycle<'a> {
    fn new(plant: Plant<'a>, s: usize, t: usize) -> Cycle<'a> {
        let end = plant.network.spans[s].b;
        Cycle { plant, t, end, met: Vec::new(), taken: vec![s] }
    }

    fn closes(&mut self, here: usize) -> bool {
        if here == self.end {
            return self.taken.contains(&self.t);
        }
        self.met.push(here);
        let found = self.plant.spans().any(|span| self.goes_on(here, span));
        self.met.pop();
        found
    }

    fn goes_on(&mut self, here: usize, number: usize) -> bool {
        let span = self.plant.network.spans[number];
        if !span.touches(here) || self.taken.iter().any(|&s| self.plant.in_one_set(s, number)) {
            return false;
        }
        let there = if span.a == here { span.b } else { span.a };
        self.taken.push(number);
        let found = !self.met.contains(&there) && self.closes(there);
        self.taken.pop();
        found
    }
}

/// The spans at b whose mesh also has a span at a.
pub fn spans_of_shared_mesh(plant: Plant, a: usize, b: usize) -> Vec<usize> {
    let at = |cabinet: usize| {
        plant.spans().filter(move |&span| plant.network.spans[span].touches(cabinet))
    };
    at(b).filter(|&t| at(a).any(|s| share_mesh(plant, s, t))).collect()
}

/// The loss of the span parts a and b: they are joined, and no longer without it and its mates.
fn span_parts(plant: Plant, span: usize, a: usize, b: usize) -> bool {
    share_district(plant, a, b) && !joined_without_span(plant, span, a, b)
}

fn cabinet_parts(plant: Plant, cabinet: usize, a: usize, b: usize) -> bool {
    cabinet != a
        && cabinet != b
        && share_district(plant, a, b)
        && !joined_without_cabinet(plant, cabinet, a, b)
}

pub fn is_sole(plant: Plant, span: usize) -> bool {
    let Span { a, b, .. } = plant.network.spans[span];
    span_parts(plant, span, a, b)
}

/// Every set of mates whose loss parts a and b, once and by its least number; s comes before t if,
/// with t lost, both ends of s are still joined to a.
pub fn sole_spans(plant: Plant, a: usize, b: usize) -> Vec<usize> {
    let sets = plant.spans().filter(|&span| plant.is_least(span));
    let sole = sets.filter(|&span| span_parts(plant, span, a, b));
    in_order(sole.collect(), |s, t| {
        let span = plant.network.spans[s];
        joined_without_span(plant, t, span.a, a) && joined_without_span(plant, t, span.b, a)
    })
}

/// Cut cabinets between a and b; c comes before d if, with d removed, c is still joined to a.
pub fn cut_cabinets(plant: Plant, a: usize, b: usize) -> Vec<usize> {
    let cabinets = 0..plant.network.cabinets;
    let cut = cabinets.filter(|&cabinet| cabinet_parts(plant, cabinet, a, b));
    in_order(cut.collect(), |c, d| joined_without_cabinet(plant, d, c, a))
}

/// Puts each item behind all that come before it.
fn in_order(items: Vec<usize>, before: impl Fn(usize, usize) -> bool) -> Vec<usize> {
    let place = |item: usize| items.iter().filter(|&&o| o != item && before(o, item)).count();
    let mut ordered = items.clone();
    ordered.sort_by_key(|&item| place(item));
    let places: Vec<usize> = ordered.iter().map(|&item| place(item)).collect();
    assert!(places.iter().copied().eq(0..items.len()), "the order is strict and total");
    ordered
}

/// Every route from a to b, a way without a repeated cabinet, as its spans in travelling order.
pub fn routes(plant: Plant, a: usize, b: usize) -> Vec<Vec<usize>> {
    let mut found = Vec::new();
    go_on(plant, b, &mut vec![a], &mut Vec::new(), &mut found);
    found
}

/// Goes on to b in every way from the last of the cabinets met, over these spans so far.
fn go_on(
    plant: Plant,
    b: usize,
    met: &mut Vec<usize>,
    taken: &mut Vec<usize>,
    found: &mut Vec<Vec<usize>>,
) {
    let here = met[met.len() - 1];
    if here == b {
        return found.push(taken.clone());
    }
    for number in plant.spans() {
        let span = plant.network.spans[number];
        for (from, there) in [(span.a, span.b), (span.b, span.a)] {
            if from == here && !met.contains(&there) {
                met.push(there);
                taken.push(number);
                go_on(plant, b, met, taken, found);
                taken.pop();
                met.pop();
            }
        }
    }
}

/// Every two routes from a to b such that no span of one is a span or a mate of a span of the other.
pub fn pairs(plant: Plant, a: usize, b: usize) -> Vec<Pair> {
    let routes = routes(plant, a, b);
    let meet = |one: &[usize], other: &[usize]| {
        one.iter().any(|&s| other.iter().any(|&t| plant.in_one_set(s, t)))
    };
    let beside = |one: &Vec<usize>| {
        let apart = routes.iter().filter(|other| !meet(one, other));
        apart.map(|other| [one.clone(), other.clone()]).collect::<Vec<Pair>>()
    };
    routes.iter().flat_map(beside).collect()
}

/// The length of a span by these records, in their order of entry: the metres of the record that holds;
/// none while no record exists. A record holds if every other one of its span is of an earlier day, or
/// of the same day and entered after it.
pub fn length(records: &[Record], span: usize) -> Option<usize> {
    let entered = || records.iter().enumerate().filter(|(_, record)| record.span == span);
    let gives_way = |(j, other): (usize, &Record), (i, record): (usize, &Record)| {
        other.day < record.day || (other.day == record.day && j >= i)
    };
    let mut holding = entered().filter(|&one| entered().all(|other| gives_way(other, one)));
    let length = holding.next().map(|(_, record)| record.metres);
    assert!(holding.next().is_none(), "one record holds");
    assert_eq!(length.is_none(), entered().next().is_none(), "one holds where there is any");
    length
}

/// The names after a span, of the items numbered from 0: `without` and `with` say whether two
/// items share a group without the span and with it.
pub fn renamed(
    names: &[usize],
    without: &dyn Fn(usize, usize) -> bool,
    with: &dyn Fn(usize, usize) -> bool,
) -> Vec<usize> {
    let items = 0..names.len();
    let size = |x: usize| items.clone().filter(|&y| without(x, y)).count();
    let name_after = |x: usize| {
        let held: Vec<usize> = items.clone().filter(|&y| with(x, y)).collect();
        if held.iter().all(|&y| without(x, y)) {
            return names[x];
        }
        let largest = held.iter().map(|&y| size(y)).max().unwrap_or(0);
        let largest_ones = held.iter().filter(|&&y| size(y) == largest);
        largest_ones.map(|&y| names[y]).min().unwrap_or(names[x])
    };
    items.clone().map(name_after).collect()
}

/// The network in which each set of mates is one span, its least, which has no mates then.
pub struct Reduced {
    pub network: Network,
    /// For each span of the reduced network its number in the whole one.
    pub number: Vec<usize>,
    /// For each span of the whole network the span of the reduced one that its set has become.
    pub stands_for: Vec<usize>,
}

pub fn reduced(network: &Network) -> Reduced {
    let plant = Plant::of(network);
    let number: Vec<usize> = plant.spans().filter(|&span| plant.is_least(span)).collect();
    let kept_of = |span: usize| number.iter().position(|&kept| plant.in_one_set(kept, span));
    let stands_for =
        plant.spans().map(|span| kept_of(span).expect("every set has a least")).collect();
    let bare = |&kept: &usize| Span { duct: 0, ..network.spans[kept] };
    let spans = number.iter().map(bare).collect();
    Reduced { network: Network { spans, ..network.clone() }, number, stands_for }
}
