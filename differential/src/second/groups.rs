//! Districts, rings and meshes of a network, computed from its list of spans alone. To lose a span
//! is to lose its mates with it.
//!
//! Groups are given by labels: two items share a group exactly if their labels agree.

use super::mates::{Misduct, Rule};
use crate::kinds::ByKind;
use crate::spans::Span;

/// Cabinets 0, 1, 2 and on, and the spans in the order of arrival.
#[derive(Clone, Default, Debug)]
pub struct Network {
    pub cabinets: usize,
    pub spans: Vec<Span>,
    /// Which of the spans are mates.
    pub rule: Rule,
    /// A fault in what is made of the ducts.
    pub fault: Option<Misduct>,
}

impl Network {
    pub fn new(cabinets: usize, spans: Vec<Span>) -> Network {
        Network { cabinets, spans, ..Network::default() }
    }

    /// The same by another rule of mates.
    pub fn by(self, rule: Rule) -> Network {
        Network { rule, ..self }
    }
}

/// A label for each cabinet (districts, rings) or for each span (meshes).
pub type Labels = Vec<usize>;

pub const NONE: usize = usize::MAX;

/// The three groupings of a network.
pub fn groups(network: &Network) -> ByKind<Labels> {
    let near = Near::of(network);
    let passed = Passed::through(network, &near);
    ByKind {
        district: joined_over(&near, |_| true),
        ring: joined_over(&near, |span| !passed.sole[span]),
        mesh: passed.mesh,
    }
}

/// A step from a cabinet: the span taken, and the cabinet that it leads to.
#[derive(Clone, Copy, PartialEq, Eq, Debug)]
pub struct Step {
    pub span: usize,
    pub to: usize,
}

/// The steps from each cabinet, one after the other in one list.
pub struct Near {
    first: Vec<usize>,
    steps: Vec<Step>,
}

impl Near {
    pub fn of(network: &Network) -> Near {
        let mut first = vec![0; network.cabinets + 1];
        for &Span { a, b, .. } in &network.spans {
            first[a + 1] += 1;
            first[b + 1] += 1;
        }
        for cabinet in 0..network.cabinets {
            first[cabinet + 1] += first[cabinet];
        }
        let mut next = first.clone();
        let mut steps = vec![Step { span: NONE, to: NONE }; 2 * network.spans.len()];
        for (span, &Span { a, b, .. }) in network.spans.iter().enumerate() {
            steps[next[a]] = Step { span, to: b };
            next[a] += 1;
            steps[next[b]] = Step { span, to: a };
            next[b] += 1;
        }
        Near { first, steps }
    }

    pub fn from(&self, cabinet: usize) -> &[Step] {
        &self.steps[self.first[cabinet]..self.first[cabinet + 1]]
    }

    fn cabinets(&self) -> usize {
        self.first.len() - 1
    }
}

/// Cabinets joined by some walk over the spans allowed. The label is the least cabinet.
fn joined_over(near: &Near, allowed: impl Fn(usize) -> bool) -> Labels {
    let mut label = vec![NONE; near.cabinets()];
    let mut waiting = Vec::new();
    for start in 0..near.cabinets() {
        if label[start] != NONE {
            continue;
        }
        label[start] = start;
        waiting.push(start);
        while let Some(here) = waiting.pop() {
            for step in near.from(here) {
                if allowed(step.span) && label[step.to] == NONE {
                    label[step.to] = start;
                    waiting.push(step.to);
                }
            }
        }
    }
    label
}

/// What one passage through the network, into the depth, finds by low points: the spans whose
/// loss parts their own ends, and the mesh of each span.
///
/// The low point of a cabinet is the earliest cabinet that can be reached from it, or from one
/// reached through it, when the span that led there is lost.
struct Passed<'a> {
    network: &'a Network,
    near: &'a Near,
    clock: usize,
    reached: Vec<usize>,
    low: Vec<usize>,
    /// Spans that were taken and have no mesh yet, the latest last.
    open: Vec<usize>,
    sole: Vec<bool>,
    mesh: Labels,
}

impl<'a> Passed<'a> {
    fn through(network: &'a Network, near: &'a Near) -> Passed<'a> {
        let mut passed = Passed {
            network,
            near,
            clock: 0,
            reached: vec![NONE; network.cabinets],
            low: vec![NONE; network.cabinets],
            open: Vec::new(),
            sole: vec![false; network.spans.len()],
            mesh: vec![NONE; network.spans.len()],
        };
        for start in 0..network.cabinets {
            if passed.reached[start] == NONE {
                passed.visit(start, NONE);
            }
        }
        passed
    }

    /// Goes on from `here`, which span `led` was taken to. Only that span and its mates are no way
    /// back: another span to the cabinet that it came from is one. All of them are open, since mates
    /// share a mesh.
    fn visit(&mut self, here: usize, led: usize) {
        self.reached[here] = self.clock;
        self.low[here] = self.clock;
        self.clock += 1;
        let near = self.near;
        for &step in near.from(here) {
            if step.span == led {
                continue;
            }
            if self.reached[step.to] == NONE {
                self.go(here, step);
            } else if self.reached[step.to] < self.reached[here] {
                self.open.push(step.span);
                if !self.network.lost_with(step.span, led) {
                    self.low[here] = self.low[here].min(self.reached[step.to]);
                }
            }
        }
    }

    /// Takes a step to a cabinet that was not reached yet. If its loss parts its ends, the mesh is
    /// the span and its mates.
    fn go(&mut self, here: usize, step: Step) {
        let first_open = self.open.len();
        self.open.push(step.span);
        self.visit(step.to, step.span);
        self.low[here] = self.low[here].min(self.low[step.to]);
        let parts = self.low[step.to] > self.reached[here];
        let apart = parts && self.network.fault == Some(Misduct::ApartInMeshes);
        if self.low[step.to] >= self.reached[here] {
            for span in self.open.drain(first_open..) {
                self.mesh[span] = if apart { span } else { step.span };
                self.sole[span] = parts;
            }
        }
    }
}

/// Some shortest route from a to b, as its steps; none if they are in two districts.
pub fn route(network: &Network, a: usize, b: usize) -> Option<Vec<Step>> {
    route_over(&Near::of(network), a, b, &|_| true)
}

/// Some shortest route from a to b over the spans allowed, as its steps; none if there is none.
pub fn route_over(
    near: &Near,
    a: usize,
    b: usize,
    allowed: &dyn Fn(usize) -> bool,
) -> Option<Vec<Step>> {
    let mut came: Vec<Option<(usize, Step)>> = vec![None; near.cabinets()];
    let mut waiting = std::collections::VecDeque::from([a]);
    while let Some(here) = waiting.pop_front().filter(|_| came[b].is_none()) {
        for &step in near.from(here) {
            if step.to != a && came[step.to].is_none() && allowed(step.span) {
                came[step.to] = Some((here, step));
                waiting.push_back(step.to);
            }
        }
    }
    let mut steps = Vec::new();
    let mut here = b;
    while here != a {
        let (before, step) = came[here]?;
        steps.push(step);
        here = before;
    }
    steps.reverse();
    Some(steps)
}

/// Is span `span` sole between its own ends? Its loss parts them exactly if they share no ring.
pub fn is_sole(network: &Network, groups: &ByKind<Labels>, span: usize) -> bool {
    let Span { a, b, .. } = network.spans[span];
    groups.ring[a] != groups.ring[b]
}

/// The sets of mates whose loss parts a and b, each by its least number, in travelling order. Every
/// route takes one span of each of them in that order, so they are the sets of those spans of any
/// route whose loss parts their own ends.
pub fn sole_spans(network: &Network, groups: &ByKind<Labels>, route: &[Step]) -> Vec<usize> {
    let near = Near::of(network);
    let spans = route.iter().map(|step| step.span);
    let sole = spans.filter(|&span| is_sole(network, groups, span));
    sole.flat_map(|span| network.listed(&near, span)).collect()
}

/// The cut cabinets between a and b, in travelling order. Every route goes through all of them in
/// that order. The two spans of a route that meet at a cabinet are on a common simple cycle exactly
/// if the route can go round the cabinet; so it is cut exactly if they are in two meshes.
pub fn cut_cabinets(groups: &ByKind<Labels>, route: &[Step]) -> Vec<usize> {
    let meetings = route.windows(2);
    let cut = meetings.filter(|two| groups.mesh[two[0].span] != groups.mesh[two[1].span]);
    cut.map(|two| two[0].to).collect()
}

/// A span of the mesh that has spans at both cabinets, if there is one.
pub fn shared_mesh(
    network: &Network,
    groups: &ByKind<Labels>,
    a: usize,
    b: usize,
) -> Option<usize> {
    let mut at_a = vec![false; network.spans.len()];
    for (number, span) in network.spans.iter().enumerate() {
        if span.touches(a) {
            at_a[groups.mesh[number]] = true;
        }
    }
    (0..network.spans.len())
        .find(|&number| network.spans[number].touches(b) && at_a[groups.mesh[number]])
}
