//! Two routes that are apart, by two augmenting searches and one walk for each route.
//!
//! The lists of the edges at each vertex are kept from question to question; those that came since
//! the last one are added first. A search goes by breadth and ends where it finds its goal, and only
//! what it has touched is made as before; so a question takes at most a few passes over vertices and
//! edges. Of each set of mates only the least edge is in the lists: two routes without a common edge
//! are apart then.
//!
//! An edge has two sides, 2 × edge and 2 × edge + 1: the first leads from its first end to its second,
//! the other back.

const NONE: u32 = u32::MAX;

#[derive(Default)]
pub struct Routes {
    /// For each vertex the first side in its list, and the length of the list.
    head: Vec<u32>,
    count: Vec<u32>,
    /// For each side the next one of its vertex, the vertex that it leads to, and whether a route
    /// goes along it.
    next: Vec<u32>,
    to: Vec<u32>,
    used: Vec<bool>,
    /// For each edge its duct, 0 for an edge from 02.
    duct: Vec<u32>,
    /// For each vertex the side that a search came by, or its place in the route that is read.
    mark: Vec<u32>,
    /// The vertices that a search has come to.
    queue: Vec<u32>,
    /// The sides that were used for this question.
    taken: Vec<u32>,
    /// The routes, as sides.
    found: [Vec<u32>; 2],
}

impl Routes {
    /// Adds what is new, given the number of all vertices, and for every edge its ends and its duct.
    pub fn catch_up(&mut self, vertices: usize, ends: &[(u32, u32)], duct: &[u32]) {
        self.head.resize(vertices, NONE);
        self.count.resize(vertices, 0);
        self.mark.resize(vertices, NONE);
        let known = self.duct.len();
        for (&(a, b), &duct) in ends[known..].iter().zip(&duct[known..]) {
            self.add_edge(a, b, duct);
        }
    }

    /// An edge that has a lesser mate is in no list.
    fn add_edge(&mut self, a: u32, b: u32, duct: u32) {
        let side = self.to.len() as u32;
        let is_listed = !self.has_mate(a, b, duct);
        self.to.extend([b, a]);
        self.next.extend([NONE, NONE]);
        self.used.extend([false, false]);
        self.duct.push(duct);
        if is_listed {
            self.list(a, side);
            self.list(b, side + 1);
        }
    }

    fn list(&mut self, vertex: u32, side: u32) {
        self.next[side as usize] = self.head[vertex as usize];
        self.head[vertex as usize] = side;
        self.count[vertex as usize] += 1;
    }

    /// Is there an edge between these in this duct? The shorter of the two lists tells.
    fn has_mate(&self, a: u32, b: u32, duct: u32) -> bool {
        let shorter = self.count[a as usize] <= self.count[b as usize];
        let (at, to) = if shorter { (a, b) } else { (b, a) };
        self.sides(at)
            .any(|side| self.to[side as usize] == to && self.duct[side as usize / 2] == duct)
    }

    fn sides(&self, vertex: u32) -> impl Iterator<Item = u32> + '_ {
        let some = |side: u32| (side != NONE).then_some(side);
        let first = some(self.head[vertex as usize]);
        std::iter::successors(first, move |&side| some(self.next[side as usize]))
    }

    /// Two routes between two vertices of one bridge-block, each as its edges from a to b.
    pub fn between(&mut self, a: u32, b: u32) -> [impl Iterator<Item = u32> + Clone + '_; 2] {
        self.search(a, b);
        self.search(a, b);
        self.read(0, a, b);
        self.read(1, a, b);
        for side in self.taken.drain(..) {
            self.used[side as usize] = false;
        }
        self.found.each_ref().map(|route| route.iter().map(|side| side / 2))
    }

    /// One way more from a to b: along sides that are not used, of which some may take back a side
    /// that is used the other way.
    fn search(&mut self, a: u32, b: u32) {
        self.queue.clear();
        self.queue.push(a);
        self.mark[a as usize] = 0;
        let mut at = 0;
        while self.mark[b as usize] == NONE {
            let mut side = self.head[self.queue[at] as usize];
            while side != NONE {
                let to = self.to[side as usize];
                if self.mark[to as usize] == NONE && !self.used[side as usize] {
                    self.mark[to as usize] = side;
                    self.queue.push(to);
                }
                side = self.next[side as usize];
            }
            at += 1;
        }
        let mut here = b;
        while here != a {
            let side = self.mark[here as usize];
            let back = side ^ 1;
            if self.used[back as usize] {
                self.used[back as usize] = false;
            } else {
                self.used[side as usize] = true;
                self.taken.push(side);
            }
            here = self.to[back as usize];
        }
        for &vertex in &self.queue {
            self.mark[vertex as usize] = NONE;
        }
    }

    /// Reads a route along used sides, which are used no longer. Where it comes to a vertex again, it
    /// drops the steps between.
    fn read(&mut self, which: usize, a: u32, b: u32) {
        let mut route = std::mem::take(&mut self.found[which]);
        route.clear();
        self.mark[a as usize] = 0;
        let mut here = a;
        while here != b {
            let mut side = self.head[here as usize];
            while !self.used[side as usize] {
                side = self.next[side as usize];
            }
            self.used[side as usize] = false;
            here = self.to[side as usize];
            route.push(side);
            let place = self.mark[here as usize];
            if place == NONE {
                self.mark[here as usize] = route.len() as u32;
            } else {
                for dropped in route.drain(place as usize..) {
                    self.mark[self.to[dropped as usize] as usize] = NONE;
                }
                self.mark[here as usize] = place;
            }
        }
        self.mark[a as usize] = NONE;
        for &side in &route {
            self.mark[self.to[side as usize] as usize] = NONE;
        }
        self.found[which] = route;
    }
}
