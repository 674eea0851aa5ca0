//! The block forest: each vertex below at most one block, each block below exactly one vertex.
//!
//! Vertices are cabinets, edges are spans, blocks are meshes and bridge-blocks are rings. A block
//! is a bridge exactly if the bridge-block names at its two sides differ, so the bridge-block
//! forest is not stored.

use super::naming::Naming;

pub struct Forest {
    district: Naming,
    ring: Naming,
    mesh: Naming,
    /// For each vertex 0 at a root, else 1 + an edge of the block above it.
    up: Vec<u32>,
    /// A number for each vertex that falls on the way up.
    depth: Vec<u32>,
    ends: Vec<(u32, u32)>,
    /// For each edge its duct, 0 for an edge from 02.
    duct: Vec<u32>,
    /// For each edge the one survey record that holds.
    survey: Vec<Option<Survey>>,
    /// For each block name the vertex above the block.
    top: Vec<u32>,
    /// For each vertex whether it is an exchange.
    exchange: Vec<bool>,
    /// For each bridge-block name how many exchanges the bridge-block holds.
    exchanges: Vec<u32>,
    path: Path,
}

/// A length, and the day on which it was measured.
#[derive(Clone, Copy)]
pub struct Survey {
    pub day: u32,
    pub metres: u32,
}

/// The way between two vertices: block i lies between vertex i and vertex i + 1.
struct Path {
    vertices: Vec<u32>,
    blocks: Vec<u32>,
    /// How many vertices it has; the blocks are one fewer.
    length: usize,
    /// The vertex where the two sides met: on the path, or above the block that is its middle.
    meeting: u32,
}

impl Forest {
    pub fn with_room(vertices: usize, edges: usize) -> Forest {
        Forest {
            district: Naming::with_room(vertices),
            ring: Naming::with_room(vertices),
            mesh: Naming::with_room(edges),
            up: Vec::with_capacity(vertices),
            depth: Vec::with_capacity(vertices),
            ends: Vec::with_capacity(edges),
            duct: Vec::with_capacity(edges),
            survey: Vec::with_capacity(edges),
            top: Vec::with_capacity(edges),
            exchange: Vec::with_capacity(vertices),
            exchanges: Vec::with_capacity(vertices),
            path: Path {
                vertices: vec![0; vertices],
                blocks: vec![0; vertices],
                length: 0,
                meeting: 0,
            },
        }
    }

    pub fn cabinets(&self) -> u32 {
        self.up.len() as u32
    }

    pub fn spans(&self) -> u32 {
        self.ends.len() as u32
    }

    /// For every edge its ends and its duct.
    pub fn edges(&self) -> (&[(u32, u32)], &[u32]) {
        (&self.ends, &self.duct)
    }

    pub fn district(&self, vertex: u32) -> u32 {
        self.district.name[vertex as usize]
    }

    pub fn ring(&self, vertex: u32) -> u32 {
        self.ring.name[vertex as usize]
    }

    /// How many vertices the vertex's component has.
    pub fn district_size(&self, vertex: u32) -> u32 {
        self.district.size[self.district(vertex) as usize]
    }

    /// How many vertices the vertex's bridge-block has.
    pub fn ring_size(&self, vertex: u32) -> u32 {
        self.ring.size[self.ring(vertex) as usize]
    }

    pub fn is_sole(&self, edge: u32) -> bool {
        let (a, b) = self.ends[edge as usize];
        self.ring(a) != self.ring(b)
    }

    pub fn is_exchange(&self, vertex: u32) -> bool {
        self.exchange[vertex as usize]
    }

    /// Makes a vertex an exchange, which it is not yet.
    pub fn mark(&mut self, vertex: u32) {
        self.exchange[vertex as usize] = true;
        let name = self.ring(vertex);
        self.exchanges[name as usize] += 1;
    }

    /// Does the vertex's bridge-block hold an exchange?
    pub fn is_fed(&self, vertex: u32) -> bool {
        self.exchanges[self.ring(vertex) as usize] > 0
    }

    /// How many vertices have an exchange in their bridge-block.
    pub fn fed(&self) -> u32 {
        self.ring.name.iter().filter(|&&name| self.exchanges[name as usize] > 0).count() as u32
    }

    /// A record replaces the one that holds if its day is greater.
    pub fn record(&mut self, edge: u32, survey: Survey) {
        let held = &mut self.survey[edge as usize];
        if held.is_none_or(|held| survey.day > held.day) {
            *held = Some(survey);
        }
    }

    /// The length of an edge, if there is a record of it.
    pub fn length(&self, edge: u32) -> Option<u32> {
        self.survey[edge as usize].map(|survey| survey.metres)
    }

    /// The block above a vertex; none at a root.
    fn above(&self, vertex: u32) -> Option<u32> {
        let up = self.up[vertex as usize];
        (up != 0).then(|| self.mesh.name[up as usize - 1])
    }

    pub fn add_cabinet(&mut self) {
        self.district.add();
        self.ring.add();
        self.up.push(0);
        self.depth.push(0);
        self.exchange.push(false);
        self.exchanges.push(0);
    }

    /// Adds an edge in a duct, 0 for one from 02, and gives its block name.
    pub fn add_span(&mut self, a: u32, b: u32, duct: u32) -> u32 {
        self.ring.changed.clear();
        self.mesh.changed.clear();
        self.district.changed.clear();
        self.ends.push((a, b));
        self.duct.push(duct);
        self.survey.push(None);
        if self.district(a) != self.district(b) {
            return self.link(a, b);
        }
        match self.block_of_mates(a, b, duct) {
            Some(block) => self.join_mates(block),
            None => self.condense(a, b),
        }
    }

    /// The block of a new edge's mates, if its ends are in two bridge-blocks. A block that two such
    /// vertices share consists of mates alone, so one edge of it tells the duct of all.
    fn block_of_mates(&self, a: u32, b: u32, duct: u32) -> Option<u32> {
        if self.ring(a) == self.ring(b) {
            return None;
        }
        self.shared_mesh(a, b).filter(|&block| self.duct[block as usize] == duct)
    }

    /// The newest edge goes to the block of its mates. No bridge-block changes.
    fn join_mates(&mut self, block: u32) -> u32 {
        self.mesh.add_to(block);
        self.top.push(0);
        block
    }

    /// The items renamed by the latest edge, by kind.
    pub fn changed(&self) -> impl Iterator<Item = (u8, &Vec<(u32, u32)>)> {
        [(1, &self.district.changed), (2, &self.ring.changed), (3, &self.mesh.changed)].into_iter()
    }

    /// An edge inside a component: the bridge-blocks and the blocks on the path become one.
    fn condense(&mut self, a: u32, b: u32) -> u32 {
        self.climb(a, b);
        let vertices = &self.path.vertices[..self.path.length];
        let rings: Vec<u32> = vertices.iter().map(|&v| self.ring(v)).collect();
        let ring = self.ring.merge(&rings);
        self.add_up_exchanges(&rings, ring);
        let name = self.mesh.merge(&self.path.blocks[..self.path.length - 1]);
        self.mesh.add_to(name);
        self.top.push(0);
        self.top[name as usize] = self.path.meeting;
        name
    }

    /// The bridge-blocks of these names have become the one of this name. A name may occur twice.
    fn add_up_exchanges(&mut self, names: &[u32], merged: u32) {
        let take = |name: &u32| std::mem::take(&mut self.exchanges[*name as usize]);
        let sum = names.iter().map(take).sum();
        self.exchanges[merged as usize] = sum;
    }

    /// An edge between two components: the one whose name loses is turned and put below the other.
    fn link(&mut self, a: u32, b: u32) -> u32 {
        let names = [self.district(a), self.district(b)];
        let (below, above) = if self.district.best(&names) == names[0] { (b, a) } else { (a, b) };
        let chain = self.chain(below);
        self.district.merge(&names);
        let added = self.depth[above as usize] + chain.len() as u32;
        for &(vertex, _) in &self.district.changed {
            self.depth[vertex as usize] += added;
        }
        self.turn(&chain, above);
        self.mesh.add();
        self.top.push(above);
        self.spans() - 1
    }

    /// The vertices from this one up to its root.
    fn chain(&self, vertex: u32) -> Vec<u32> {
        let mut chain = vec![vertex];
        let mut here = vertex;
        while let Some(block) = self.above(here) {
            here = self.top[block as usize];
            chain.push(here);
        }
        chain
    }

    /// Makes the chain's first vertex the root of its tree, and puts it below `above` by the
    /// newest edge.
    fn turn(&mut self, chain: &[u32], above: u32) {
        let base = self.depth[above as usize] + 1;
        let mut carried = self.spans();
        for (i, &vertex) in chain.iter().enumerate() {
            let own = self.up[vertex as usize];
            if own != 0 {
                self.top[self.mesh.name[own as usize - 1] as usize] = vertex;
            }
            self.up[vertex as usize] = carried;
            self.depth[vertex as usize] = base + i as u32;
            carried = own;
        }
    }

    /// Finds the path between two vertices of one component: from the deeper of the two up, until
    /// they meet. The left side is written from the front, the right side from the back.
    pub fn climb(&mut self, a: u32, b: u32) {
        let (mut left, mut right) = (a, b);
        let end = self.path.vertices.len();
        let (mut front, mut back) = (0, end);
        while left != right {
            if self.depth[left as usize] >= self.depth[right as usize] {
                left = self.climb_one(left, front);
                front += 1;
            } else {
                back -= 1;
                right = self.climb_one(right, back);
            }
        }
        self.path.join(left, front, back);
    }

    /// Writes a vertex and the block above it down; gives the vertex above that block.
    fn climb_one(&mut self, vertex: u32, at: usize) -> u32 {
        let block = self.mesh.name[self.up[vertex as usize] as usize - 1];
        self.path.vertices[at] = vertex;
        self.path.blocks[at] = block;
        self.top[block as usize]
    }

    /// The bridges on the path found last, of each set of mates the least: a block that is one edge,
    /// or one edge and its mates, has that edge's number as name.
    pub fn sole_spans(&self) -> impl Iterator<Item = u32> + Clone + '_ {
        let sides = self.path.vertices[..self.path.length].windows(2);
        let blocks = &self.path.blocks[..self.path.length - 1];
        let both = sides.zip(blocks);
        both.filter(|(side, _)| self.ring(side[0]) != self.ring(side[1])).map(|(_, &block)| block)
    }

    /// The cut vertices on the path found last.
    pub fn cut_cabinets(&self) -> &[u32] {
        let length = self.path.length;
        if length < 2 {
            return &[];
        }
        &self.path.vertices[1..length - 1]
    }

    /// The block that has edges at both of two different vertices.
    pub fn shared_mesh(&self, a: u32, b: u32) -> Option<u32> {
        let (above_a, above_b) = (self.above(a), self.above(b));
        if above_a == above_b {
            return above_a;
        }
        let under_b = above_a.filter(|&block| self.top[block as usize] == b);
        under_b.or(above_b.filter(|&block| self.top[block as usize] == a))
    }
}

impl Path {
    /// Puts the two sides of a climb together. Where both came up through one block, that block is
    /// the middle, and the vertex above it is not on the path.
    fn join(&mut self, meeting: u32, front: usize, back: usize) {
        let end = self.vertices.len();
        let through_one = front > 0 && back < end && self.blocks[front - 1] == self.blocks[back];
        if through_one {
            self.vertices.copy_within(back..end, front);
            self.blocks.copy_within(back + 1..end, front);
            self.length = front + end - back;
        } else {
            self.vertices.copy_within(back..end, front + 1);
            self.vertices[front] = meeting;
            self.blocks.copy_within(back..end, front);
            self.length = front + 1 + end - back;
        }
        self.meeting = meeting;
    }
}
