//! Names of one kind of item: a name for each item; a size and a range of items for each name.

pub struct Naming {
    pub name: Vec<u32>,
    /// For each name how many items bear it.
    pub size: Vec<u32>,
    least: Vec<u32>,
    greatest: Vec<u32>,
    /// The items renamed by the latest merge, rising, with their new name.
    pub changed: Vec<(u32, u32)>,
}

impl Naming {
    pub fn with_room(items: usize) -> Naming {
        Naming {
            name: Vec::with_capacity(items),
            size: Vec::with_capacity(items),
            least: Vec::with_capacity(items),
            greatest: Vec::with_capacity(items),
            changed: Vec::with_capacity(items),
        }
    }

    /// The next item, a group of its own under its own number.
    pub fn add(&mut self) {
        let item = self.name.len() as u32;
        self.name.push(item);
        self.size.push(1);
        self.least.push(item);
        self.greatest.push(item);
    }

    /// The next item, in the group of this name.
    pub fn add_to(&mut self, name: u32) {
        let item = self.name.len() as u32;
        self.add();
        self.name[item as usize] = name;
        self.size[item as usize] = 0;
        self.size[name as usize] += 1;
        self.greatest[name as usize] = item;
    }

    /// The name of the largest group among these names; among equals, the least.
    pub fn best(&self, names: &[u32]) -> u32 {
        let mut best = names[0];
        for &name in names {
            let (size, most) = (self.size[name as usize], self.size[best as usize]);
            if size > most || (size == most && name < best) {
                best = name;
            }
        }
        best
    }

    /// Makes the groups of these names one and gives its name. A name may occur twice. Only the
    /// range of the losing groups is passed over.
    pub fn merge(&mut self, names: &[u32]) -> u32 {
        self.changed.clear();
        let best = self.best(names);
        let mut range = (u32::MAX, 0);
        for &name in names {
            if name == best {
                continue;
            }
            self.size[best as usize] += self.size[name as usize];
            self.size[name as usize] = 0;
            range.0 = range.0.min(self.least[name as usize]);
            range.1 = range.1.max(self.greatest[name as usize]);
        }
        if range.0 <= range.1 {
            self.pass(range, best);
        }
        best
    }

    /// Renames the items whose name has lost its group.
    fn pass(&mut self, range: (u32, u32), best: u32) {
        for item in range.0..=range.1 {
            if self.size[self.name[item as usize] as usize] == 0 {
                self.name[item as usize] = best;
                self.changed.push((item, best));
            }
        }
        let best = best as usize;
        self.least[best] = self.least[best].min(range.0);
        self.greatest[best] = self.greatest[best].max(range.1);
    }
}
