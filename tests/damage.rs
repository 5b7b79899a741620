//! Damage to a finished history and to the question about it: every field, every number, every length.

use crate::history::{History, LAST_TIME};
use crate::layout::{self, child, entry, header};
use crate::seeded::Seeded;
use crate::Question;

/// A number near an old one, at an end of its range, or anything.
fn other(random: &mut Seeded, old: u64, near: &[u64]) -> u64 {
    match random.below(6) {
        0 => old.wrapping_add(1),
        1 => old.wrapping_sub(1),
        2 => random.one_of(&[0, u64::MAX, 1 << 63, u32::MAX.into()]),
        3 => random.word(),
        _ => random.one_of(near),
    }
}

/// Puts another number into a field of so many bytes.
fn alter(random: &mut Seeded, bytes: &mut [u8], at: usize, width: usize, near: &[u64]) {
    let mut old = [0; 8];
    old[..width].copy_from_slice(&bytes[at..at + width]);
    let new = other(random, u64::from_le_bytes(old), near).to_le_bytes();
    layout::put(bytes, at, &new[..width]);
}

/// A finished history and a question about it, about to be damaged.
pub struct Case<'a> {
    pub made: &'a History,
    pub question: Question,
    pub bytes: Vec<u8>,
}

impl Case<'_> {
    /// The nodes that an undamaged walk enters: those that hold t.
    fn on_walk(&self, random: &mut Seeded) -> usize {
        let nodes = &self.made.tree.nodes;
        let places: Vec<usize> = (0..nodes.len()).filter(|&place| nodes[place].holds(self.question.t)).collect();
        if places.is_empty() {
            random.below(nodes.len() as u64) as usize
        } else {
            random.one_of(&places)
        }
    }

    fn any_node(&self, random: &mut Seeded) -> usize {
        if random.once_in(4) {
            random.below(self.made.tree.nodes.len() as u64) as usize
        } else {
            self.on_walk(random)
        }
    }

    fn times(&self) -> [u64; 6] {
        let Question { of, t, .. } = self.question;
        [t, t.wrapping_add(1), t.wrapping_sub(1), of.start, of.latest, of.latest.wrapping_add(1)]
    }

    fn places(&self) -> [u64; 5] {
        let of = self.question.of;
        [of.root.into(), of.used.into(), u64::from(of.used) - 1, of.n.into(), 0]
    }

    fn damage_header(&mut self, random: &mut Seeded) {
        let shape = self.made.tree.shape;
        let at = layout::node_at(shape, self.any_node(random));
        let (field, width, near) = match random.below(9) {
            0 => (header::START, 8, self.times().to_vec()),
            1 => (header::END, 8, self.times().to_vec()),
            2 => (header::SEQUENCE, 4, self.places().to_vec()),
            3 => (header::PARENT, 4, self.places().to_vec()),
            4 => (header::INTERVALS, 2, vec![shape.k, shape.k + 1, 0]),
            5 => (header::CHILDREN, 2, vec![shape.c, shape.c + 1, 0]),
            6 => (header::LEVEL, 1, vec![0, 1, 15, 16]),
            7 => (header::STATE, 1, vec![0, 1, 2, 3]),
            _ => (header::ZERO, 2, vec![1]),
        };
        alter(random, &mut self.bytes, at + field, width, &near);
    }

    /// Loops are among these: a child's place may become its parent's, the root's or its own.
    fn damage_child(&mut self, random: &mut Seeded) {
        let shape = self.made.tree.shape;
        let place = self.any_node(random);
        let children = self.made.tree.nodes[place].children.len() as u64;
        let taken = if children > 0 && !random.once_in(4) { random.below(children) } else { random.below(shape.c) };
        let at = layout::child_at(shape, place, taken as usize);
        if random.once_in(2) {
            let near = [&self.places()[..], &[place as u64]].concat();
            alter(random, &mut self.bytes, at + child::SEQUENCE, 4, &near);
        } else {
            let near = self.times();
            alter(random, &mut self.bytes, at + child::START, 8, &near);
        }
    }

    fn damage_interval(&mut self, random: &mut Seeded) {
        let shape = self.made.tree.shape;
        let place = self.any_node(random);
        let stored = self.made.tree.nodes[place].intervals.len() as u64;
        let i = if stored > 0 && !random.once_in(6) { random.below(stored) } else { random.below(shape.k) };
        let at = layout::interval_at(shape, place, i as usize);
        let attributes = u64::from(self.question.of.attributes);
        let (field, width, near) = match random.below(6) {
            0 => (entry::QUARK, 4, vec![attributes, self.question.quark.unwrap_or(0).into(), 0]),
            1 => (entry::KIND, 1, vec![0, 1, 2]),
            2 => (entry::ZERO, 3, vec![1]),
            3 => (entry::START, 8, self.times().to_vec()),
            4 => (entry::END, 8, self.times().to_vec()),
            _ => (entry::VALUE, 8, vec![0, 1]),
        };
        alter(random, &mut self.bytes, at + field, width, &near);
    }

    /// One interval entry over another, in the same node or not: covered twice, or not at all.
    fn copy_interval(&mut self, random: &mut Seeded) {
        let shape = self.made.tree.shape;
        let (from, to) = (self.on_walk(random), self.on_walk(random));
        let stored = self.made.tree.nodes[from].intervals.len() as u64;
        let i = random.below(stored.max(1)) as usize;
        let j = random.below(shape.k) as usize;
        let at = layout::interval_at(shape, from, i);
        let entry = self.bytes[at..at + 32].to_vec();
        layout::put(&mut self.bytes, layout::interval_at(shape, to, j), &entry);
        let count = (self.made.tree.nodes[to].intervals.len()).max(j + 1) as u16;
        layout::put(&mut self.bytes, layout::node_at(shape, to) + header::INTERVALS, &count.to_le_bytes());
    }

    /// Whole nodes copied, swapped, or overwritten.
    fn damage_nodes(&mut self, random: &mut Seeded) {
        let shape = self.made.tree.shape;
        let size = shape.node_size() as usize;
        let (a, b) = (layout::node_at(shape, self.on_walk(random)), layout::node_at(shape, self.any_node(random)));
        let (first, second) = (self.bytes[a..a + size].to_vec(), self.bytes[b..b + size].to_vec());
        layout::put(&mut self.bytes, b, &first);
        match random.below(3) {
            0 => layout::put(&mut self.bytes, a, &second),
            1 => layout::put(&mut self.bytes, a, &vec![random.one_of(&[0, 1, 255]); size]),
            _ => {}
        }
    }

    /// What a walk does not look at: nodes off it, entries that are not used, the room behind. The answer stays.
    fn garble_the_rest(&mut self, random: &mut Seeded) {
        let shape = self.made.tree.shape;
        let garbage = random.bytes(self.bytes.len() as u64);
        for place in 0..shape.n as usize {
            let (begin, end) = (layout::node_at(shape, place), layout::node_at(shape, place + 1));
            let children = |count: usize| layout::child_at(shape, place, count);
            let intervals = |count: usize| layout::interval_at(shape, place, count);
            let not_seen = match self.made.tree.nodes.get(place) {
                Some(node) if node.holds(self.question.t) => {
                    vec![(children(node.children.len()), intervals(0)), (intervals(node.intervals.len()), end)]
                }
                // It may be looked at and found not to hold t, so it keeps its header.
                Some(_) => vec![(children(0), end)],
                None => vec![(begin, end)],
            };
            for (from, to) in not_seen {
                self.bytes[from..to].copy_from_slice(&garbage[from..to]);
            }
        }
    }

    /// All levels higher by as much, the recorded one too: sound while the root's stays at most 15.
    fn shift_levels(&mut self, random: &mut Seeded) {
        let top = self.question.of.level;
        let by = random.one_of(&[15 - top, 16 - top, 1, 255 - top]);
        self.question.of.level += by;
        for place in 0..self.made.tree.nodes.len() {
            let at = layout::node_at(self.made.tree.shape, place) + header::LEVEL;
            self.bytes[at] += by as u8;
        }
    }

    /// An open node "holds every t from its start", whatever end it says; without intervals no rule speaks against an early one.
    fn open_again(&mut self, random: &mut Seeded) {
        let place = self.on_walk(random);
        let node = &self.made.tree.nodes[place];
        let at = layout::node_at(self.made.tree.shape, place);
        let end = random.between(node.start, self.question.t.max(node.start));
        layout::put(&mut self.bytes, at + header::END, &end.to_le_bytes());
        layout::put(&mut self.bytes, at + header::INTERVALS, &[0, 0]);
        self.bytes[at + header::STATE] = 1;
    }

    fn flip_bytes(&mut self, random: &mut Seeded) {
        for _ in 0..random.between(1, 8) {
            let at = random.below(self.bytes.len() as u64) as usize;
            self.bytes[at] = random.word() as u8;
        }
    }

    /// The numbers that come with the call. Those of the shape reach the ends of u32, where a careless product overflows.
    fn damage_numbers(&mut self, random: &mut Seeded) {
        let of = &mut self.question.of;
        let small = |random: &mut Seeded, old: u32, near: &[u64]| other(random, old.into(), near) as u32;
        match random.below(9) {
            0 => of.start = other(random, of.start, &[of.latest, of.latest.wrapping_add(1), LAST_TIME + 1]),
            1 => of.latest = other(random, of.latest, &[of.start, LAST_TIME, LAST_TIME + 1]),
            2 => of.attributes = small(random, of.attributes, &[0, 4096, 4097]),
            3 => of.k = small(random, of.k, &[0, 2046, 2047, 2028, 1 << 27, (1 << 27) - 1]),
            4 => of.c = small(random, of.c, &[0, 1, 2, 50, 51, 357_913_942]),
            5 => of.n = small(random, of.n, &[0, 1, 65_536, 65_537]),
            6 => of.used = small(random, of.used, &[0, 1, of.n.into(), u64::from(of.n) + 1]),
            7 => of.root = small(random, of.root, &[0, of.used.into(), u64::from(of.used) - 1]),
            _ => of.level = small(random, of.level, &[0, 15, 16, 256]),
        }
    }

    /// The question itself: time, quark, lengths.
    fn damage_question(&mut self, random: &mut Seeded) {
        let attributes = u64::from(self.question.of.attributes);
        match random.below(4) {
            0 => self.question.t = other(random, self.question.t, &self.times()),
            1 => self.question.quark = self.question.quark.map(|old| other(random, old.into(), &[attributes]) as u32),
            2 => self.question.answer_len = self.question.answer_len.saturating_sub(random.between(1, 50) as usize),
            _ => {
                let kept = self.bytes.len() as u64 - random.below(self.bytes.len() as u64 + 1);
                self.bytes.truncate(random.one_of(&[kept, 0, (self.bytes.len() as u64).saturating_sub(1)]) as usize);
            }
        }
    }

    /// A buffer of random bytes, now and then with a root that can be entered.
    fn random_bytes(&mut self, random: &mut Seeded) {
        self.bytes = random.bytes(self.bytes.len() as u64);
        if random.once_in(2) {
            let of = self.question.of;
            let at = layout::node_at(of.shape(), of.root as usize);
            let node = &mut self.bytes[at..];
            layout::put(node, header::START, &of.start.to_le_bytes());
            layout::put(node, header::END, &of.latest.to_le_bytes());
            layout::put(node, header::SEQUENCE, &of.root.to_le_bytes());
            layout::put(node, header::INTERVALS, &[0, 0, random.below(u64::from(of.c) + 1) as u8, 0]);
            layout::put(node, header::LEVEL, &[of.level as u8, random.between(1, 2) as u8]);
        }
    }

    pub fn damage(&mut self, random: &mut Seeded) {
        match random.below(32) {
            0 | 1 => {}
            2..=6 => self.damage_header(random),
            7..=9 => self.damage_child(random),
            10..=14 => self.damage_interval(random),
            15 | 16 => self.copy_interval(random),
            17 | 18 => self.damage_nodes(random),
            19 | 20 => self.garble_the_rest(random),
            21 => self.shift_levels(random),
            22 => self.open_again(random),
            23 | 24 => self.flip_bytes(random),
            25 => self.random_bytes(random),
            26 => self.damage_numbers(random),
            27 => self.damage_question(random),
            28 | 29 => {
                for _ in 0..2 {
                    self.damage_header(random);
                    self.damage_child(random);
                    self.damage_interval(random);
                }
            }
            // Several faults at once, so that their order is seen: "query 3 record, 2, 7, 6, 3".
            _ => {
                self.damage_header(random);
                if random.once_in(2) {
                    self.damage_numbers(random);
                }
                for _ in 0..3 {
                    self.damage_question(random);
                }
            }
        }
        if random.once_in(20) {
            self.bytes.extend(random.bytes(3)); // longer than N times size is no fault
        }
    }
}
