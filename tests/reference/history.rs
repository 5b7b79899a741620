//! A history as document 01 tells it, read in the plainest way: slow, and shared with nobody.
//! A node is a struct with two lists, storing is done on a copy, and a question is a scan over all intervals ever stored.
//! Values are `Option<i64>`: `None` is null.

/// "What a call says": the numbers of the table that a history's calls can give. (2 is asked at opening only, since
/// here the same buffers are lent to every call; 3 is not among them, since nobody else writes to a history.)
pub mod refusal {
    /// "opening: a number of the list above, its start included, outside its range"
    pub const OPENING: u32 = 1;
    /// "a lent buffer too short"
    pub const TOO_SHORT: u32 = 2;
    pub const FINISHED: u32 = 4;
    /// "earlier than the latest time"
    pub const EARLIER: u32 = 5;
    /// "change or finish above 2^63-1; in a query, before start or after latest"
    pub const TIME: u32 = 6;
    /// "no such quark"
    pub const QUARK: u32 = 7;
    /// "attribute table full, or 4,096 attributes"
    pub const ATTRIBUTES: u32 = 8;
    /// "increment of 2^63-1"
    pub const TOP: u32 = 9;
    /// "depth would pass 16"
    pub const DEPTH: u32 = 10;
    /// "nodes would pass N"
    pub const ROOM: u32 = 11;
}

/// "Start and event times 0 to 2^63-1."
pub const LAST_TIME: u64 = (1 << 63) - 1;
/// "Attributes 0 to 4,096"
pub const MOST_ATTRIBUTES: u64 = 4096;
/// "Depth at most 16."
pub const MOST_LEVELS: u64 = 16;
/// "answers from the table: end 2^64-1"
pub const STILL_ONGOING: u64 = u64::MAX;

/// "K intervals per node, at least 1; C children, 2 to 50. [..] N nodes, 1 to 65,536."
#[derive(Clone, Copy, Debug, PartialEq)]
pub struct Shape {
    pub k: u64,
    pub c: u64,
    pub n: u64,
}

impl Shape {
    /// "Node size 32 + 12C + 32K"
    pub fn node_size(self) -> u64 {
        32 + 12 * self.c + 32 * self.k
    }

    /// The list "Numbers", as far as it speaks of the shape: "at most 65,536 bytes" for a node.
    pub fn allowed(self) -> bool {
        self.k >= 1 && (2..=50).contains(&self.c) && self.node_size() <= 65_536 && (1..=65_536).contains(&self.n)
    }
}

/// "the interval from the ongoing start to t-1, ends included"
#[derive(Clone, Copy, Debug, PartialEq)]
pub struct Interval {
    pub quark: u32,
    pub value: Option<i64>,
    pub start: u64,
    pub end: u64,
}

impl Interval {
    pub fn covers(&self, t: u64) -> bool {
        self.start <= t && t <= self.end
    }
}

/// A node knows its place as its index in `Tree::nodes`: "Sequence numbers go up by one".
#[derive(Clone, Debug)]
pub struct Node {
    pub level: u64,
    pub start: u64,
    /// None while the node is open.
    pub end: Option<u64>,
    pub parent: Option<usize>,
    pub children: Vec<usize>,
    pub intervals: Vec<Interval>,
}

impl Node {
    /// "An open node holds every t from its start."
    pub fn holds(&self, t: u64) -> bool {
        self.start <= t && self.end.map_or(true, |end| t <= end)
    }
}

/// The nodes and the numbers that the build rule needs.
#[derive(Clone, Debug)]
pub struct Tree {
    pub shape: Shape,
    pub start: u64,
    /// "S is the largest end stored so far (the start, at first)."
    pub largest_end: u64,
    pub nodes: Vec<Node>,
}

impl Tree {
    /// "Opening makes node 0: level 0, open, empty, starting at the history's start."
    fn open(shape: Shape, start: u64) -> Tree {
        let first = Node { level: 0, start, end: None, parent: None, children: Vec::new(), intervals: Vec::new() };
        Tree { shape, start, largest_end: start, nodes: vec![first] }
    }

    /// The one node that has no parent.
    pub fn root(&self) -> usize {
        self.nodes.iter().position(|node| node.parent.is_none()).expect("a tree has a root")
    }

    /// "take the lowest open node with start at or below s"
    fn lowest_open(&self, s: u64) -> usize {
        (0..self.nodes.len())
            .filter(|&i| self.nodes[i].end.is_none() && self.nodes[i].start <= s)
            .min_by_key(|&i| self.nodes[i].level)
            .expect("the open root starts at the history's start")
    }

    /// "If it is above level 0, has no open child, and s is after its last child's end: a child is due."
    /// Gives that last end.
    fn child_due(&self, place: usize, s: u64) -> Option<u64> {
        let node = &self.nodes[place];
        if node.level == 0 || node.children.iter().any(|&child| self.nodes[child].end.is_none()) {
            return None;
        }
        let last = *node.children.last().expect("a node above level 0 was made with a child");
        self.nodes[last].end.filter(|&end| s > end)
    }

    /// "make a chain of new nodes down to level 0, all starting one after that last end". Gives the lowest.
    /// "Sequence numbers go up by one, [..] then a chain from the top."
    fn chain(&mut self, parent: usize, start: u64) -> usize {
        let mut above = parent;
        while self.nodes[above].level > 0 {
            let place = self.nodes.len();
            let level = self.nodes[above].level - 1;
            self.nodes.push(Node { level, start, end: None, parent: Some(above), children: Vec::new(), intervals: Vec::new() });
            self.nodes[above].children.push(place);
            above = place;
        }
        above
    }

    /// "Closing gives the node and all open nodes below it the end S." Open nodes are one branch, so "below" is a lower level.
    /// Gives the parent: "If the root was closed, a new root is made first: one level higher, starting at the history's
    /// start, with the old root as its only child, which learns its parent in the same call."
    fn close(&mut self, place: usize) -> usize {
        let level = self.nodes[place].level;
        let end = self.largest_end;
        for node in self.nodes.iter_mut().filter(|node| node.end.is_none() && node.level <= level) {
            node.end = Some(end);
        }
        if let Some(parent) = self.nodes[place].parent {
            return parent;
        }
        let root = self.nodes.len();
        self.nodes.push(Node {
            level: level + 1,
            start: self.start,
            end: None,
            parent: None,
            children: vec![place],
            intervals: Vec::new(),
        });
        self.nodes[place].parent = Some(root);
        root
    }

    /// "To store an interval starting at s": rules 1 and 2, then "the same question is put again to the parent".
    /// Only when it is stored does its end count for S.
    fn put(&mut self, interval: Interval) {
        let mut here = self.lowest_open(interval.start);
        let target = loop {
            match self.child_due(here, interval.start) {
                Some(end) if (self.nodes[here].children.len() as u64) < self.shape.c => break self.chain(here, end + 1),
                None if (self.nodes[here].intervals.len() as u64) < self.shape.k => break here,
                _ => here = self.close(here),
            }
        };
        self.nodes[target].intervals.push(interval);
        self.largest_end = self.largest_end.max(interval.end);
    }

    /// "Depth and room count what the rule would need." The rule is tried on a copy; "depth before room".
    fn stored(&self, interval: Interval) -> Result<Tree, u32> {
        let mut tree = self.clone();
        tree.put(interval);
        if tree.nodes[tree.root()].level + 1 > MOST_LEVELS {
            return Err(refusal::DEPTH);
        }
        if tree.nodes.len() as u64 > tree.shape.n {
            return Err(refusal::ROOM);
        }
        Ok(tree)
    }
}

/// "Every attribute has an ongoing kind, value and start in a lent table."
#[derive(Clone, Copy, Debug)]
pub struct Ongoing {
    pub value: Option<i64>,
    pub start: u64,
}

/// "Calls: set; remove (becomes null); increment (adds 1, null counts as 0)."
#[derive(Clone, Copy, Debug)]
pub enum Change {
    Set(i64),
    Remove,
    Increment,
}

/// What a host lends to a history.
#[derive(Clone, Copy, Debug)]
pub struct Lent {
    pub node_bytes: u64,
    pub table_entries: u64,
}

#[derive(Clone, Debug)]
pub struct History {
    pub start: u64,
    pub latest: u64,
    pub finished: bool,
    pub ongoing: Vec<Ongoing>,
    pub tree: Tree,
    /// All intervals ever stored: what a question scans.
    intervals: Vec<Interval>,
    /// All accepted changes: time, quark and the value that each made. Demand 2 speaks of them.
    changes: Vec<(u64, u32, Option<i64>)>,
    lent: Lent,
}

/// One accepted question: an interval for each attribute asked, and the nodes entered.
#[derive(Clone, Debug, PartialEq)]
pub struct Answer {
    pub intervals: Vec<Interval>,
    pub entered: u64,
}

impl History {
    /// "Order: opening 1, 2". Refused, there is no history.
    pub fn open(start: u64, attributes: u64, shape: Shape, lent: Lent) -> Result<History, u32> {
        if start > LAST_TIME || attributes > MOST_ATTRIBUTES || !shape.allowed() {
            return Err(refusal::OPENING);
        }
        if lent.node_bytes < shape.n * shape.node_size() || lent.table_entries < attributes {
            return Err(refusal::TOO_SHORT);
        }
        Ok(History {
            start,
            latest: start,
            finished: false,
            // "At opening, and when added later, it is null from the history's start."
            ongoing: vec![Ongoing { value: None, start }; attributes as usize],
            tree: Tree::open(shape, start),
            intervals: Vec::new(),
            changes: Vec::new(),
            lent,
        })
    }

    /// "change [..] 4, 7, [..] 6, 5, 9, 10, 11"
    pub fn change(&mut self, t: u64, quark: u32, change: Change) -> Result<(), u32> {
        if self.finished {
            return Err(refusal::FINISHED);
        }
        let now = *self.ongoing.get(quark as usize).ok_or(refusal::QUARK)?;
        if t > LAST_TIME {
            return Err(refusal::TIME);
        }
        if t < self.latest {
            return Err(refusal::EARLIER);
        }
        let value = match change {
            Change::Set(value) => Some(value),
            Change::Remove => None,
            Change::Increment => Some(now.value.unwrap_or(0).checked_add(1).ok_or(refusal::TOP)?),
        };
        // "If kind and value equal the ongoing ones, nothing else happens. If the ongoing start is t, the value is replaced
        // and nothing is stored. Otherwise the interval from the ongoing start to t-1, ends included, is stored and the new
        // state is ongoing from t."
        if value != now.value {
            if now.start != t {
                let interval = Interval { quark, value: now.value, start: now.start, end: t - 1 };
                self.tree = self.tree.stored(interval)?;
                self.intervals.push(interval);
            }
            self.ongoing[quark as usize] = Ongoing { value, start: t };
        }
        // "a change at time t makes it t", an equal one too
        self.latest = t;
        self.changes.push((t, quark, value));
        Ok(())
    }

    /// "adding [..] 4, 8"
    pub fn add(&mut self) -> Result<(), u32> {
        if self.finished {
            return Err(refusal::FINISHED);
        }
        let attributes = self.ongoing.len() as u64;
        if attributes == self.lent.table_entries || attributes == MOST_ATTRIBUTES {
            return Err(refusal::ATTRIBUTES);
        }
        self.ongoing.push(Ongoing { value: None, start: self.start });
        Ok(())
    }

    /// "finish [..] 4, [..] 6, 5, 10, 11". "In finish the first interval in quark order that breaks either decides".
    pub fn finish(&mut self, t: u64) -> Result<(), u32> {
        if self.finished {
            return Err(refusal::FINISHED);
        }
        if t > LAST_TIME {
            return Err(refusal::TIME);
        }
        if t < self.latest {
            return Err(refusal::EARLIER);
        }
        // "Finish at T stores, in quark order, every ongoing interval with end T, then closes all open nodes with end T."
        let last: Vec<Interval> = (0u32..)
            .zip(&self.ongoing)
            .map(|(quark, now)| Interval { quark, value: now.value, start: now.start, end: t })
            .collect();
        let mut tree = self.tree.clone();
        for &interval in &last {
            tree = tree.stored(interval)?;
        }
        for node in tree.nodes.iter_mut().filter(|node| node.end.is_none()) {
            node.end = Some(t);
        }
        self.tree = tree;
        self.intervals.extend(last);
        self.finished = true;
        // "T becomes the latest time; the table stays as it is and is not read again."
        self.latest = t;
        Ok(())
    }

    /// "query [..] 7, 6". "On an unfinished history a single query whose ongoing start is at or below t answers from the
    /// table: end 2^64-1, no nodes entered."
    pub fn single(&self, t: u64, quark: u32) -> Result<Answer, u32> {
        if quark as usize >= self.ongoing.len() {
            return Err(refusal::QUARK);
        }
        self.asked(t)?;
        let interval = self.interval_at(t, quark);
        let entered = if interval.end == STILL_ONGOING { 0 } else { self.tally(t) };
        Ok(Answer { intervals: vec![interval], entered })
    }

    /// "A full query does one walk, takes ongoing states in the same way, and writes one interval entry per attribute, in
    /// quark order".
    pub fn full(&self, t: u64) -> Result<Answer, u32> {
        self.asked(t)?;
        let intervals = (0..self.ongoing.len() as u32).map(|quark| self.interval_at(t, quark)).collect();
        Ok(Answer { intervals, entered: self.tally(t) })
    }

    /// "in a query, before start or after latest"
    fn asked(&self, t: u64) -> Result<(), u32> {
        if t < self.start || t > self.latest {
            return Err(refusal::TIME);
        }
        Ok(())
    }

    /// The scan: one interval of this quark covers t, among all stored and, until finish, the ongoing ones.
    fn interval_at(&self, t: u64, quark: u32) -> Interval {
        let mut covering: Vec<Interval> = self.intervals.iter().filter(|i| i.quark == quark && i.covers(t)).copied().collect();
        let now = self.ongoing[quark as usize];
        if !self.finished && now.start <= t {
            covering.push(Interval { quark, value: now.value, start: now.start, end: STILL_ONGOING });
        }
        assert_eq!(covering.len(), 1, "the reference holds not one interval of quark {} at {}: {:?}", quark, t, covering);
        // Demand 2: "gives the value of its last accepted change not after t, or null".
        let changed = self.changes.iter().rev().find(|c| c.1 == quark && c.0 <= t).and_then(|c| c.2);
        assert_eq!(covering[0].value, changed, "the reference's scan and its list of changes differ, quark {} at {}", quark, t);
        covering[0]
    }

    /// Demand 3: "The nodes entered are as many as have bounds holding t".
    fn tally(&self, t: u64) -> u64 {
        self.tree.nodes.iter().filter(|node| node.holds(t)).count() as u64
    }
}
