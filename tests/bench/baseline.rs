//! The yardstick: the same history in plain Rust, written for speed. It makes the tests that document 01 asks of record, ongoing
//! entries and nodes, and shares no code with the library or with the tests' own reading.

const LAST_TIME: u64 = i64::MAX as u64;
/// The end of an open node and of an ongoing state.
const UNENDED: u64 = u64::MAX;
const NO_PARENT: u32 = u32::MAX;
const MOST_ATTRIBUTES: u32 = 4096;
const LEVELS: usize = 16;
const HEADER: usize = 32;
const CHILD: usize = 12;
const INTERVAL: usize = 32;
const OPEN: u8 = 1;
const CLOSED: u8 = 2;

/// "The open branch is kept in the record by value, one entry for each of the sixteen levels."
#[derive(Clone, Copy, Default, PartialEq, Debug)]
pub struct Level {
    pub start: u64,
    pub last_end: u64,
    pub place: u32,
    pub intervals: u32,
    pub children: u32,
}

/// Levels low..=top are open and top is the root's; once finished low is top + 1.
#[derive(Clone, PartialEq, Debug)]
pub struct History {
    pub k: u32,
    pub c: u32,
    pub n: u32,
    pub start: u64,
    pub latest: u64,
    pub largest_end: u64,
    pub attributes: u32,
    pub used: u32,
    pub low: u32,
    pub top: u32,
    pub finished: bool,
    pub branch: [Level; LEVELS],
}

#[derive(Clone, Copy)]
pub enum Change {
    Set(i64),
    Remove,
    Increment,
}

#[derive(Clone, Copy, PartialEq, Debug)]
pub struct Entry {
    pub quark: u32,
    pub kind: u8,
    pub start: u64,
    pub end: u64,
    pub value: i64,
}

pub struct Single {
    pub nodes: u32,
    pub entry: Entry,
}

#[inline(always)]
fn word(bytes: &[u8], at: usize) -> u64 {
    u64::from_le_bytes(bytes[at..at + 8].try_into().unwrap())
}

#[inline(always)]
fn put(bytes: &mut [u8], at: usize, number: u64) {
    bytes[at..at + 8].copy_from_slice(&number.to_le_bytes());
}

/// Nodes, answers and the ongoing table share one layout of 32 bytes.
impl Entry {
    #[inline(always)]
    fn read(bytes: &[u8]) -> Entry {
        let bytes: &[u8; INTERVAL] = bytes.try_into().unwrap();
        let head = word(bytes, 0);
        let (kind, value) = ((head >> 32) as u8, word(bytes, 24) as i64);
        Entry { quark: head as u32, kind, start: word(bytes, 8), end: word(bytes, 16), value }
    }

    #[inline(always)]
    fn write(&self, bytes: &mut [u8]) {
        let bytes: &mut [u8; INTERVAL] = bytes.try_into().unwrap();
        put(bytes, 0, self.quark as u64 | (self.kind as u64) << 32);
        put(bytes, 8, self.start);
        put(bytes, 16, self.end);
        put(bytes, 24, self.value as u64);
    }
}

#[inline(always)]
fn refuse(when: bool, number: u32) -> Result<(), u32> {
    if when {
        Err(number)
    } else {
        Ok(())
    }
}

#[inline(always)]
fn node_size(k: u32, c: u32) -> usize {
    HEADER + CHILD * c as usize + INTERVAL * k as usize
}

#[inline(always)]
fn shape_allowed(k: u32, c: u32, n: u32) -> bool {
    k >= 1 && (2..=50).contains(&c) && node_size(k, c) <= 65_536 && (1..=65_536).contains(&n)
}

#[inline(never)]
fn all_differ(mut open: &[Level]) -> bool {
    while let [level, above @ ..] = open {
        if above.iter().any(|higher| higher.place == level.place) {
            return false;
        }
        open = above;
    }
    true
}

#[inline(always)]
fn node(nodes: &mut [u8], place: u32, size: usize) -> &mut [u8] {
    &mut nodes[place as usize * size..][..size]
}

#[inline(never)]
pub fn open(start: u64, attributes: u32, k: u32, c: u32, n: u32, nodes: &mut [u8], table: &mut [u8]) -> Result<History, u32> {
    if start > LAST_TIME || attributes > MOST_ATTRIBUTES || !shape_allowed(k, c, n) {
        return Err(1);
    }
    let size = node_size(k, c);
    if nodes.len() < n as usize * size || table.len() < INTERVAL * attributes as usize {
        return Err(2);
    }
    let mut branch = [Level::default(); LEVELS];
    branch[0].start = start;
    let (used, low, top, finished) = (1, 0, 0, false);
    let history = History { k, c, n, start, latest: start, largest_end: start, attributes, used, low, top, finished, branch };
    nodes[..size].fill(0);
    history.write_header(0, UNENDED, OPEN, nodes);
    for (quark, bytes) in table.chunks_exact_mut(INTERVAL).take(attributes as usize).enumerate() {
        Entry { quark: quark as u32, kind: 0, start, end: UNENDED, value: 0 }.write(bytes);
    }
    Ok(history)
}

/// R6 for a node's used intervals, the first of which stands at byte `at`. Shows each: quark, start, end and where it stands.
/// A function of its own, so that its numbers stay in registers.
#[inline(never)]
fn look(
    entries: &[u8],
    mut at: usize,
    attributes: u32,
    node_start: u64,
    node_end: u64,
    show: &mut impl FnMut(u32, u64, u64, usize),
) -> bool {
    let mut null_values = 0;
    for interval in entries.chunks_exact(INTERVAL) {
        let interval: &[u8; INTERVAL] = interval.try_into().unwrap();
        let head = word(interval, 0);
        let (start, end, value) = (word(interval, 8), word(interval, 16), word(interval, 24));
        // A known quark and a kind of 0 or 1 in one test: only the kind's lowest bit is left out.
        if head & 0xFE_FFFF_FFFF >= attributes as u64 || start < node_start || end < start || end > node_end {
            return false;
        }
        // The value where the kind is 0, else 0, without a branch that would be guessed wrongly.
        null_values |= value & (head >> 32 & 1).wrapping_sub(1);
        show(head as u32, start, end, at);
        at += INTERVAL;
    }
    null_values == 0
}

/// Where an interval goes: `level` takes it, or a chain below `level` does; `closing`: the open levels below `level` close first.
#[derive(Clone, Copy)]
struct Plan {
    level: usize,
    closing: bool,
    chain: bool,
}

// What a store writes. A finish closes every open node in the end, so their headers can wait until then.
const NOTHING: u8 = 0;
const EVERYTHING: u8 = 1;
const ALL_BUT_OPEN_HEADERS: u8 = 2;

impl History {
    #[inline(never)]
    pub fn change(&mut self, t: u64, quark: u32, what: Change, nodes: &mut [u8], table: &mut [u8]) -> u32 {
        self.try_change(t, quark, what, nodes, table).err().unwrap_or(0)
    }

    #[inline(never)]
    pub fn add(&mut self, nodes: &[u8], table: &mut [u8]) -> u32 {
        self.try_add(nodes, table).err().unwrap_or(0)
    }

    #[inline(never)]
    pub fn finish(&mut self, t: u64, nodes: &mut [u8], table: &[u8]) -> u32 {
        self.try_finish(t, nodes, table).err().unwrap_or(0)
    }

    #[inline(always)]
    fn try_change(&mut self, t: u64, quark: u32, what: Change, nodes: &mut [u8], table: &mut [u8]) -> Result<(), u32> {
        self.admit(nodes, table)?;
        refuse(self.finished, 4)?;
        refuse(quark >= self.attributes, 7)?;
        let bytes = &mut table[INTERVAL * quark as usize..][..INTERVAL];
        let ongoing = Entry::read(bytes);
        refuse(!self.ongoing_sound(&ongoing), 3)?;
        refuse(t > LAST_TIME, 6)?;
        refuse(t < self.latest, 5)?;
        let (kind, value) = match what {
            Change::Set(value) => (1, value),
            Change::Remove => (0, 0),
            Change::Increment if ongoing.value == i64::MAX => return Err(9),
            // "increment (adds 1, null counts as 0)": a sound null has the value 0.
            Change::Increment => (1, ongoing.value + 1),
        };
        if kind == ongoing.kind && value == ongoing.value {
            self.latest = t;
            return Ok(());
        }
        if ongoing.start != t {
            let plan = self.plan(ongoing.start)?;
            self.store::<EVERYTHING>(plan, &Entry { quark, end: t - 1, ..ongoing }, nodes);
        }
        Entry { quark, kind, start: t, end: UNENDED, value }.write(bytes);
        self.latest = t;
        Ok(())
    }

    #[inline(always)]
    fn try_add(&mut self, nodes: &[u8], table: &mut [u8]) -> Result<(), u32> {
        self.admit(nodes, table)?;
        refuse(self.finished, 4)?;
        refuse(self.attributes >= MOST_ATTRIBUTES, 8)?;
        let bytes = table.chunks_exact_mut(INTERVAL).nth(self.attributes as usize).ok_or(8u32)?;
        Entry { quark: self.attributes, kind: 0, start: self.start, end: UNENDED, value: 0 }.write(bytes);
        self.attributes += 1;
        Ok(())
    }

    #[inline(always)]
    fn try_finish(&mut self, t: u64, nodes: &mut [u8], table: &[u8]) -> Result<(), u32> {
        self.admit(nodes, table)?;
        refuse(self.finished, 4)?;
        let table = &table[..INTERVAL * self.attributes as usize];
        refuse(!table.chunks_exact(INTERVAL).all(|bytes| self.ongoing_sound(&Entry::read(bytes))), 3)?;
        refuse(t > LAST_TIME, 6)?;
        refuse(t < self.latest, 5)?;
        // "the first interval in quark order that breaks either decides": on a copy, before anything is written.
        let mut trial = self.clone();
        for bytes in table.chunks_exact(INTERVAL) {
            let interval = Entry { end: t, ..Entry::read(bytes) };
            let plan = trial.plan(interval.start)?;
            trial.store::<NOTHING>(plan, &interval, &mut []);
        }
        for (quark, bytes) in table.chunks_exact(INTERVAL).enumerate() {
            let interval = Entry { quark: quark as u32, end: t, ..Entry::read(bytes) };
            let plan = self.plan(interval.start)?;
            self.store::<ALL_BUT_OPEN_HEADERS>(plan, &interval, nodes);
        }
        for level in self.low as usize..=self.top as usize {
            self.write_header(level, t, CLOSED, nodes);
        }
        self.low = self.top + 1;
        self.finished = true;
        self.latest = t;
        Ok(())
    }

    #[inline(never)]
    pub fn single(&self, t: u64, quark: u32, nodes: &[u8], table: &[u8]) -> Result<Single, u32> {
        self.admit(nodes, table)?;
        refuse(quark >= self.attributes, 7)?;
        refuse(t < self.start || t > self.latest, 6)?;
        if !self.finished {
            let ongoing = Entry::read(&table[INTERVAL * quark as usize..][..INTERVAL]);
            refuse(!self.ongoing_sound(&ongoing), 3)?;
            if ongoing.start <= t {
                return Ok(Single { nodes: 0, entry: Entry { quark, end: UNENDED, ..ongoing } });
            }
        }
        let (mut hits, mut found) = (0u32, 0usize);
        let entered = self.walk(t, nodes, |seen, start, end, at| {
            if seen == quark && start <= t && t <= end {
                hits += 1;
                found = at;
            }
        });
        match entered {
            Some(entered) if hits == 1 => Ok(Single { nodes: entered, entry: Entry::read(&nodes[found..][..INTERVAL]) }),
            _ => Err(3),
        }
    }

    #[inline(never)]
    pub fn full(&self, t: u64, nodes: &[u8], table: &[u8], answer: &mut [u8]) -> Result<u32, u32> {
        self.admit(nodes, table)?;
        refuse(answer.len() < INTERVAL * self.attributes as usize, 2)?;
        refuse(t < self.start || t > self.latest, 6)?;
        // Clearing room for 4,096 attributes would cost a small history more than its walk.
        match self.attributes {
            0..=64 => self.full_within::<64>(t, nodes, table, answer),
            65..=512 => self.full_within::<512>(t, nodes, table, answer),
            _ => self.full_within::<4096>(t, nodes, table, answer),
        }
    }

    /// ROOM is a power of two with room for all attributes. For each quark it notes 0 for nothing found, ONGOING, or one more than
    /// the byte at which the covering interval stands (nodes have at most 2^32 bytes, so that fits and is not ONGOING).
    #[inline(always)]
    fn full_within<const ROOM: usize>(&self, t: u64, nodes: &[u8], table: &[u8], answer: &mut [u8]) -> Result<u32, u32> {
        const ONGOING: u32 = u32::MAX;
        let attributes = self.attributes as usize;
        let mut found = [0u32; ROOM];
        let mut hits = 0u32;
        if !self.finished {
            for (note, bytes) in found.iter_mut().zip(table[..INTERVAL * attributes].chunks_exact(INTERVAL)) {
                let ongoing = Entry::read(bytes);
                refuse(!self.ongoing_sound(&ongoing), 3)?;
                let covers = ongoing.start <= t;
                *note = if covers { ONGOING } else { 0 };
                hits += covers as u32;
            }
        }
        let entered = self.walk(t, nodes, |quark, start, end, at| {
            // One test for "start at or below t, t at or below end", since start is not after end.
            if t.wrapping_sub(start) <= end.wrapping_sub(start) {
                found[quark as usize & (ROOM - 1)] = at as u32 + 1;
                hits += 1;
            }
        });
        let entered = entered.ok_or(3u32)?;
        // R7: as many hits as quarks and none without a hit: exactly one each.
        let found = &found[..attributes];
        let gap = found.iter().fold(false, |gap, &note| gap | (note == 0));
        refuse(gap || hits != self.attributes, 3)?;
        for ((quark, &note), bytes) in found.iter().enumerate().zip(answer.chunks_exact_mut(INTERVAL)) {
            let entry = if note == ONGOING {
                Entry { end: UNENDED, ..Entry::read(&table[INTERVAL * quark..][..INTERVAL]) }
            } else {
                Entry::read(&nodes[note as usize - 1..][..INTERVAL])
            };
            Entry { quark: quark as u32, ..entry }.write(bytes);
        }
        Ok(entered)
    }

    /// Walks from the root and gives the number of nodes entered, or nothing where one breaks R1 to R6. Shows each used interval of
    /// these nodes: quark, start, end and the byte at which it stands.
    #[inline(always)]
    fn walk(&self, t: u64, nodes: &[u8], mut show: impl FnMut(u32, u64, u64, usize)) -> Option<u32> {
        let size = node_size(self.k, self.c);
        let first_interval = HEADER + CHILD * self.c as usize;
        let mut place = self.branch[self.top as usize % LEVELS].place;
        let mut level = self.top;
        // R5 says nothing of the root.
        let mut entry_start = word(nodes, place as usize * size);
        let mut parent_end = u64::MAX;
        let mut entered = 0;
        loop {
            let from = place as usize * size;
            let node = &nodes[from..][..size];
            entered += 1;
            let (start, end, name, counts) = (word(node, 0), word(node, 8), word(node, 16), word(node, 24));
            let (intervals, children) = (counts as u16 as usize, (counts >> 16) as u16 as usize);
            let state = (counts >> 40) as u8;
            if name as u32 != place
                || (counts >> 32) as u8 as u32 != level
                || start > end
                || (state != OPEN && state != CLOSED)
                || intervals > self.k as usize
                || children > self.c as usize
                || (level == 0 && children > 0)
                || start != entry_start
                || end > parent_end
            {
                return None;
            }
            let entries = &node[first_interval..][..INTERVAL * intervals];
            if !look(entries, from + first_interval, self.attributes, start, end, &mut show) {
                return None;
            }
            // "take the last child entry with start at or below t", by position: nothing says that starts grow.
            let entries = &node[HEADER..][..CHILD * children];
            let child = match entries.rchunks_exact(CHILD).find(|entry| word(entry, 4) <= t) {
                Some(entry) => entry,
                None => return Some(entered),
            };
            place = word(child, 0) as u32;
            if place >= self.used {
                return None;
            }
            let header = &nodes[place as usize * size..][..HEADER];
            // "An open node holds every t from its start."
            if word(header, 0) > t || (word(header, 8) < t && header[29] != OPEN) {
                return Some(entered);
            }
            entry_start = word(child, 4);
            parent_end = end;
            level -= 1;
        }
    }

    /// The refusals with which every call begins: 3 for the record, then 2 for nodes and table.
    #[inline(always)]
    fn admit(&self, nodes: &[u8], table: &[u8]) -> Result<(), u32> {
        refuse(!self.sound(), 3)?;
        refuse(nodes.len() < self.n as usize * node_size(self.k, self.c), 2)?;
        refuse(!self.finished && table.len() < INTERVAL * self.attributes as usize, 2)
    }

    #[inline(always)]
    fn sound(&self) -> bool {
        let span = self.start..=self.latest;
        if !shape_allowed(self.k, self.c, self.n)
            || self.attributes > MOST_ATTRIBUTES
            || self.latest > LAST_TIME
            || !(1..=self.n).contains(&self.used)
            || self.start > self.latest
            || !span.contains(&self.largest_end)
            || self.top as usize >= LEVELS
        {
            return false;
        }
        let (low, top) = (self.low as usize, self.top as usize);
        if self.finished {
            return low == top + 1 && self.branch[top].place < self.used;
        }
        if low > top || self.branch[top].start != self.start || (low > 0 && !span.contains(&self.branch[low].last_end)) {
            return false;
        }
        // "every open level above 0 has a child"
        let mut fewest = (low > 0) as u32;
        let mut start_below = u64::MAX;
        let mut seen = 0u64;
        let mut alike = 0;
        let open = &self.branch[low..top + 1];
        for level in open {
            if level.intervals > self.k
                || !(fewest..=self.c).contains(&level.children)
                || level.place >= self.used
                || level.start > start_below
            {
                return false;
            }
            fewest = 1;
            start_below = level.start;
            let bit = 1 << (level.place % 64);
            alike |= seen & bit;
            seen |= bit;
        }
        // "places differ": surely if they differ in their last six bits.
        alike == 0 || all_differ(open)
    }

    #[inline(always)]
    fn ongoing_sound(&self, ongoing: &Entry) -> bool {
        let sound_kind = ongoing.kind == 1 || (ongoing.kind == 0 && ongoing.value == 0);
        sound_kind && (self.start..=self.latest).contains(&ongoing.start)
    }

    /// The build rule for an interval starting at s, in a sound record and not before its start; or 10, or 11.
    #[inline(always)]
    fn plan(&self, s: u64) -> Result<Plan, u32> {
        let (low, top) = (self.low as usize, self.top as usize);
        // "take the lowest open node with start at or below s": the root's start is the history's.
        let mut level = low;
        while level < top && self.branch[level % LEVELS].start > s {
            level += 1;
        }
        let node = &self.branch[level % LEVELS];
        let mut chain = level == low && level > 0 && s > node.last_end;
        if !chain && node.intervals < self.k {
            return Ok(Plan { level, closing: false, chain });
        }
        let closing = !chain || node.children >= self.c;
        if closing {
            // "Then the same question is put again to the parent", whose last child now ends at S.
            chain = s > self.largest_end;
            level += 1;
            while level <= top {
                let node = &self.branch[level % LEVELS];
                if if chain { node.children < self.c } else { node.intervals < self.k } {
                    break;
                }
                level += 1;
            }
        }
        refuse(level == LEVELS, 10)?;
        let needed = (level > top) as u32 + if chain { level as u32 } else { 0 };
        refuse(needed > self.n - self.used, 11)?;
        Ok(Plan { level, closing, chain })
    }

    #[inline(always)]
    fn store<const WRITTEN: u8>(&mut self, plan: Plan, interval: &Entry, nodes: &mut [u8]) {
        if plan.closing || plan.chain {
            self.make_way::<WRITTEN>(plan, nodes);
        }
        let level = if plan.chain { 0 } else { plan.level % LEVELS };
        if WRITTEN != NOTHING {
            let size = node_size(self.k, self.c);
            let at = HEADER + CHILD * self.c as usize + INTERVAL * self.branch[level].intervals as usize;
            interval.write(&mut node(nodes, self.branch[level].place, size)[at..][..INTERVAL]);
        }
        self.branch[level].intervals += 1;
        if WRITTEN == EVERYTHING {
            self.write_header(level, UNENDED, OPEN, nodes);
        }
        self.largest_end = self.largest_end.max(interval.end);
    }

    /// Closes, makes a new root and a chain, as planned. The header of the node that will take the interval is left to the caller.
    #[inline(never)]
    fn make_way<const WRITTEN: u8>(&mut self, plan: Plan, nodes: &mut [u8]) {
        let size = node_size(self.k, self.c);
        let taker = plan.level % LEVELS;
        if plan.closing {
            let closed = self.low as usize..taker;
            if taker > self.top as usize {
                let old_root = self.branch[taker - 1];
                self.branch[taker] = Level { start: self.start, last_end: 0, place: self.used, intervals: 0, children: 1 };
                if WRITTEN != NOTHING {
                    let root = node(nodes, self.used, size);
                    root.fill(0);
                    write_child(root, 0, old_root.place, old_root.start);
                }
                self.top = taker as u32;
                self.used += 1;
            }
            if WRITTEN != NOTHING {
                for level in closed {
                    self.write_header(level, self.largest_end, CLOSED, nodes);
                }
            }
            // "Closing gives the node and all open nodes below it the end S."
            self.branch[taker].last_end = self.largest_end;
            self.low = taker as u32;
        }
        if plan.chain {
            let start = self.branch[taker].last_end + 1;
            for level in (0..taker).rev() {
                let place = self.used;
                self.used += 1;
                let parent = &mut self.branch[level + 1];
                if WRITTEN != NOTHING {
                    node(nodes, place, size).fill(0);
                    write_child(node(nodes, parent.place, size), parent.children, place, start);
                }
                parent.children += 1;
                if WRITTEN == EVERYTHING {
                    self.write_header(level + 1, UNENDED, OPEN, nodes);
                }
                self.branch[level] = Level { start, last_end: 0, place, intervals: 0, children: 0 };
            }
            self.low = 0;
        }
    }

    /// "A header that changes is written whole", from the record.
    #[inline(always)]
    fn write_header(&self, level: usize, end: u64, state: u8, nodes: &mut [u8]) {
        let here = &self.branch[level % LEVELS];
        let parent = if level == self.top as usize { NO_PARENT } else { self.branch[(level + 1) % LEVELS].place };
        let header: &mut [u8; HEADER] =
            (&mut nodes[here.place as usize * node_size(self.k, self.c)..][..HEADER]).try_into().unwrap();
        put(header, 0, here.start);
        put(header, 8, end);
        put(header, 16, here.place as u64 | (parent as u64) << 32);
        let counts = here.intervals as u64 | (here.children as u64) << 16;
        put(header, 24, counts | (level as u64) << 32 | (state as u64) << 40);
    }
}

#[inline(always)]
fn write_child(node: &mut [u8], index: u32, place: u32, start: u64) {
    let entry = &mut node[HEADER + CHILD * index as usize..][..CHILD];
    entry[..4].copy_from_slice(&place.to_le_bytes());
    entry[4..].copy_from_slice(&start.to_le_bytes());
}
