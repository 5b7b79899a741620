//! The exported questions on any bytes: what the page server is answered, whatever stands in its buffer.
//! A reading of "Questions" in document 01, R1 to R7 among them, that knows nothing of how histories are built.

use crate::history::{Shape, LAST_TIME, MOST_ATTRIBUTES, MOST_LEVELS};
use crate::layout::{child, entry, header};

/// The plain numbers that stand for a finished history.
#[derive(Clone, Copy, Debug, PartialEq)]
pub struct Finished {
    pub start: u64,
    pub latest: u64,
    pub attributes: u32,
    pub k: u32,
    pub c: u32,
    pub n: u32,
    pub used: u32,
    pub root: u32,
    pub level: u32,
}

/// Why a question is refused. All of `Record` and `R1` to `R7` are the number 3; tests count them apart.
#[derive(Clone, Copy, Debug, PartialEq, Eq, Hash)]
pub enum Why {
    Record,
    NodesShort,
    AnswerShort,
    Quark,
    Time,
    R1,
    R2,
    R3,
    R4,
    R5,
    R6,
    R7,
}

impl Why {
    /// "What a call says"
    pub fn number(self) -> u32 {
        match self {
            Why::NodesShort | Why::AnswerShort => 2,
            Why::Quark => 7,
            Why::Time => 6,
            _ => 3,
        }
    }
}

impl Finished {
    pub fn shape(&self) -> Shape {
        Shape { k: self.k.into(), c: self.c.into(), n: self.n.into() }
    }

    /// "A record is sound when its shape is allowed, numbers are within limits, the used count 1 to N, [..] places [..] are
    /// below the used count, start is at or below latest": what these numbers say of the record.
    fn sound(&self) -> bool {
        self.shape().allowed()
            && u64::from(self.attributes) <= MOST_ATTRIBUTES
            && self.start <= LAST_TIME
            && self.latest <= LAST_TIME
            && self.start <= self.latest
            && (1..=self.n).contains(&self.used)
            && self.root < self.used
            && u64::from(self.level) < MOST_LEVELS
    }
}

fn u16_at(bytes: &[u8], at: usize) -> u64 {
    u64::from(bytes[at]) + 256 * u64::from(bytes[at + 1])
}

fn u32_at(bytes: &[u8], at: usize) -> u64 {
    u16_at(bytes, at) + 65_536 * u16_at(bytes, at + 2)
}

fn u64_at(bytes: &[u8], at: usize) -> u64 {
    u32_at(bytes, at) + (u32_at(bytes, at + 4) << 32)
}

/// A stored interval as its 32 bytes say.
#[derive(Clone, Copy)]
struct Entry {
    quark: u64,
    kind: u8,
    start: u64,
    end: u64,
    value: u64,
}

/// What a walk finds: the nodes entered, and of all their intervals those that cover t.
struct Walk {
    entered: u64,
    covering: Vec<Entry>,
}

/// "Otherwise it walks from the root: enter a node, look at all its intervals, take the last child entry with start at or
/// below t, and go on if that child's bounds hold t."
fn walk(of: &Finished, t: u64, nodes: &[u8]) -> Result<Walk, Why> {
    let shape = of.shape();
    let size = shape.node_size() as usize;
    let mut found = Walk { entered: 0, covering: Vec::new() };
    let mut place = u64::from(of.root);
    let mut level = u64::from(of.level);
    // Of the node above: the start in its entry for this one, and its end. The root has none.
    let mut above: Option<(u64, u64)> = None;
    loop {
        let node = &nodes[place as usize * size..][..size];
        found.entered += 1;
        let (start, end) = (u64_at(node, header::START), u64_at(node, header::END));
        // "R1 sequence is its place, below the used count"
        if u32_at(node, header::SEQUENCE) != place {
            return Err(Why::R1);
        }
        // "R2 level one below its parent's (the root's as recorded)"
        if u64::from(node[header::LEVEL]) != level {
            return Err(Why::R2);
        }
        // "R3 start not after end, state 1 or 2"
        if start > end || !(1..=2).contains(&node[header::STATE]) {
            return Err(Why::R3);
        }
        // "R4 counts within K and C, no child at level 0"
        let (intervals, children) = (u16_at(node, header::INTERVALS), u16_at(node, header::CHILDREN));
        if intervals > shape.k || children > shape.c || (level == 0 && children > 0) {
            return Err(Why::R4);
        }
        // "R5 its start equals its entry in the parent, its end not after the parent's"
        if above.map_or(false, |(in_parent, parents_end)| start != in_parent || end > parents_end) {
            return Err(Why::R5);
        }
        for i in 0..intervals as usize {
            let bytes = &node[32 + 12 * shape.c as usize + 32 * i..][..32];
            let interval = Entry {
                quark: u32_at(bytes, entry::QUARK),
                kind: bytes[entry::KIND],
                start: u64_at(bytes, entry::START),
                end: u64_at(bytes, entry::END),
                value: u64_at(bytes, entry::VALUE),
            };
            // "R6 each used interval has a known quark, kind 0 (value 0) or 1, start not after end, inside the node"
            let known = interval.quark < u64::from(of.attributes);
            let state = interval.kind == 1 || (interval.kind == 0 && interval.value == 0);
            let inside = start <= interval.start && interval.start <= interval.end && interval.end <= end;
            if !(known && state && inside) {
                return Err(Why::R6);
            }
            if interval.start <= t && t <= interval.end {
                found.covering.push(interval);
            }
        }
        // "take the last child entry with start at or below t"
        let entries = (0..children as usize).map(|i| &node[32 + 12 * i..][..12]);
        let taken = match entries.filter(|e| u64_at(e, child::START) <= t).last() {
            Some(taken) => taken,
            None => return Ok(found),
        };
        // "(a child's place is tested against the used count before its header is read)"
        place = u32_at(taken, child::SEQUENCE);
        if place >= u64::from(of.used) {
            return Err(Why::R1);
        }
        // "go on if that child's bounds hold t. An open node holds every t from its start."
        let next = &nodes[place as usize * size..][..size];
        if u64_at(next, header::START) > t || (next[header::STATE] != 1 && u64_at(next, header::END) < t) {
            return Ok(found);
        }
        above = Some((u64_at(taken, child::START), end));
        level -= 1; // not 0 here: R4 left no child to a node at level 0
    }
}

/// "R7 for each quark asked, exactly one covering interval over walk". Gives the answer's bytes: "the nodes entered as u64,
/// then the entries", an entry with its three zero bytes.
fn answer(found: &Walk, quarks: std::ops::Range<u64>) -> Result<Vec<u8>, Why> {
    let mut bytes = found.entered.to_le_bytes().to_vec();
    for quark in quarks {
        let mut covering = found.covering.iter().filter(|interval| interval.quark == quark);
        let interval = match (covering.next(), covering.next()) {
            (Some(interval), None) => interval,
            _ => return Err(Why::R7),
        };
        bytes.extend((quark as u32).to_le_bytes());
        bytes.extend([interval.kind, 0, 0, 0]);
        bytes.extend(interval.start.to_le_bytes());
        bytes.extend(interval.end.to_le_bytes());
        bytes.extend(interval.value.to_le_bytes());
    }
    Ok(bytes)
}

/// "query 3 record, 2, 7, 6, 3"; of the record what the numbers say, "nodes under N times size", the answer's length.
fn admitted(of: &Finished, t: u64, quark: Option<u32>, nodes: &[u8], answer_len: usize) -> Result<(), Why> {
    if !of.sound() {
        return Err(Why::Record);
    }
    if (nodes.len() as u64) < of.shape().n * of.shape().node_size() {
        return Err(Why::NodesShort);
    }
    // "their answer needs 8 bytes more, so a single's 40"
    let needed = 8 + 32 * if quark.is_some() { 1 } else { u64::from(of.attributes) };
    if (answer_len as u64) < needed {
        return Err(Why::AnswerShort);
    }
    if quark.map_or(false, |quark| quark >= of.attributes) {
        return Err(Why::Quark);
    }
    if t < of.start || t > of.latest {
        return Err(Why::Time);
    }
    Ok(())
}

/// The exported single question: the bytes that it writes, or why it writes none.
pub fn single(of: &Finished, t: u64, quark: u32, nodes: &[u8], answer_len: usize) -> Result<Vec<u8>, Why> {
    admitted(of, t, Some(quark), nodes, answer_len)?;
    answer(&walk(of, t, nodes)?, u64::from(quark)..u64::from(quark) + 1)
}

/// The exported full question.
pub fn full(of: &Finished, t: u64, nodes: &[u8], answer_len: usize) -> Result<Vec<u8>, Why> {
    admitted(of, t, None, nodes, answer_len)?;
    answer(&walk(of, t, nodes)?, 0..u64::from(of.attributes))
}
