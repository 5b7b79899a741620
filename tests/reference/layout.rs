//! "Node layout (little-endian)": the bytes of a history's nodes, so that tests can make node buffers and damage them.

use crate::history::{Interval, Node, Shape, Tree};

/// "Header, 32 bytes: start u64; end u64 (2^64-1 while open); sequence u32; parent u32 (2^32-1 for none); intervals u16;
/// children u16; level u8; state u8 (1 open, 2 closed); two zero bytes."
pub mod header {
    pub const START: usize = 0;
    pub const END: usize = 8;
    pub const SEQUENCE: usize = 16;
    pub const PARENT: usize = 20;
    pub const INTERVALS: usize = 24;
    pub const CHILDREN: usize = 26;
    pub const LEVEL: usize = 28;
    pub const STATE: usize = 29;
    pub const ZERO: usize = 30;
}

/// "Then C child entries of sequence u32 and start u64."
pub mod child {
    pub const SEQUENCE: usize = 0;
    pub const START: usize = 4;
}

/// "Then K interval entries of 32 bytes: quark u32, kind u8, three zero bytes, start u64, end u64, value i64 (0 for null)."
pub mod entry {
    pub const QUARK: usize = 0;
    pub const KIND: usize = 4;
    pub const ZERO: usize = 5;
    pub const START: usize = 8;
    pub const END: usize = 16;
    pub const VALUE: usize = 24;
}

/// "Node i stands at i times the node size."
pub fn node_at(shape: Shape, place: usize) -> usize {
    place * shape.node_size() as usize
}

/// Where child entry i of a node begins.
pub fn child_at(shape: Shape, place: usize, i: usize) -> usize {
    node_at(shape, place) + 32 + 12 * i
}

/// Where interval entry i of a node begins.
pub fn interval_at(shape: Shape, place: usize, i: usize) -> usize {
    node_at(shape, place) + 32 + 12 * shape.c as usize + 32 * i
}

pub fn put(bytes: &mut [u8], at: usize, number: &[u8]) {
    bytes[at..at + number.len()].copy_from_slice(number);
}

/// One interval entry: null is kind 0 with value 0, an integer is kind 1.
pub fn put_interval(bytes: &mut [u8], at: usize, interval: &Interval) {
    put(bytes, at + entry::QUARK, &interval.quark.to_le_bytes());
    put(bytes, at + entry::KIND, &[interval.value.is_some() as u8, 0, 0, 0]);
    put(bytes, at + entry::START, &interval.start.to_le_bytes());
    put(bytes, at + entry::END, &interval.end.to_le_bytes());
    put(bytes, at + entry::VALUE, &interval.value.unwrap_or(0).to_le_bytes());
}

fn put_node(bytes: &mut [u8], tree: &Tree, place: usize, node: &Node) {
    let at = node_at(tree.shape, place);
    put(bytes, at + header::START, &node.start.to_le_bytes());
    put(bytes, at + header::END, &node.end.unwrap_or(u64::MAX).to_le_bytes());
    put(bytes, at + header::SEQUENCE, &(place as u32).to_le_bytes());
    put(bytes, at + header::PARENT, &node.parent.map_or(u32::MAX, |parent| parent as u32).to_le_bytes());
    put(bytes, at + header::INTERVALS, &(node.intervals.len() as u16).to_le_bytes());
    put(bytes, at + header::CHILDREN, &(node.children.len() as u16).to_le_bytes());
    put(bytes, at + header::LEVEL, &[node.level as u8]);
    put(bytes, at + header::STATE, &[if node.end.is_none() { 1 } else { 2 }]);
    for (i, &place_of_child) in node.children.iter().enumerate() {
        let at = child_at(tree.shape, place, i);
        put(bytes, at + child::SEQUENCE, &(place_of_child as u32).to_le_bytes());
        put(bytes, at + child::START, &tree.nodes[place_of_child].start.to_le_bytes());
    }
    for (i, interval) in node.intervals.iter().enumerate() {
        put_interval(bytes, interval_at(tree.shape, place, i), interval);
    }
}

/// The used nodes in a buffer for N of them. "Unused entries are zero", and so is the room behind the used nodes.
pub fn node_bytes(tree: &Tree) -> Vec<u8> {
    let mut bytes = vec![0; (tree.shape.n * tree.shape.node_size()) as usize];
    for (place, node) in tree.nodes.iter().enumerate() {
        put_node(&mut bytes, tree, place, node);
    }
    bytes
}
