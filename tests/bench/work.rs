//! The work that is timed: the numbers of an opening and a script of calls, made from a seed.

use crate::seeded::Seeded;

pub const SET: u8 = 0;
pub const REMOVE: u8 = 1;
pub const INCREMENT: u8 = 2;
pub const ADD: u8 = 3;
pub const FINISH: u8 = 4;
/// A finish after which the script goes on from the record before it, so that the same finish can be made again.
pub const FINISH_AGAIN: u8 = 5;
pub const SINGLE: u8 = 6;
pub const FULL: u8 = 7;

/// A call of a script: 32 bytes in an interval entry's layout, with quark, kind (which call), start (its time) and value.
pub const CALL: usize = 32;
/// What is said to it: refusal u32, nodes entered u32, and an interval entry, the answer's or, where there is none, the call's own.
pub const SAID: usize = 40;

pub struct Work {
    pub start: u64,
    pub attributes: u32,
    pub k: u32,
    pub c: u32,
    pub n: u32,
    pub script: Vec<u8>,
    /// How many calls at the front of the script only build the history; what comes behind them is timed.
    pub built: usize,
    pub latest: u64,
}

impl Work {
    pub fn new(attributes: u32, k: u32, c: u32, n: u32) -> Work {
        Work { start: 1000, attributes, k, c, n, script: Vec::new(), built: 0, latest: 1000 }
    }

    pub fn push(&mut self, kind: u8, t: u64, quark: u32, value: i64) {
        self.script.extend_from_slice(&quark.to_le_bytes());
        self.script.extend_from_slice(&[kind, 0, 0, 0]);
        self.script.extend_from_slice(&t.to_le_bytes());
        self.script.extend_from_slice(&u64::MAX.to_le_bytes());
        self.script.extend_from_slice(&value.to_le_bytes());
    }

    pub fn calls(&self) -> usize {
        self.script.len() / CALL
    }

    pub fn node_size(&self) -> usize {
        32 + 12 * self.c as usize + 32 * self.k as usize
    }

    /// What was pushed so far only builds the history.
    pub fn is_built(mut self) -> Work {
        self.built = self.calls();
        self
    }

    /// Changes as a study makes them: any attribute, time going on, values that now and then stay as they are or end.
    pub fn changes(mut self, seeded: &mut Seeded, count: usize) -> Work {
        for _ in 0..count {
            self.latest += seeded.below(20);
            let quark = seeded.below(self.attributes as u64) as u32;
            match seeded.below(10) {
                0 => self.push(REMOVE, self.latest, quark, 0),
                1 | 2 => self.push(INCREMENT, self.latest, quark, 0),
                _ => self.push(SET, self.latest, quark, seeded.below(1000) as i64),
            }
        }
        self
    }

    pub fn finish(mut self) -> Work {
        self.push(FINISH, self.latest, 0, 0);
        self
    }

    pub fn singles(mut self, seeded: &mut Seeded, count: usize) -> Work {
        for _ in 0..count {
            let quark = seeded.below(self.attributes as u64) as u32;
            let t = seeded.between(self.start, self.latest);
            self.push(SINGLE, t, quark, 0);
        }
        self
    }

    pub fn fulls(mut self, seeded: &mut Seeded, count: usize) -> Work {
        for _ in 0..count {
            let t = seeded.between(self.start, self.latest);
            self.push(FULL, t, 0, 0);
        }
        self
    }
}
