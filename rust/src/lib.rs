//! Questions about a finished state history, for a page server written in Rust.
//!
//! The work is done by the proved library behind the C functions of `include/history.h`; this crate only makes them safe to
//! call and their answers easy to read. It allocates nothing and keeps nothing between calls.
//!
//! A finished history is a [`History`] (nine numbers) and its node bytes. Every content of the bytes and every value of the
//! numbers is allowed: what is damaged is refused by name, and each call ends.
//!
//! # A complete example
//!
#![doc = concat!("```\n", include_str!("../examples/ask.rs"), "```")]
#![warn(missing_docs)]

use std::fmt;

extern "C" {
    fn history_single(
        start: u64,
        latest: u64,
        attributes: u32,
        k: u32,
        c: u32,
        n: u32,
        used: u32,
        root: u32,
        level: u32,
        t: u64,
        quark: u32,
        nodes: *const u8,
        nodes_len: usize,
        answer: *mut u8,
        answer_len: usize,
    ) -> u32;
    fn history_full(
        start: u64,
        latest: u64,
        attributes: u32,
        k: u32,
        c: u32,
        n: u32,
        used: u32,
        root: u32,
        level: u32,
        t: u64,
        nodes: *const u8,
        nodes_len: usize,
        answer: *mut u8,
        answer_len: usize,
    ) -> u32;
}

/// The numbers of a finished history, as the record had them when it was finished. Times are universal nanoseconds.
#[derive(Clone, Copy, Debug, PartialEq, Eq)]
pub struct History {
    /// First instant of the history, at most 2^63-1.
    pub start: u64,
    /// The time of the finish, the last instant that can be asked about.
    pub latest: u64,
    /// How many attributes there are, at most 4,096.
    pub attributes: u32,
    /// Intervals per node, at least 1.
    pub k: u32,
    /// Children per node, 2 to 50.
    pub c: u32,
    /// Nodes that the buffer has room for, 1 to 65,536.
    pub n: u32,
    /// Nodes that are used, 1 to `n`.
    pub used: u32,
    /// The root's place among the nodes.
    pub root: u32,
    /// The root's level, at most 15.
    pub level: u32,
}

/// What an attribute was, and from when to when, both ends included.
#[derive(Clone, Copy, Debug, PartialEq, Eq)]
pub struct State {
    /// The attribute.
    pub quark: u32,
    /// Its value; `None` is null.
    pub value: Option<i64>,
    /// First instant of the state.
    pub start: u64,
    /// Last instant of the state.
    pub end: u64,
}

impl State {
    /// Reads an interval entry of an answer: quark u32, kind u8, three zero bytes, start u64, end u64, value i64.
    fn read(entry: &[u8]) -> State {
        let word = |at: usize| u64::from_le_bytes(entry[at..at + 8].try_into().expect("eight bytes"));
        State {
            quark: u32::from_le_bytes(entry[..4].try_into().expect("four bytes")),
            value: if entry[4] == 0 { None } else { Some(word(24) as i64) },
            start: word(8),
            end: word(16),
        }
    }
}

/// The answer to a full question, read out of the slice that was lent for it.
#[derive(Clone, Copy, Debug)]
pub struct Full<'a> {
    entries: &'a [u8],
    /// How many nodes were entered.
    pub entered: u64,
}

impl<'a> Full<'a> {
    /// One state for each attribute, in the order of their quarks.
    pub fn states(&self) -> impl ExactSizeIterator<Item = State> + 'a {
        self.entries.chunks_exact(32).map(State::read)
    }
}

/// Why a question was not answered. `Display` gives sentences that can be read out.
#[derive(Clone, Copy, Debug, PartialEq, Eq)]
pub enum Refusal {
    /// 2: the node bytes, or the slice for the answer, are too short.
    TooShort,
    /// 3: the history's numbers or nodes contradict the rules.
    Damaged,
    /// 6: the instant is before the start or after the latest time.
    OutsideTime,
    /// 7: there is no such attribute.
    NoSuchQuark,
    /// A number that the library's promise does not know: library and crate are of different versions.
    Unknown(u32),
}

impl Refusal {
    /// The number that the library returned.
    pub fn number(self) -> u32 {
        match self {
            Refusal::TooShort => 2,
            Refusal::Damaged => 3,
            Refusal::OutsideTime => 6,
            Refusal::NoSuchQuark => 7,
            Refusal::Unknown(number) => number,
        }
    }

    fn from(number: u32) -> Result<(), Refusal> {
        match number {
            0 => Ok(()),
            2 => Err(Refusal::TooShort),
            3 => Err(Refusal::Damaged),
            6 => Err(Refusal::OutsideTime),
            7 => Err(Refusal::NoSuchQuark),
            other => Err(Refusal::Unknown(other)),
        }
    }
}

impl fmt::Display for Refusal {
    fn fmt(&self, to: &mut fmt::Formatter) -> fmt::Result {
        match self {
            Refusal::TooShort => to.write_str(
                "Refusal 2: the page server handed over too few bytes. The study is not at fault. \
                 Check that the study's file was loaded whole, and report it to the page server's keepers.",
            ),
            Refusal::Damaged => to.write_str(
                "Refusal 3: the study's stored history is damaged, so nothing is shown from it. \
                 Do not read older figures out in its place. Load the study again from its saved copy, and report it.",
            ),
            Refusal::OutsideTime => to.write_str(
                "Refusal 6: the study has no record for that instant. \
                 It lies before the study's start or after its end; ask about an instant between the two, in universal time.",
            ),
            Refusal::NoSuchQuark => to.write_str(
                "Refusal 7: the study has no attribute with that number. \
                 Look the number up in the study's list of attributes; they count from 0.",
            ),
            Refusal::Unknown(number) => write!(
                to,
                "Refusal {}: this number is not known to the page server. \
                 Its library and its program are of different versions; install both from one release.",
                number
            ),
        }
    }
}

impl std::error::Error for Refusal {}

impl History {
    /// How many bytes the answer to a full question takes.
    pub fn full_answer_len(&self) -> usize {
        8 + 32 * self.attributes as usize
    }

    /// The state of one attribute at `t`, and how many nodes were entered to find it.
    ///
    /// The library tests the length of `nodes` itself, so any slice may be lent.
    pub fn single(&self, t: u64, quark: u32, nodes: &[u8]) -> Result<(State, u64), Refusal> {
        let mut answer = [0; 40];
        // The slices are alive over the call and told with their true lengths; `answer` is our own.
        Refusal::from(unsafe {
            history_single(
                self.start,
                self.latest,
                self.attributes,
                self.k,
                self.c,
                self.n,
                self.used,
                self.root,
                self.level,
                t,
                quark,
                nodes.as_ptr(),
                nodes.len(),
                answer.as_mut_ptr(),
                answer.len(),
            )
        })?;
        let (entered, entry) = answer.split_at(8);
        Ok((State::read(entry), u64::from_le_bytes(entered.try_into().expect("eight bytes"))))
    }

    /// The states of all attributes at `t`, written into `answer`, which needs [`History::full_answer_len`] bytes.
    ///
    /// Refused, the call writes nothing; answered, it leaves the bytes after the answer as they were. The library tests both
    /// lengths itself, so any slices may be lent.
    pub fn full<'a>(&self, t: u64, nodes: &[u8], answer: &'a mut [u8]) -> Result<Full<'a>, Refusal> {
        // The slices are alive over the call, told with their true lengths, and cannot overlap: one is borrowed alone.
        Refusal::from(unsafe {
            history_full(
                self.start,
                self.latest,
                self.attributes,
                self.k,
                self.c,
                self.n,
                self.used,
                self.root,
                self.level,
                t,
                nodes.as_ptr(),
                nodes.len(),
                answer.as_mut_ptr(),
                answer.len(),
            )
        })?;
        // Accepted, so the answer is not shorter than this.
        let (entered, entries) = answer[..self.full_answer_len()].split_at(8);
        Ok(Full { entries, entered: u64::from_le_bytes(entered.try_into().expect("eight bytes")) })
    }
}

#[cfg(test)]
mod tests {
    use super::*;

    /// A node of shape K 2, C 2: 120 bytes, from its header's numbers and its entries.
    fn node(start: u64, end: u64, place: u32, parent: u32, level: u8, children: &[(u32, u64)], intervals: &[State]) -> Vec<u8> {
        let mut bytes = Vec::new();
        bytes.extend(start.to_le_bytes());
        bytes.extend(end.to_le_bytes());
        bytes.extend(place.to_le_bytes());
        bytes.extend(parent.to_le_bytes());
        bytes.extend((intervals.len() as u16).to_le_bytes());
        bytes.extend((children.len() as u16).to_le_bytes());
        bytes.extend([level, 2, 0, 0]);
        for (place, start) in children {
            bytes.extend(place.to_le_bytes());
            bytes.extend(start.to_le_bytes());
        }
        bytes.resize(56, 0);
        for state in intervals {
            bytes.extend(state.quark.to_le_bytes());
            bytes.extend([state.value.is_some() as u8, 0, 0, 0]);
            bytes.extend(state.start.to_le_bytes());
            bytes.extend(state.end.to_le_bytes());
            bytes.extend(state.value.unwrap_or(0).to_le_bytes());
        }
        bytes.resize(120, 0);
        bytes
    }

    fn state(quark: u32, value: Option<i64>, start: u64, end: u64) -> State {
        State { quark, value, start, end }
    }

    /// The history of document 01's listing after its finish(50): nodes 0 [0,9], 1 [0,39], 2 [10,29], 3 root [0,50], 4 and 5 [40,50].
    fn listing() -> (History, Vec<u8>) {
        let nodes = [
            node(0, 9, 0, 1, 0, &[], &[state(0, None, 0, 9), state(1, None, 0, 9)]),
            node(0, 39, 1, 3, 1, &[(0, 0), (2, 10)], &[state(0, Some(2), 20, 39)]),
            node(10, 29, 2, 1, 0, &[], &[state(0, Some(1), 10, 19), state(1, Some(5), 10, 29)]),
            node(0, 50, 3, u32::MAX, 2, &[(1, 0), (4, 40)], &[state(1, Some(6), 30, 50)]),
            node(40, 50, 4, 3, 1, &[(5, 40)], &[]),
            node(40, 50, 5, 4, 0, &[], &[state(0, None, 40, 50)]),
        ];
        let history = History { start: 0, latest: 50, attributes: 2, k: 2, c: 2, n: 6, used: 6, root: 3, level: 2 };
        (history, nodes.concat())
    }

    #[test]
    fn a_single_question_is_answered() {
        let (history, nodes) = listing();
        assert_eq!(history.single(25, 0, &nodes), Ok((state(0, Some(2), 20, 39), 3)));
        assert_eq!(history.single(45, 0, &nodes), Ok((state(0, None, 40, 50), 3)));
    }

    #[test]
    fn a_full_question_is_answered_and_the_rest_of_the_slice_left() {
        let (history, nodes) = listing();
        let mut answer = [7; 100];
        let full = history.full(39, &nodes, &mut answer).expect("answered");
        assert_eq!(full.entered, 2);
        assert_eq!(full.states().collect::<Vec<_>>(), [state(0, Some(2), 20, 39), state(1, Some(6), 30, 50)]);
        assert_eq!(history.full_answer_len(), 72);
        assert_eq!(answer[72..], [7; 28]);
    }

    #[test]
    fn a_negative_value_keeps_its_sign() {
        let history = History { start: 0, latest: 9, attributes: 1, k: 2, c: 2, n: 1, used: 1, root: 0, level: 0 };
        let nodes = node(0, 9, 0, u32::MAX, 0, &[], &[state(0, Some(i64::MIN), 0, 9)]);
        assert_eq!(history.single(0, 0, &nodes), Ok((state(0, Some(i64::MIN), 0, 9), 1)));
    }

    #[test]
    fn each_refusal_has_its_name() {
        let (history, nodes) = listing();
        let refused = |history: History, t: u64, quark: u32, nodes: &[u8]| history.single(t, quark, nodes).unwrap_err();
        assert_eq!(refused(history, 25, 0, &nodes[1..]), Refusal::TooShort);
        assert_eq!(refused(history, 25, 0, &[]), Refusal::TooShort);
        assert_eq!(refused(history, 51, 0, &nodes), Refusal::OutsideTime);
        assert_eq!(refused(history, 25, 2, &nodes), Refusal::NoSuchQuark);
        assert_eq!(refused(History { level: 1, ..history }, 25, 0, &nodes), Refusal::Damaged);
        assert_eq!(refused(History { k: 0, ..history }, 25, 0, &nodes), Refusal::Damaged);
    }

    #[test]
    fn a_refused_question_writes_nothing() {
        let (history, nodes) = listing();
        let mut answer = [7; 71];
        assert_eq!(history.full(25, &nodes, &mut answer).unwrap_err(), Refusal::TooShort);
        assert_eq!(history.full(25, &nodes, &mut []).unwrap_err(), Refusal::TooShort);
        assert_eq!(answer, [7; 71]);
    }

    #[test]
    fn a_refusal_reads_out_its_number() {
        for refusal in [Refusal::TooShort, Refusal::Damaged, Refusal::OutsideTime, Refusal::NoSuchQuark, Refusal::Unknown(99)] {
            assert!(refusal.to_string().starts_with(&format!("Refusal {}: ", refusal.number())));
            assert!(refusal.to_string().ends_with('.'));
        }
    }
}
