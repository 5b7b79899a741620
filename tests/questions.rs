//! Asks the exported questions, linked from the static library as the page server links them, and compares the answers with
//! document 01: with the reference's scan and tally on finished histories, with tests/reference/rules.rs on damaged ones.
//!
//! Every slice is lent between canaries; an answer's own bytes are filled before, so that a byte too many is seen.

mod damage;
#[path = "reference/history.rs"]
mod history;
#[path = "reference/layout.rs"]
mod layout;
#[path = "reference/rules.rs"]
mod rules;
mod seeded;

use damage::Case;
use history::{Answer, Change, History, Interval, Lent, Shape};
use rules::{Finished, Why};
use seeded::{hex, Seeded};
use std::collections::BTreeMap;
use std::process::exit;

// As include/history.h declares them.
#[rustfmt::skip]
extern "C" {
    fn history_single(
        start: u64, latest: u64, attributes: u32, k: u32, c: u32, n: u32, used: u32, root: u32, level: u32,
        t: u64, quark: u32, nodes: *const u8, nodes_len: usize, answer: *mut u8, answer_len: usize,
    ) -> u32;
    fn history_full(
        start: u64, latest: u64, attributes: u32, k: u32, c: u32, n: u32, used: u32, root: u32, level: u32,
        t: u64, nodes: *const u8, nodes_len: usize, answer: *mut u8, answer_len: usize,
    ) -> u32;
}

/// One question: a single one has its quark.
#[derive(Clone, Copy, Debug)]
pub struct Question {
    of: Finished,
    t: u64,
    quark: Option<u32>,
    answer_len: usize,
}

/// Bytes that stand around and in lent slices, different at each place.
fn canary(at: usize) -> u8 {
    (at as u8).wrapping_mul(37) ^ 0xa5
}

/// What is lent: bytes with canaries on both sides. The margin varies, so that slices begin at odd addresses too.
struct LentBytes {
    all: Vec<u8>,
    margin: usize,
    length: usize,
}

impl LentBytes {
    fn around(bytes: &[u8], margin: usize) -> LentBytes {
        let mut all: Vec<u8> = (0..margin + bytes.len() + 64).map(canary).collect();
        all[margin..margin + bytes.len()].copy_from_slice(bytes);
        LentBytes { all, margin, length: bytes.len() }
    }

    fn untouched(length: usize, margin: usize) -> LentBytes {
        LentBytes { all: (0..margin + length + 64).map(canary).collect(), margin, length }
    }

    fn inside(&self) -> &[u8] {
        &self.all[self.margin..self.margin + self.length]
    }
}

/// Asks the library. Gives its number and the answer slice as it is afterwards, or what it did to bytes that are not its own.
#[rustfmt::skip]
fn ask(question: &Question, nodes: &LentBytes) -> Result<(u32, LentBytes), String> {
    let Question { of, t, quark, answer_len } = *question;
    let before = nodes.all.clone();
    let mut answer = LentBytes::untouched(answer_len, nodes.margin);
    let nodes_at = nodes.inside().as_ptr();
    let answer_at = answer.all[answer.margin..].as_mut_ptr();
    // Both slices are alive over the call, do not overlap, and their lengths are told as they are.
    let number = unsafe {
        match quark {
            Some(quark) => history_single(
                of.start, of.latest, of.attributes, of.k, of.c, of.n, of.used, of.root, of.level,
                t, quark, nodes_at, nodes.length, answer_at, answer_len,
            ),
            None => history_full(
                of.start, of.latest, of.attributes, of.k, of.c, of.n, of.used, of.root, of.level,
                t, nodes_at, nodes.length, answer_at, answer_len,
            ),
        }
    };
    if nodes.all != before {
        return Err("the node bytes, or bytes around them, were written".into());
    }
    Ok((number, answer))
}

/// "A refusal returns its number [..] and nothing written"; accepted, "bytes after them are not touched".
fn agrees(question: &Question, nodes: &LentBytes, want: &Result<Vec<u8>, u32>) -> Result<(), String> {
    let (number, answer) = ask(question, nodes)?;
    let (wanted_number, written) = match want {
        Ok(bytes) => (0, &bytes[..]),
        Err(number) => (*number, &[][..]),
    };
    if number != wanted_number {
        return Err(format!("number {} wanted, {} given", wanted_number, number));
    }
    let mut wanted = LentBytes::untouched(question.answer_len, nodes.margin);
    wanted.all[wanted.margin..wanted.margin + written.len()].copy_from_slice(written);
    if answer.all == wanted.all {
        return Ok(());
    }
    if answer.inside()[..written.len()] != *written {
        return Err(format!("answer wanted {}\n  answer given  {}", hex(written), hex(&answer.inside()[..written.len()])));
    }
    Err("bytes beyond the answer were written".into())
}

/// The run's tally: what agreed, what was met.
struct Run {
    seed: u64,
    agreed: u64,
    differ: u64,
    met: BTreeMap<String, u64>,
}

impl Run {
    fn compare(&mut self, name: &str, question: &Question, nodes: &LentBytes, want: &Result<Vec<u8>, u32>) {
        match agrees(question, nodes, want) {
            Ok(()) => self.agreed += 1,
            Err(how) => {
                self.differ += 1;
                // The first few tell what is wrong; a library that answers nothing right would fill the screen.
                if self.differ <= 5 {
                    println!("DIFFERENT: SEED={} {}", self.seed, name);
                    println!("  {}\n  {:?}", how, question);
                    println!("  {} node bytes as hex: {}", nodes.length, hex(nodes.inside()));
                }
            }
        }
    }

    fn meet(&mut self, what: String) {
        *self.met.entry(what).or_default() += 1;
    }
}

/// The numbers of a finished history, as its host keeps them.
fn numbers(history: &History) -> Finished {
    let Shape { k, c, n } = history.tree.shape;
    let root = history.tree.root();
    Finished {
        start: history.start,
        latest: history.latest,
        attributes: history.ongoing.len() as u32,
        k: k as u32,
        c: c as u32,
        n: n as u32,
        used: history.tree.nodes.len() as u32,
        root: root as u32,
        level: history.tree.nodes[root].level as u32,
    }
}

/// "write the nodes entered as u64, then the entries"
fn written(answer: &Answer) -> Vec<u8> {
    let mut bytes = vec![0; 8 + 32 * answer.intervals.len()];
    layout::put(&mut bytes, 0, &answer.entered.to_le_bytes());
    for (i, interval) in answer.intervals.iter().enumerate() {
        layout::put_interval(&mut bytes, 8 + 32 * i, interval);
    }
    bytes
}

fn needed(of: &Finished, quark: Option<u32>) -> usize {
    8 + 32 * if quark.is_some() { 1 } else { of.attributes as usize }
}

const NO_LIMIT: Lent = Lent { node_bytes: u64::MAX, table_entries: history::MOST_ATTRIBUTES };

// ---- typed from document 01 ----

fn listing() -> History {
    let mut made = History::open(0, 2, Shape { k: 2, c: 2, n: 6 }, NO_LIMIT).expect("the listing opens");
    for (t, quark, change) in [
        (10, 0, Change::Set(1)),
        (10, 1, Change::Set(5)),
        (20, 0, Change::Set(2)),
        (30, 1, Change::Set(6)),
        (40, 0, Change::Remove),
    ] {
        made.change(t, quark, change).expect("the listing's changes are accepted");
    }
    made.finish(50).expect("the listing finishes");
    made
}

/// An example's answer: a number, or the nodes entered and for each quark kind, value, start and end.
type Typed<'a> = Result<(u64, &'a [(u8, i64, u64, u64)]), u32>;

fn examples(run: &mut Run) {
    let made = listing();
    // "E1 Size 120. Nodes after finish: 0 [0,9], 1 [0,39], 2 [10,29], 3 root [0,50], 4 and 5 [40,50]."
    assert_eq!(made.tree.shape.node_size(), 120);
    let bounds: Vec<_> = made.tree.nodes.iter().map(|node| (node.start, node.end.expect("all are closed"))).collect();
    assert_eq!(bounds, [(0, 9), (0, 39), (10, 29), (0, 50), (40, 50), (40, 50)], "the reference and E1 differ");
    assert_eq!(made.tree.root(), 3);
    let typed: [(&str, u64, Option<u32>, Typed); 6] = [
        ("single(25, q0)", 25, Some(0), Ok((3, &[(1, 2, 20, 39)]))),
        ("full(25)", 25, None, Ok((3, &[(1, 2, 20, 39), (1, 5, 10, 29)]))),
        ("E2", 39, None, Ok((2, &[(1, 2, 20, 39), (1, 6, 30, 50)]))),
        ("E3", 40, None, Ok((3, &[(0, 0, 40, 50), (1, 6, 30, 50)]))),
        ("E4 at 0", 0, None, Ok((3, &[(0, 0, 0, 9), (0, 0, 0, 9)]))),
        ("E4 at 51", 51, None, Err(6)),
    ];
    let (of, nodes) = (numbers(&made), LentBytes::around(&layout::node_bytes(&made.tree), 64));
    for (name, t, quark, answer) in typed {
        let want = answer.map(|(entered, states)| {
            let state = |(quark, &(kind, value, start, end)): (u32, &(u8, i64, u64, u64))| {
                let value = if kind == 0 { None } else { Some(value) };
                Interval { quark, value, start, end }
            };
            written(&Answer { intervals: (quark.unwrap_or(0)..).zip(states).map(state).collect(), entered })
        });
        run.compare(name, &Question { of, t, quark, answer_len: needed(&of, quark) }, &nodes, &want);
    }
    // "E9 C 50 with K 2,028 is allowed (65,528 bytes), K 2,029 refused 1": here 3, since it is a record's shape.
    let mut wide = History::open(0, 1, Shape { k: 2028, c: 50, n: 1 }, NO_LIMIT).expect("E9's shape is allowed");
    wide.finish(9).expect("one interval needs no second node");
    let of = numbers(&wide);
    assert_eq!(of.shape().node_size(), 65_528);
    let nodes = LentBytes::around(&layout::node_bytes(&wide.tree), 64);
    let want = Ok(written(&Answer { intervals: vec![Interval { quark: 0, value: None, start: 0, end: 9 }], entered: 1 }));
    run.compare("E9, K 2,028", &Question { of, t: 9, quark: Some(0), answer_len: 40 }, &nodes, &want);
    let of = Finished { k: 2029, ..of };
    run.compare("E9, K 2,029", &Question { of, t: 9, quark: Some(0), answer_len: 40 }, &nodes, &Err(3));
    // "at most 65,536 bytes": 32 + 12 * 8 + 32 * 2,044 is just that.
    let mut widest = History::open(0, 1, Shape { k: 2044, c: 8, n: 1 }, NO_LIMIT).expect("65,536 bytes are allowed");
    widest.finish(9).expect("one interval needs no second node");
    let of = numbers(&widest);
    let nodes = LentBytes::around(&layout::node_bytes(&widest.tree), 64);
    run.compare("a node of 65,536 bytes", &Question { of, t: 0, quark: Some(0), answer_len: 40 }, &nodes, &want);
    // "E10 K 1, C 2, no events, finish at once: 16 attributes accepted at depth 16 with N 16"
    let mut deep = History::open(0, 16, Shape { k: 1, c: 2, n: 16 }, NO_LIMIT).expect("E10 opens");
    deep.finish(0).expect("E10 finishes");
    let of = numbers(&deep);
    assert_eq!((of.level, of.used), (15, 16));
    let nodes = LentBytes::around(&layout::node_bytes(&deep.tree), 64);
    let intervals = (0..16).map(|quark| Interval { quark, value: None, start: 0, end: 0 }).collect();
    let want = Ok(written(&Answer { intervals, entered: 16 }));
    run.compare("E10", &Question { of, t: 0, quark: None, answer_len: 8 + 32 * 16 }, &nodes, &want);
}

// ---- histories left as they were built ----

/// A finished history of a small shape, so that trees get deep and full. One that runs out of depth or room is finished earlier.
fn finished(random: &mut Seeded) -> History {
    let shape = Shape { k: random.between(1, 4), c: random.between(2, 5), n: random.between(1, 60) };
    let start = match random.below(6) {
        0 => 0,
        1 => history::LAST_TIME - 60,
        _ => random.below(1 << 40),
    };
    let mut made = History::open(start, random.below(6), shape, NO_LIMIT).expect("a small shape is allowed");
    let mut before = made.clone();
    for _ in 0..random.between(0, 60) {
        if random.once_in(15) {
            made.add().expect("4,096 are far off");
        }
        if made.ongoing.is_empty() || made.latest > start + 40 {
            continue;
        }
        let change = match random.below(5) {
            0 => Change::Remove,
            1 => Change::Increment,
            2 => Change::Set(random.one_of(&[i64::MIN, i64::MAX, -1, 0])),
            _ => Change::Set(random.below(3) as i64),
        };
        let (t, quark) = (made.latest + random.one_of(&[0, 1, 1, 2]), random.below(made.ongoing.len() as u64) as u32);
        if made.change(t, quark, change).is_ok() && made.clone().finish(t).is_ok() {
            before = made.clone();
        }
    }
    for mut last in [made, before] {
        let end = last.latest + random.below(3);
        if last.finish(end).is_ok() {
            return last;
        }
    }
    // Not even the attributes of the opening fit: a shape with no use, so another.
    finished(random)
}

/// A history with the most children that a node can have, 50, at two nodes.
fn wide() -> History {
    let mut made = History::open(100, 1, Shape { k: 1, c: 50, n: 110 }, NO_LIMIT).expect("50 children are allowed");
    for i in 1..=100 {
        made.change(100 + i, 0, Change::Set(-(i as i64))).expect("110 nodes do");
    }
    made.finish(210).expect("110 nodes do");
    assert!(made.tree.nodes.iter().filter(|node| node.children.len() == 50).count() >= 2);
    made
}

/// Every instant, for every quark and in full; and the instants just outside.
fn ask_everywhere(run: &mut Run, number: u64, made: &History) {
    let of = numbers(made);
    let nodes = LentBytes::around(&layout::node_bytes(&made.tree), 64 + number as usize % 8);
    let outside = [made.start.wrapping_sub(1), made.latest + 1, history::LAST_TIME + 1, u64::MAX];
    run.meet(format!("root at level {:2}", of.level));
    for t in (made.start..=made.latest).chain(outside) {
        let quarks = 0..of.attributes + 1;
        for quark in quarks.map(Some).chain([None]) {
            let (scanned, read) = match quark {
                Some(quark) => (made.single(t, quark), rules::single(&of, t, quark, nodes.inside(), 40)),
                None => (made.full(t), rules::full(&of, t, nodes.inside(), needed(&of, None))),
            };
            let want = scanned.map(|answer| written(&answer));
            assert_eq!(read.map_err(Why::number), want, "history {}: the reference's scan and its rules differ at {}", number, t);
            run.compare(
                &format!("history {}", number),
                &Question { of, t, quark, answer_len: needed(&of, quark) },
                &nodes,
                &want,
            );
        }
    }
}

/// The most attributes, in the fewest nodes that hold them: 4,096 in three of 2,046 intervals each.
fn ask_the_largest(run: &mut Run) {
    let mut made = History::open(7, 4096, Shape { k: 2046, c: 2, n: 3 }, NO_LIMIT).expect("the largest node is allowed");
    made.finish(8).expect("three nodes do");
    let (of, t) = (numbers(&made), 8);
    let nodes = LentBytes::around(&layout::node_bytes(&made.tree), 64);
    for quark in [Some(0), Some(2046), Some(4095), Some(4096), None] {
        let want = match quark {
            Some(quark) => made.single(t, quark),
            None => made.full(t),
        };
        let want = want.map(|answer| written(&answer));
        run.compare("4,096 attributes", &Question { of, t, quark, answer_len: needed(&of, quark) }, &nodes, &want);
    }
}

fn ask_damaged(run: &mut Run, number: u64, histories: &[History]) {
    let random = &mut Seeded::case(run.seed, number);
    let made = &histories[random.below(histories.len() as u64) as usize];
    let of = numbers(made);
    let quark = if of.attributes > 0 && random.once_in(2) { Some(random.below(of.attributes.into()) as u32) } else { None };
    let t = random.between(made.start, made.latest);
    // "bytes after them are not touched": answers longer than needed.
    let answer_len = needed(&of, quark) + random.one_of(&[0, 0, 0, 1, 31, 200]);
    let mut case = Case { made, question: Question { of, t, quark, answer_len }, bytes: layout::node_bytes(&made.tree) };
    case.damage(random);
    let Case { question, bytes, .. } = case;
    let want = match question.quark {
        Some(quark) => rules::single(&question.of, question.t, quark, &bytes, question.answer_len),
        None => rules::full(&question.of, question.t, &bytes, question.answer_len),
    };
    run.meet(match &want {
        Ok(_) => "accepted".into(),
        Err(why) => format!("{:?}", why),
    });
    let nodes = LentBytes::around(&bytes, 64 + number as usize % 8);
    run.compare(&format!("damaged {}", number), &question, &nodes, &want.map_err(Why::number));
}

/// Numbers of a shape whose products pass 32 bits: 2, not a read beyond the buffer.
fn ask_beyond_32_bits(run: &mut Run) {
    let of = Finished { start: 0, latest: 9, attributes: 1, k: 2028, c: 50, n: 65_536, used: 65_536, root: 65_535, level: 0 };
    // 2^26 times 32 is 2^31, twice that is 2^32; 12 times 357,913,942 is 8 more than 2^32.
    let shapes = [
        of,
        Finished { k: 2046, c: 2, ..of },
        Finished { k: 1 << 27, c: 2, n: 1, used: 1, root: 0, ..of },
        Finished { k: 1, c: 357_913_942, n: 1, used: 1, root: 0, ..of },
        Finished { k: u32::MAX, c: u32::MAX, n: u32::MAX, used: u32::MAX, root: u32::MAX, level: u32::MAX, ..of },
    ];
    let nodes = LentBytes::around(&[0; 256], 64);
    for of in shapes {
        for quark in [Some(0), None] {
            let question = Question { of, t: 5, quark, answer_len: 40 };
            let want = match quark {
                Some(quark) => rules::single(&of, 5, quark, nodes.inside(), 40),
                None => rules::full(&of, 5, nodes.inside(), 40),
            };
            run.compare("beyond 32 bits", &question, &nodes, &want.map_err(Why::number));
        }
    }
}

fn main() {
    let mut run = Run { seed: seeded::seed(), agreed: 0, differ: 0, met: BTreeMap::new() };
    examples(&mut run);
    let mut histories: Vec<History> = (0..120).map(|number| finished(&mut Seeded::case(run.seed ^ 1, number))).collect();
    histories.push(wide());
    for (number, made) in (0..).zip(&histories) {
        ask_everywhere(&mut run, number, made);
    }
    ask_the_largest(&mut run);
    ask_beyond_32_bits(&mut run);
    let sound = run.agreed + run.differ;
    for number in 0..seeded::cases(30_000) {
        ask_damaged(&mut run, number, &histories);
    }
    let asked = run.agreed + run.differ;

    let must_meet =
        ["accepted", "Record", "NodesShort", "AnswerShort", "Quark", "Time", "R1", "R2", "R3", "R4", "R5", "R6", "R7"];
    let never: Vec<_> = must_meet.iter().filter(|what| !run.met.contains_key(**what)).collect();
    for what in &never {
        println!("NEVER MET: {}", what);
    }
    let met: Vec<String> = run.met.iter().map(|(what, times)| format!("{}: {}", what, times)).collect();
    println!("met, with how often: {}", met.join(", "));
    println!(
        "questions: {} of {} agree ({} on {} histories as built, {} on damaged ones, SEED={})",
        run.agreed,
        asked,
        sound,
        histories.len(),
        asked - sound,
        run.seed
    );
    exit((run.differ > 0 || !never.is_empty()) as i32);
}
