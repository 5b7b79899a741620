//! The two sides of a comparison, on the same script and on buffers of their own: the proved library and the plain Rust baseline.

use crate::baseline::{self, History};
use crate::work::*;
use std::time::Instant;

// crates/measure: not part of the product's interface.
#[rustfmt::skip]
extern "C" {
    fn history_measure(
        start: u64, attributes: u32, k: u32, c: u32, n: u32,
        script: *const u8, script_len: usize, nodes: *mut u8, nodes_len: usize, table: *mut u8, table_len: usize,
        answer: *mut u8, answer_len: usize, said: *mut u8, said_len: usize,
    ) -> u32;
    fn history_measure_finished(
        start: u64, latest: u64, attributes: u32, k: u32, c: u32, n: u32, used: u32, root: u32, level: u32,
        script: *const u8, script_len: usize, nodes: *mut u8, nodes_len: usize, table: *mut u8, table_len: usize,
        answer: *mut u8, answer_len: usize, said: *mut u8, said_len: usize,
    ) -> u32;
}

#[derive(PartialEq)]
pub struct Lent {
    pub nodes: Vec<u8>,
    pub table: Vec<u8>,
    pub answer: Vec<u8>,
    pub said: Vec<u8>,
}

impl Lent {
    /// Filled, so that a byte that only one side writes is seen.
    pub fn new(work: &Work) -> Lent {
        Lent {
            nodes: vec![0xa5; work.n as usize * work.node_size()],
            table: vec![0xa5; 4096 * CALL],
            answer: vec![0xa5; 4096 * CALL],
            said: vec![0xa5; work.calls() * SAID],
        }
    }

    pub fn refusal(&self, call: usize) -> u32 {
        u32::from_le_bytes(self.said[call * SAID..][..4].try_into().unwrap())
    }
}

/// Opens a history with the library and makes the first calls of the script. Returns the opening's refusal.
pub fn library(work: &Work, calls: usize, lent: &mut Lent) -> u32 {
    // The library reads and writes within the slices that it is lent; all of them live until it is back.
    #[rustfmt::skip]
    let refusal = unsafe {
        history_measure(
            work.start, work.attributes, work.k, work.c, work.n, work.script.as_ptr(), calls * CALL,
            lent.nodes.as_mut_ptr(), lent.nodes.len(), lent.table.as_mut_ptr(), lent.table.len(),
            lent.answer.as_mut_ptr(), lent.answer.len(), lent.said.as_mut_ptr(), lent.said.len(),
        )
    };
    refusal
}

/// The calls behind the built ones, asked of a finished history whose nodes stand in the buffer.
fn library_asked(work: &Work, history: &History, lent: &mut Lent) -> u32 {
    let script = &work.script[work.built * CALL..];
    let said = &mut lent.said[work.built * SAID..];
    let root = history.branch[history.top as usize].place;
    #[rustfmt::skip]
    let refusal = unsafe {
        history_measure_finished(
            work.start, history.latest, history.attributes, work.k, work.c, work.n, history.used, root, history.top,
            script.as_ptr(), script.len(), lent.nodes.as_mut_ptr(), lent.nodes.len(), lent.table.as_mut_ptr(), lent.table.len(),
            lent.answer.as_mut_ptr(), lent.answer.len(), said.as_mut_ptr(), said.len(),
        )
    };
    refusal
}

fn open(work: &Work, lent: &mut Lent) -> Result<History, u32> {
    baseline::open(work.start, work.attributes, work.k, work.c, work.n, &mut lent.nodes, &mut lent.table)
}

/// The calls from one to another, made on the baseline's history.
fn carry_out(history: &mut History, work: &Work, from: usize, to: usize, lent: &mut Lent) {
    let Lent { nodes, table, answer, said } = lent;
    let calls = work.script[from * CALL..to * CALL].chunks_exact(CALL);
    for (call, said) in calls.zip(said[from * SAID..].chunks_exact_mut(SAID)) {
        let quark = u32::from_le_bytes(call[0..4].try_into().unwrap());
        let t = u64::from_le_bytes(call[8..16].try_into().unwrap());
        let value = i64::from_le_bytes(call[24..32].try_into().unwrap());
        let mut entered = 0;
        said[8..].copy_from_slice(call);
        let refusal = match call[4] {
            SET => history.change(t, quark, baseline::Change::Set(value), nodes, table),
            REMOVE => history.change(t, quark, baseline::Change::Remove, nodes, table),
            INCREMENT => history.change(t, quark, baseline::Change::Increment, nodes, table),
            ADD => history.add(nodes, table),
            FINISH => history.finish(t, nodes, table),
            FINISH_AGAIN => history.clone().finish(t, nodes, table),
            SINGLE => match history.single(t, quark, nodes, table) {
                Ok(single) => {
                    entered = single.nodes;
                    let entry = single.entry;
                    said[8..12].copy_from_slice(&entry.quark.to_le_bytes());
                    said[12..16].copy_from_slice(&[entry.kind, 0, 0, 0]);
                    said[16..24].copy_from_slice(&entry.start.to_le_bytes());
                    said[24..32].copy_from_slice(&entry.end.to_le_bytes());
                    said[32..40].copy_from_slice(&entry.value.to_le_bytes());
                    0
                }
                Err(refusal) => {
                    said[8..].fill(0);
                    refusal
                }
            },
            _ => match history.full(t, nodes, table, answer) {
                Ok(nodes) => {
                    entered = nodes;
                    0
                }
                Err(refusal) => refusal,
            },
        };
        said[0..4].copy_from_slice(&refusal.to_le_bytes());
        said[4..8].copy_from_slice(&entered.to_le_bytes());
    }
}

/// The baseline's history after the first calls of the script.
pub fn played(work: &Work, calls: usize, lent: &mut Lent) -> Result<History, u32> {
    let mut history = open(work, lent)?;
    carry_out(&mut history, work, 0, calls, lent);
    Ok(history)
}

/// Makes every call on both sides and compares what they say and every byte that they leave. Ends the program where they differ.
pub fn compare(name: &str, work: &Work) -> (Lent, Lent) {
    let (mut ours, mut theirs) = (Lent::new(work), Lent::new(work));
    let opened = library(work, work.calls(), &mut ours);
    let same = [
        ("the opening", opened == played(work, work.calls(), &mut theirs).map_or_else(|refusal| refusal, |_| 0)),
        ("what is said", ours.said == theirs.said),
        ("the nodes", ours.nodes == theirs.nodes),
        ("the table", ours.table == theirs.table),
        ("the answer", ours.answer == theirs.answer),
    ];
    for (what, agrees) in same {
        if !agrees {
            eprintln!("{}: library and baseline differ in {}", name, what);
            std::process::exit(1);
        }
    }
    (ours, theirs)
}

fn nanoseconds<T>(run: impl FnOnce() -> T) -> f64 {
    let from = Instant::now();
    run();
    from.elapsed().as_nanos() as f64
}

pub fn median(mut numbers: Vec<f64>) -> f64 {
    numbers.sort_by(f64::total_cmp);
    numbers[numbers.len() / 2]
}

/// What each turn of both sides took: the library's nanoseconds for a call, and the baseline's.
pub type Turns = Vec<(f64, f64)>;

/// Nanoseconds for each call behind the built ones, of the library and of the baseline, turn by turn. In each turn one comes right behind
/// the other, so that whatever slows the machine for a while slows both.
pub fn times(work: &Work, ours: &mut Lent, theirs: &mut Lent, turns: usize) -> Turns {
    let timed = (work.calls() - work.built).max(1) as f64;
    // The buffers are as the whole script left them: of a finished history, its nodes.
    let history = played(work, work.built, theirs).expect("compared before");
    let said = ours.said.clone();
    let mut taken = Vec::new();
    for _ in 0..turns {
        let (library, baseline) = if history.finished {
            let library = nanoseconds(|| library_asked(work, &history, ours));
            let mut asked = history.clone();
            (library, nanoseconds(|| carry_out(&mut asked, work, work.built, work.calls(), theirs)))
        } else {
            // Opening and building are timed alone, and taken off; where there is nothing else, they are what is timed.
            let alone = if work.calls() > work.built { 1.0 } else { 0.0 };
            let built = nanoseconds(|| library(work, work.built, ours));
            let library = nanoseconds(|| library(work, work.calls(), ours)) - alone * built;
            let built = nanoseconds(|| played(work, work.built, theirs));
            (library, nanoseconds(|| played(work, work.calls(), theirs)) - alone * built)
        };
        taken.push((library / timed, baseline / timed));
    }
    if ours.said != said {
        eprintln!("the library says something else when it is asked again");
        std::process::exit(1);
    }
    taken
}
