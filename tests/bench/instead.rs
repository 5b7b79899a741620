//! What a lab would use instead: the same questions on a plain scan of all intervals and on SQLite, and the space that an interval takes.

use crate::lab::{self, Interval};
use crate::seeded::Seeded;
use crate::sides::{compare, median, played, times, Lent, Turns};
use crate::work::*;
use std::time::Instant;

/// The intervals of a script's changes and its finish, from the changes alone: no tree.
fn intervals(work: &Work) -> Vec<Interval> {
    let mut ongoing: Vec<(u64, Option<i64>)> = vec![(work.start, None); work.attributes as usize];
    let mut all = Vec::new();
    for call in work.script[..work.built * CALL].chunks_exact(CALL) {
        let quark = u32::from_le_bytes(call[0..4].try_into().unwrap());
        let t = u64::from_le_bytes(call[8..16].try_into().unwrap());
        let value = i64::from_le_bytes(call[24..32].try_into().unwrap());
        if call[4] == FINISH {
            for (quark, (start, value)) in ongoing.iter().enumerate() {
                all.push(Interval { quark: quark as u32, start: *start, end: t, value: *value });
            }
            break;
        }
        let (start, before) = ongoing[quark as usize];
        let after = match call[4] {
            SET => Some(value),
            REMOVE => None,
            _ => Some(before.unwrap_or(0) + 1),
        };
        if after == before {
            continue;
        }
        if start < t {
            all.push(Interval { quark, start, end: t - 1, value: before });
        }
        ongoing[quark as usize] = (t, after);
    }
    all
}

/// The question of a call of the script.
fn asked(work: &Work, call: usize) -> (u64, u32) {
    let bytes = &work.script[call * CALL..][..CALL];
    (u64::from_le_bytes(bytes[8..16].try_into().unwrap()), u32::from_le_bytes(bytes[0..4].try_into().unwrap()))
}

/// What the library said to a single question.
fn said(lent: &Lent, call: usize) -> Interval {
    let entry = &lent.said[call * SAID + 8..][..32];
    let word = |at: usize| u64::from_le_bytes(entry[at..at + 8].try_into().unwrap());
    let quark = u32::from_le_bytes(entry[0..4].try_into().unwrap());
    let value = if entry[4] == 0 { None } else { Some(word(24) as i64) };
    Interval { quark, start: word(8), end: word(16), value }
}

/// Nanoseconds a question.
fn each(count: usize, mut ask: impl FnMut(usize)) -> f64 {
    let from = Instant::now();
    (0..count).for_each(&mut ask);
    from.elapsed().as_nanos() as f64 / count as f64
}

fn differ(what: &str) -> ! {
    eprintln!("{} answers another state than the library", what);
    std::process::exit(1);
}

struct Row {
    name: String,
    single: f64,
    full: f64,
    bytes: f64,
}

fn library_of(turns: Turns) -> f64 {
    median(turns.into_iter().map(|(library, _)| library).collect())
}

fn rows(seeded: &mut Seeded, attributes: u32, k: u32, changes: u32) -> Vec<Row> {
    let questions = 200;
    let built = Work::new(attributes, k, 50, 2 * changes / k + 64).changes(seeded, changes as usize).finish().is_built();
    let all = intervals(&built);
    let work = built.singles(seeded, questions);
    let (mut lent, mut theirs) = compare("questions", &work);
    let used = played(&work, work.built, &mut theirs).map_or(0, |history| history.used as usize);
    let single = library_of(times(&work, &mut lent, &mut theirs, 3));
    // The same questions, put as full ones.
    let mut fulls = Work { script: work.script.clone(), ..work };
    for call in fulls.built..fulls.calls() {
        fulls.script[call * CALL + 4] = FULL;
    }
    let (mut answered, mut theirs) = compare("questions", &fulls);
    let full = library_of(times(&fulls, &mut answered, &mut theirs, 3));
    let bytes = used as f64 * fulls.node_size() as f64 / all.len() as f64;
    let mut rows = vec![Row { name: "library".to_string(), single, full, bytes }];

    let blank = Interval { quark: 0, start: 0, end: 0, value: None };
    let mut out = vec![blank; attributes as usize];
    let ask = |call: usize| asked(&fulls, fulls.built + call);
    for call in 0..questions {
        let (t, quark) = ask(call);
        if lab::scan_single(&all, t, quark) != Some(said(&lent, fulls.built + call)) {
            differ("the scan");
        }
    }
    // Answers are counted, so that no question can be left out.
    let mut answered = 0;
    let single = each(questions, |call| {
        let (t, quark) = ask(call);
        answered += lab::scan_single(&all, t, quark).is_some() as usize;
    });
    let full = each(questions, |call| answered += lab::scan_full(&all, ask(call).0, &mut out) as usize);
    if answered != 2 * questions {
        differ("the scan");
    }
    rows.push(Row { name: "scan of all intervals".to_string(), single, full, bytes: std::mem::size_of::<Interval>() as f64 });

    #[cfg(sqlite)]
    {
        let mut sqlite = lab::Sqlite::fill(&all);
        for call in 0..questions {
            let (t, quark) = ask(call);
            if sqlite.single(t, quark) != Some(said(&lent, fulls.built + call)) {
                differ("SQLite");
            }
        }
        let mut answered = 0;
        let single = each(questions, |call| {
            let (t, quark) = ask(call);
            answered += sqlite.single(t, quark).is_some() as usize;
        });
        let full = each(questions, |call| answered += sqlite.full(ask(call).0, &mut out) as usize);
        if answered != 2 * questions {
            differ("SQLite");
        }
        rows.push(Row { name: "SQLite, indexed".to_string(), single, full, bytes: sqlite.bytes() as f64 / all.len() as f64 });
    }
    rows
}

pub fn print(seeded: &mut Seeded) {
    for (attributes, k, changes) in [(32, 100, 100_000), (256, 1_000, 100_000)] {
        println!("\nInstead of the library: {} attributes, {} changes, K {}", attributes, changes, k);
        println!("  {:38} {:>12} {:>12} {:>16}", "nanoseconds a question", "single", "full", "bytes/interval");
        for row in rows(seeded, attributes, k, changes) {
            println!("  {:38} {:12.0} {:12.0} {:16.1}", row.name, row.single, row.full, row.bytes);
        }
    }
}
