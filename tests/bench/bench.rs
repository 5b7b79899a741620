//! The library beside plain Rust on the same work, and beside what a lab would use instead.
//!
//!   bench compare          only compares: every answer and every byte, no time is taken
//!   bench turns            compares, then times each line of the tables a few times and prints what each turn took
//!   bench tables FILE...   prints the tables, from what several runs of `bench turns` have printed, and what a lab would use instead

mod baseline;
mod comb;
mod instead;
mod lab;
#[path = "../seeded.rs"]
#[allow(dead_code)]
mod seeded;
mod sides;
mod work;

use seeded::{seed, Seeded};
use sides::*;
use work::*;

// All code behind this lies so many bytes further on: tests/bench/run says why.
std::arch::global_asm!(".pushsection .text.further, \"axR\", @progbits", concat!(".skip ", env!("FURTHER")), ".popsection");

/// How often each side of a line takes its turn in one run of the program.
const TURNS: usize = 3;

/// What is made and timed: a table's line.
struct Line {
    name: String,
    work: Work,
}

fn line(name: &str, work: Work) -> Line {
    Line { name: name.to_string(), work }
}

/// A change that stores nothing: every attribute was set at this instant, and is set again.
fn no_store(seeded: &mut Seeded, count: u32) -> Work {
    let mut work = Work::new(32, 100, 50, 100).changes(seeded, 2_000);
    work.latest += 1;
    for quark in 0..32 {
        work.push(SET, work.latest, quark, -1);
    }
    let mut work = work.is_built();
    for i in 0..count {
        // Half of them replace the value, half find it as it is.
        work.push(SET, work.latest, i / 2 % 32, (i / 64) as i64);
    }
    work
}

/// Each change ends an interval.
fn stores(attributes: u32, k: u32, n: u32, count: u32) -> Work {
    let mut work = Work::new(attributes, k, 50, n).is_built();
    for i in 0..count {
        work.latest += 1;
        work.push(SET, work.latest, i % attributes, i as i64);
    }
    work
}

fn finishes(attributes: u32, count: usize) -> Work {
    let mut work = Work::new(attributes, 2028, 50, 64).is_built();
    for _ in 0..count {
        work.push(FINISH_AGAIN, 5_000, 0, 0);
    }
    work
}

/// The latest instant is asked of a history that goes on: no node is entered.
fn ongoing(seeded: &mut Seeded, count: u32) -> Work {
    let mut work = Work::new(32, 100, 50, 100).changes(seeded, 2_000).is_built();
    for i in 0..count {
        work.push(SINGLE, work.latest, i % 32, 0);
    }
    work
}

/// A finished history with room for its nodes.
fn finished(seeded: &mut Seeded, attributes: u32, k: u32, c: u32, changes: u32) -> Work {
    let n = (2 * changes / k + 64).min(65_536);
    Work::new(attributes, k, c, n).changes(seeded, changes as usize).finish().is_built()
}

/// The calls and the questions that are named; `scale` is how many calls of each.
fn calls_and_questions(seeded: &mut Seeded, scale: u32) -> Vec<Line> {
    let mut lines = vec![
        line("open, 4,096 attributes", Work::new(4096, 2028, 50, 64)),
        line("change, nothing stored", no_store(seeded, 100 * scale)),
        line("change, an interval stored", stores(32, 2028, 128, 100 * scale)),
        line("change, stored with a close", stores(1, 1, 65_536, 5 * scale)),
        line("finish, 4,096 attributes", finishes(4096, (scale / 100 + 1) as usize)),
        line("single, from the ongoing table", ongoing(seeded, 50 * scale)),
    ];
    for (k, attributes, changes) in [(100, 32, 50 * scale), (1_000, 256, 100 * scale), (2_028, 256, 100 * scale)] {
        let count = (8 * scale / (k / 100)) as usize;
        let of = format!("K {}, {} attributes", k, attributes);
        lines.push(line(&format!("single, {}", of), finished(seeded, attributes, k, 50, changes).singles(seeded, count)));
        lines.push(line(&format!("full, {}", of), finished(seeded, attributes, k, 50, changes).fulls(seeded, count / 2 + 1)));
    }
    lines
}

/// How cost grows: one thing is changed from line to line.
fn growing(seeded: &mut Seeded, scale: u32) -> Vec<(&'static str, Vec<Line>)> {
    let mut depth = Vec::new();
    for changes in [20, 200, 2_000, 20_000] {
        let work = finished(seeded, 4, 16, 2, changes);
        let mut lent = Lent::new(&work);
        let levels = played(&work, work.built, &mut lent).map_or(0, |history| history.top + 1);
        let name = format!("single, {} levels, K 16", levels);
        depth.push(line(&name, work.singles(seeded, 10 * scale as usize)));
    }
    let mut nodes = Vec::new();
    for k in [50, 100, 200, 500, 1_000, 2_028] {
        let name = format!("single, K {}, 16 attributes", k);
        nodes.push(line(&name, finished(seeded, 16, k, 50, 40 * scale).singles(seeded, (2 * scale / (k / 50)) as usize)));
    }
    let mut attributes = Vec::new();
    for count in [1, 16, 256, 1_024] {
        let name = format!("full, K 2,028, attributes: {}", count);
        attributes.push(line(&name, finished(seeded, count, 2_028, 50, 40 * scale).fulls(seeded, (scale / 10 + 1) as usize)));
    }
    for count in [1, 16, 256, 4_096] {
        let name = format!("finish, K 2,028, attributes: {}", count);
        attributes.push(line(&name, finishes(count, (scale * 400 / (count + 100) + 1) as usize)));
    }
    vec![
        ("How cost grows with the depth", depth),
        ("How cost grows with K", nodes),
        ("How cost grows with the attributes", attributes),
    ]
}

/// The tables with their titles.
fn tables(seeded: &mut Seeded, scale: u32, growth: u32) -> Vec<(&'static str, Vec<Line>)> {
    let mut tables = vec![("Calls and questions: library / baseline", calls_and_questions(seeded, scale))];
    tables.extend(growing(seeded, growth));
    tables
}

/// One line for each turn: its table, its name, the nanoseconds of both sides, and how many of the timed calls are refused.
fn turns(seeded: &mut Seeded) {
    for (title, lines) in tables(seeded, 1_000, 500) {
        for Line { name, work } in lines {
            let (mut ours, mut theirs) = compare(&name, &work);
            let refused = (work.built..work.calls()).filter(|&call| ours.refusal(call) != 0).count();
            for (library, baseline) in times(&work, &mut ours, &mut theirs, TURNS) {
                println!("{}\t{}\t{}\t{}\t{}", title, name, library, baseline, refused);
            }
        }
    }
}

/// The turns of a file that `bench turns` printed, by table and line, and what there is to say of refusals.
fn read(file: &str) -> Vec<((String, String, String), Turns)> {
    let text = std::fs::read_to_string(file).unwrap_or_else(|error| panic!("{}: {}", file, error));
    let mut lines: Vec<((String, String, String), Turns)> = Vec::new();
    for turn in text.lines() {
        let words: Vec<&str> = turn.split('\t').collect();
        let line = (words[0].to_string(), words[1].to_string(), words[4].to_string());
        let took = (words[2].parse().unwrap(), words[3].parse().unwrap());
        match lines.last_mut() {
            Some((last, turns)) if *last == line => turns.push(took),
            _ => lines.push((line, vec![took])),
        }
    }
    lines
}

fn mean(numbers: &[f64]) -> f64 {
    numbers.iter().sum::<f64>() / numbers.len() as f64
}

/// Of each run the median of its turns, and of the runs the mean: what a place costs is often one of two times, of which a median over
/// the places would name one. Beside it stands between what the ratios of the runs lie.
fn print(files: &[String]) {
    let runs: Vec<_> = files.iter().map(|file| read(file)).collect();
    let mut last = "";
    for (i, ((title, name, refused), _)) in runs[0].iter().enumerate() {
        if *title != last {
            println!("\n{}", title);
            println!("  {:34} {:>10} {:>10} {:>7}   {}", "nanoseconds a call", "library", "baseline", "ratio", "in one run");
            last = title;
        }
        let medians = |of: fn(&(f64, f64)) -> f64| -> Vec<f64> {
            runs.iter().map(|run| median(run[i].1.iter().map(of).collect())).collect()
        };
        let mut ratios = medians(|(library, baseline)| library / baseline);
        ratios.sort_by(f64::total_cmp);
        let word = if refused != "0" { format!("   {} refused", refused) } else { String::new() };
        println!(
            "  {:34} {:10.0} {:10.0} {:7.2}   {:.2} to {:.2}{}",
            name,
            mean(&medians(|turn| turn.0)),
            mean(&medians(|turn| turn.1)),
            mean(&ratios),
            ratios[0],
            ratios[ratios.len() - 1],
            word
        );
    }
}

fn main() {
    let words: Vec<String> = std::env::args().skip(1).collect();
    let mut seeded = Seeded::case(seed(), 0);
    match words.first().map(|word| word.as_str()) {
        Some("compare") => {
            let lines: Vec<Line> = tables(&mut seeded, 100, 100).into_iter().flat_map(|(_, lines)| lines).collect();
            let calls: usize = lines.iter().map(|line| line.work.calls()).sum();
            lines.iter().for_each(|line| drop(compare(&line.name, &line.work)));
            println!("library and baseline agree on {} calls, every answer and every byte", calls);
        }
        Some("turns") => turns(&mut seeded),
        Some("tables") if words.len() > 1 => {
            print(&words[1..]);
            // Their figures stand in the papers: they do not depend on what was drawn before them.
            instead::print(&mut Seeded::case(seed(), 1));
            comb::print(&mut Seeded::case(seed(), 2));
        }
        _ => {
            eprintln!("bench: compare, turns, or tables FILE...");
            std::process::exit(2);
        }
    }
}
