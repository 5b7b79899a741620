//! Drives the built program `history` with feeds and compares what it prints with document 01: typed from the document for
//! its listing and its examples, worked out by tests/reference for thousands of made-up histories.
//!
//!     feeds WORD...        the words that start the program, such as crates/history/out/history; run in the repository's root
//!
//! Starting the program is slow under an emulator, so each feed has many histories, one after the other.

mod examples;
#[path = "reference/feed.rs"]
mod feed;
#[path = "reference/history.rs"]
mod history;
mod seeded;
mod stories;
mod text;

use feed::Record;
use seeded::{hex, Seeded};
use std::collections::BTreeMap;
use std::io::Write;
use std::process::{exit, Command, Stdio};

/// What the program prints for a feed. "exit status 0 always" is part of it.
fn run(command: &[String], feed: &[u8]) -> Result<String, String> {
    let mut child = Command::new(&command[0])
        .args(&command[1..])
        .stdin(Stdio::piped())
        .stdout(Stdio::piped())
        .spawn()
        .map_err(|error| format!("cannot start {}: {}", command.join(" "), error))?;
    let mut input = child.stdin.take().expect("the input is piped");
    // The program may print while it reads, so the feed is written beside; one that stops reading early is no fault here.
    let output = std::thread::scope(|scope| {
        scope.spawn(move || input.write_all(feed));
        child.wait_with_output()
    })
    .map_err(|error| error.to_string())?;
    if !output.status.success() {
        return Err(format!("the program ended with {}", output.status));
    }
    String::from_utf8(output.stdout).map_err(|error| error.to_string())
}

/// The answers that a feed can draw, by tag. 3 is not among them, and 14 and 16 belong to no whole record.
fn drawable() -> Vec<(Option<u8>, u32)> {
    let mut all = vec![(None, 14), (None, 16), (Some(0), 12), (Some(9), 12), (Some(255), 12)];
    let by_tag: [&[u32]; 8] = [
        &[0, 1, 2, 13],
        &[0, 4, 5, 6, 7, 10, 11, 13, 15],
        &[0, 4, 5, 6, 7, 10, 11, 13, 15],
        &[0, 4, 5, 6, 7, 9, 10, 11, 13, 15],
        &[0, 4, 8, 13, 15],
        &[0, 4, 5, 6, 10, 11, 13, 15],
        &[0, 6, 7, 13, 15],
        &[0, 6, 13, 15],
    ];
    for (tag, numbers) in (1..).zip(by_tag) {
        all.extend(numbers.iter().map(|&number| (Some(tag), number)));
    }
    all
}

/// Says where the two texts part, and what brings the program there.
fn explain(feed: &[u8], want: &str, have: &str) {
    let line = want.lines().zip(have.lines()).take_while(|(want, have)| want == have).count();
    println!("  line {} wanted: {}", line + 1, want.lines().nth(line).unwrap_or("(no more)"));
    println!("  line {} printed: {}", line + 1, have.lines().nth(line).unwrap_or("(no more)"));
    let said = feed::said(feed);
    let heads = want.lines().take(line + 1).filter(|line| !line.starts_with('=')).count();
    if let Some(at) = said.get(heads.saturating_sub(1)) {
        let opened = said[..heads].iter().rev().find(|said| said.tag == Some(1) && said.number == 0);
        let from = opened.map_or(0, |said| said.place);
        if let Some(read) = feed::read(feed, at.place) {
            println!("  record {} at byte {}: {:?}", heads - 1, at.place, read.what);
            println!("  the same in short, as hex: {}", hex(&feed[from..read.next.min(feed.len())]));
        }
    }
}

/// Keeps a feed beside this program, to be run again by hand; where that fails, says it as hex.
fn keep(number: u64, feed: &[u8]) {
    let folder = std::env::current_exe().ok().and_then(|exe| exe.parent().map(|folder| folder.to_path_buf())).unwrap_or_default();
    let kept = folder.join(format!("different-{}.feed", number));
    match std::fs::write(&kept, feed) {
        Ok(()) => println!("  the whole feed: {}", kept.display()),
        Err(_) => println!("  the whole feed as hex: {}", hex(feed)),
    }
}

fn main() {
    let command: Vec<String> = std::env::args().skip(1).collect();
    if command.is_empty() {
        eprintln!("usage: feeds WORD...   (the words that start the program history)");
        exit(2);
    }
    let (seed, count) = (seeded::seed(), seeded::cases(96));
    let mut differ = 0;
    let mut compare = |name: &str, feed: &[u8], want: &str| {
        let have = run(&command, feed);
        if have.as_deref() == Ok(want) {
            return;
        }
        differ += 1;
        // The first few tell what is wrong; a program that says nothing right would fill the screen.
        if differ <= 5 {
            println!("DIFFERENT: {}", name);
            match have {
                Ok(have) => explain(feed, want, &have),
                Err(error) => println!("  {}", error),
            }
            keep(differ, feed);
        }
    };

    let examples = examples::examples();
    for (name, records, lines) in &examples {
        let feed: Vec<u8> = records.iter().flat_map(Record::bytes).collect();
        compare(name, &feed, &examples::numbered(lines));
    }
    compare("an empty feed", &[], "");
    compare("65,537 bytes", &vec![5; feed::LONGEST + 1], "0 16\n");

    let mut tool = text::wrong_lines();
    for (_, records, _) in &examples {
        tool = tool.and_then(|()| text::same_bytes(records));
    }
    // The day refuses what its comments say: the hub's late change, and the question after its end.
    match text::file("examples/day.txt") {
        Ok(feed) => {
            let said = feed::said(&feed);
            let refused: Vec<u32> = said.iter().map(|said| said.number).filter(|&number| number != 0).collect();
            if refused != [5, 6] {
                tool = Err(format!("examples/day.txt is refused {:?}, not 5 and 6", refused));
            }
            compare("examples/day.txt", &feed, &said.iter().map(|said| said.text.as_str()).collect::<String>());
        }
        Err(error) => tool = Err(error),
    }
    if let Err(error) = &tool {
        println!("DIFFERENT: {}", error);
    }

    let (mut records, mut histories) = (0, 0);
    let mut drawn: BTreeMap<(Option<u8>, u32), u64> = BTreeMap::new();
    for number in 0..count {
        let feed = stories::made_up(&mut Seeded::case(seed, number), number);
        let said = feed::said(&feed);
        let want: String = said.iter().map(|said| said.text.as_str()).collect();
        compare(&format!("SEED={} feed {}", seed, number), &feed, &want);
        records += said.len();
        for said in &said {
            *drawn.entry((said.tag, said.number)).or_default() += 1;
            histories += (said.tag == Some(1) && said.number == 0) as u64;
        }
    }

    let never: Vec<_> = drawable().into_iter().filter(|pair| !drawn.contains_key(pair)).collect();
    for (tag, number) in &never {
        println!("NEVER DRAWN: {} by {}", number, tag.map_or("no whole record".into(), |tag| format!("tag {}", tag)));
    }
    let mut numbers: BTreeMap<u32, u64> = BTreeMap::new();
    for ((_, number), times) in &drawn {
        *numbers.entry(*number).or_default() += times;
    }
    let numbers: Vec<String> = numbers.iter().map(|(number, times)| format!("{}: {}", number, times)).collect();
    println!("answers drawn, with how often: {}", numbers.join(", "));
    let typed = examples.len() as u64 + 2;
    let feeds = typed + 1 + count;
    println!(
        "feeds: {} of {} agree ({} typed from document 01, the example day, {} made up from SEED={} with {} histories and {} records)",
        feeds - differ,
        feeds,
        typed,
        count,
        seed,
        histories,
        records
    );
    exit((differ > 0 || tool.is_err() || !never.is_empty()) as i32);
}
