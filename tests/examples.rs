//! Feeds and what the program prints of them, typed from document 01: its listing, E1 to E10, and the ranges of "Numbers".

use crate::feed::Record;

pub fn open(start: u64, attributes: u32, k: u16, c: u16, n: u32) -> Record {
    Record::Open { start, attributes, k, c, n }
}

fn set(t: u64, quark: u32, value: i64) -> Record {
    Record::Set { t, quark, value }
}

fn single(t: u64, quark: u32) -> Record {
    Record::Single { t, quark }
}

fn full(t: u64) -> Record {
    Record::Full { t }
}

/// "For open(0, 2, K 2, C 2, N 6), set(10, q0, 1), set(10, q1, 5), set(20, q0, 2), set(30, q1, 6), remove(40, q0)": the
/// history of E1 to E7 before its finish(50).
fn listing(n: u32) -> Vec<Record> {
    let mut records = vec![open(0, 2, 2, 2, n), set(10, 0, 1), set(10, 1, 5), set(20, 0, 2), set(30, 1, 6)];
    records.push(Record::Remove { t: 40, quark: 0 });
    records
}

/// Each example: its name, its records, and what is printed after the records' own numbers ("0" is accepted).
pub fn examples() -> Vec<(&'static str, Vec<Record>, Vec<String>)> {
    let accepted = |count: usize| vec!["0".to_string(); count];
    let finish = Record::Finish { t: 50 };
    let said = |before: usize, lines: &[&str]| -> Vec<String> {
        accepted(before).into_iter().chain(lines.iter().map(|line| line.to_string())).collect()
    };
    let with = |n: u32, more: &[Record]| -> Vec<Record> { [&listing(n)[..], more].concat() };
    let mut all = vec![
        (
            "the listing",
            with(6, &[finish, single(25, 0), full(25)]),
            said(7, &["0 20 39 1 2 3", "0 3", "= 0 20 39 1 2", "= 1 10 29 1 5"]),
        ),
        // 32,768 node bytes hold 273 nodes of 120 bytes, not 274.
        ("E1, size 120", vec![open(0, 2, 2, 2, 274), open(0, 2, 2, 2, 273)], vec!["2".into(), "0".into()]),
        (
            "E2 to E4",
            with(6, &[finish, full(39), full(40), full(0), full(51)]),
            said(
                7,
                &[
                    "0 2",
                    "= 0 20 39 1 2",
                    "= 1 30 50 1 6",
                    "0 3",
                    "= 0 40 50 0 0",
                    "= 1 30 50 1 6",
                    "0 3",
                    "= 0 0 9 0 0",
                    "= 1 0 9 0 0",
                    "6",
                ],
            ),
        ),
        ("E5", with(5, &[finish, single(40, 1)]), said(6, &["11", "0 30 18446744073709551615 1 6 0"])),
        (
            "E6",
            with(6, &[single(39, 0), single(40, 0), single(41, 0)]),
            said(6, &["0 20 39 1 2 1", "0 40 18446744073709551615 0 0 0", "6"]),
        ),
        (
            "E7",
            with(6, &[set(40, 1, 7), set(40, 1, 6), single(39, 1), single(40, 1)]),
            // 6 [30,39] went to a new root: node 1 had its two children and was closed with end 39, so two nodes hold 39.
            said(8, &["0 30 39 1 6 2", "0 40 18446744073709551615 1 6 0"]),
        ),
        (
            "E8",
            vec![
                open(0, 3, 2, 2, 6),
                Record::Increment { t: 0, quark: 0 },
                set(0, 1, -1),
                Record::Increment { t: 0, quark: 1 },
                set(0, 2, i64::MAX),
                Record::Increment { t: 0, quark: 2 },
                full(0),
            ],
            said(
                5,
                &[
                    "9",
                    "0 1",
                    "= 0 0 18446744073709551615 1 1",
                    "= 1 0 18446744073709551615 1 0",
                    "= 2 0 18446744073709551615 1 9223372036854775807",
                ],
            ),
        ),
        // "C 50 with K 2,028 is allowed", but the program's node bytes are too few for it.
        ("E9", vec![open(0, 1, 2028, 50, 1), open(0, 1, 2029, 50, 1)], vec!["2".into(), "1".into()]),
    ];
    // E1, the bounds: 0 [0,9], 1 [0,39], 2 [10,29], 3 root [0,50], 4 and 5 [40,50]. At t the nodes entered are those that hold t.
    let bounds = [(0, 9), (0, 39), (10, 29), (0, 50), (40, 50), (40, 50)];
    let (mut records, mut lines) = (with(6, &[finish]), accepted(7));
    for t in 0..=50 {
        let (first, second) = match t {
            0..=9 => ("0 9 0 0", "0 9 0 0"),
            10..=19 => ("10 19 1 1", "10 29 1 5"),
            20..=29 => ("20 39 1 2", "10 29 1 5"),
            30..=39 => ("20 39 1 2", "30 50 1 6"),
            _ => ("40 50 0 0", "30 50 1 6"),
        };
        let nodes = bounds.iter().filter(|(start, end)| (*start..=*end).contains(&t)).count();
        records.extend([full(t), single(t, 0), single(t, 1)]);
        lines.extend([format!("0 {}", nodes), format!("= 0 {}", first), format!("= 1 {}", second)]);
        lines.extend([format!("0 {} {}", first, nodes), format!("0 {} {}", second, nodes)]);
    }
    all.push(("E1, every instant", records, lines));
    let at_once = Record::Finish { t: 0 };
    let (records, mut lines) = (
        vec![open(0, 16, 1, 2, 16), at_once, full(0), open(0, 17, 1, 2, 17), at_once, open(0, 17, 1, 2, 15), at_once],
        vec!["0".to_string(), "0".into(), "0 16".into()],
    );
    lines.extend((0..16).map(|quark| format!("= {} 0 0 0 0", quark)));
    lines.extend(["0", "10", "0", "11"].map(String::from));
    all.push(("E10", records, lines));
    let limits = limits();
    all.push((
        "the ranges of an open",
        limits.iter().map(|(record, _)| *record).collect(),
        limits.iter().map(|(_, number)| number.to_string()).collect(),
    ));
    all
}

/// The ranges of "Numbers" at their ends, with what an open says; 2 where only the program's 32,768 node bytes or 64 table
/// entries are too few.
fn limits() -> Vec<(Record, u32)> {
    vec![
        (open(0, 0, 1, 2, 1), 0),
        (open((1 << 63) - 1, 64, 1, 2, 1), 0),
        (open(1 << 63, 0, 1, 2, 1), 1),
        (open(u64::MAX, 0, 1, 2, 1), 1),
        (open(0, 65, 1, 2, 1), 2),
        (open(0, 4096, 1, 2, 1), 2),
        (open(0, 4097, 1, 2, 1), 1),
        (open(0, u32::MAX, 1, 2, 1), 1),
        (open(0, 0, 0, 2, 1), 1),
        (open(0, 0, u16::MAX, 2, 1), 1),
        (open(0, 0, 1, 0, 1), 1),
        (open(0, 0, 1, 1, 1), 1),
        (open(0, 0, 1, 50, 1), 0),
        (open(0, 0, 1, 51, 1), 1),
        (open(0, 0, 1, u16::MAX, 1), 1),
        (open(0, 0, 1, 2, 0), 1),
        (open(0, 0, 1, 2, 65_536), 2),
        (open(0, 0, 1, 2, 65_537), 1),
        (open(0, 0, 1, 2, u32::MAX), 1),
        // 32 + 12 * 8 + 32 * 4 is 256, and 128 such nodes are 32,768 bytes.
        (open(0, 0, 4, 8, 128), 0),
        (open(0, 0, 4, 8, 129), 2),
        // 32 + 12 * 8 + 32 * 2,044 is 65,536.
        (open(0, 0, 2044, 8, 1), 2),
        (open(0, 0, 2045, 8, 1), 1),
        // "opening 1, 2"
        (open(0, 65, 0, 2, 1), 1),
    ]
}

/// Puts the record's number before each line that is not an attribute's.
pub fn numbered(lines: &[String]) -> String {
    let mut record = 0;
    let mut text = String::new();
    for line in lines {
        if !line.starts_with('=') {
            text += &format!("{} ", record);
            record += 1;
        }
        text += &format!("{}\n", line);
    }
    text
}
