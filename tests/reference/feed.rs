//! "The feed and the program": the records of a feed, and what the program `history` prints of them.

use crate::history::{Answer, Change, History, Lent, Shape};

/// "feed longer than 65,536 bytes"
pub const LONGEST: usize = 65_536;
/// "with 32,768 node bytes and 64 table entries"
pub const PROGRAM: Lent = Lent { node_bytes: 32_768, table_entries: 64 };

pub const UNKNOWN_TAG: u32 = 12;
pub const WRONG_LENGTH: u32 = 13;
pub const CUT: u32 = 14;
pub const NOT_OPEN: u32 = 15;
pub const TOO_LONG: u32 = 16;

/// "1 open: start u64, attributes u32, K u16, C u16, N u32. 2 set: t u64, quark u32, value i64. 3 remove and 4 increment:
/// t, quark. 5 add: empty. 6 finish: t. 7 single: t, quark. 8 full: t."
#[derive(Clone, Copy, Debug, PartialEq)]
pub enum Record {
    Open { start: u64, attributes: u32, k: u16, c: u16, n: u32 },
    Set { t: u64, quark: u32, value: i64 },
    Remove { t: u64, quark: u32 },
    Increment { t: u64, quark: u32 },
    Add,
    Finish { t: u64 },
    Single { t: u64, quark: u32 },
    Full { t: u64 },
}

/// "Records, little-endian: tag u8, payload length u16, payload."
pub fn framed(tag: u8, payload: &[u8]) -> Vec<u8> {
    let mut bytes = vec![tag];
    bytes.extend((payload.len() as u16).to_le_bytes());
    bytes.extend(payload);
    bytes
}

impl Record {
    pub fn bytes(&self) -> Vec<u8> {
        match *self {
            Record::Open { start, attributes, k, c, n } => framed(
                1,
                &[&start.to_le_bytes()[..], &attributes.to_le_bytes(), &k.to_le_bytes(), &c.to_le_bytes(), &n.to_le_bytes()]
                    .concat(),
            ),
            Record::Set { t, quark, value } => {
                framed(2, &[&t.to_le_bytes()[..], &quark.to_le_bytes(), &value.to_le_bytes()].concat())
            }
            Record::Remove { t, quark } => framed(3, &[&t.to_le_bytes()[..], &quark.to_le_bytes()].concat()),
            Record::Increment { t, quark } => framed(4, &[&t.to_le_bytes()[..], &quark.to_le_bytes()].concat()),
            Record::Add => framed(5, &[]),
            Record::Finish { t } => framed(6, &t.to_le_bytes()),
            Record::Single { t, quark } => framed(7, &[&t.to_le_bytes()[..], &quark.to_le_bytes()].concat()),
            Record::Full { t } => framed(8, &t.to_le_bytes()),
        }
    }
}

/// Bytes taken off number by number, "little-endian". The length was tested before.
struct Payload<'a>(&'a [u8]);

impl Payload<'_> {
    fn number(&mut self, bytes: usize) -> u64 {
        let (taken, rest) = self.0.split_at(bytes);
        self.0 = rest;
        taken.iter().rev().fold(0, |number, &byte| number << 8 | u64::from(byte))
    }

    fn time(&mut self) -> u64 {
        self.number(8)
    }

    fn quark(&mut self) -> u32 {
        self.number(4) as u32
    }
}

/// The payload's length for each tag; None is "unknown tag".
fn length(tag: u8) -> Option<usize> {
    match tag {
        1 => Some(8 + 4 + 2 + 2 + 4),
        2 => Some(8 + 4 + 8),
        3 | 4 | 7 => Some(8 + 4),
        5 => Some(0),
        6 | 8 => Some(8),
        _ => None,
    }
}

/// What stands at a place of the feed, and the next place.
pub struct Read {
    pub tag: Option<u8>,
    pub what: Result<Record, u32>,
    pub next: usize,
}

/// "The order is 16, 14, 12, 13, 15; a place at or past the feed's end has no record left." (15 is for the program: a
/// feed knows no history.) "A record with an unknown tag is answered 12 and passed over; 13 likewise; 14 ends the feed."
pub fn read(feed: &[u8], place: usize) -> Option<Read> {
    if feed.len() > LONGEST {
        return Some(Read { tag: None, what: Err(TOO_LONG), next: feed.len() });
    }
    if place >= feed.len() {
        return None;
    }
    let cut = Some(Read { tag: None, what: Err(CUT), next: feed.len() });
    if feed.len() - place < 3 {
        return cut;
    }
    let (tag, told) = (feed[place], Payload(&feed[place + 1..]).number(2) as usize);
    if feed.len() - place - 3 < told {
        return cut;
    }
    let next = place + 3 + told;
    let mut payload = Payload(&feed[place + 3..next]);
    let what = match length(tag) {
        None => Err(UNKNOWN_TAG),
        Some(right) if right != told => Err(WRONG_LENGTH),
        Some(_) => Ok(match tag {
            1 => Record::Open {
                start: payload.time(),
                attributes: payload.number(4) as u32,
                k: payload.number(2) as u16,
                c: payload.number(2) as u16,
                n: payload.number(4) as u32,
            },
            2 => Record::Set { t: payload.time(), quark: payload.quark(), value: payload.number(8) as i64 },
            3 => Record::Remove { t: payload.time(), quark: payload.quark() },
            4 => Record::Increment { t: payload.time(), quark: payload.quark() },
            5 => Record::Add,
            6 => Record::Finish { t: payload.time() },
            7 => Record::Single { t: payload.time(), quark: payload.quark() },
            _ => Record::Full { t: payload.time() },
        }),
    };
    Some(Read { tag: Some(tag), what, next })
}

/// What the program prints for one record, and where in the feed that record stands.
pub struct Said {
    pub place: usize,
    /// The tag of a whole record.
    pub tag: Option<u8>,
    pub number: u32,
    pub text: String,
}

/// "start, end, kind, value"
fn state(answer: &Answer, i: usize) -> String {
    let interval = &answer.intervals[i];
    let kind = interval.value.is_some() as u8;
    format!("{} {} {} {}", interval.start, interval.end, kind, interval.value.unwrap_or(0))
}

/// "Accepted single adds start, end, kind, value, nodes entered."
fn single_added(answer: &Answer) -> String {
    format!(" {} {}", state(answer, 0), answer.entered)
}

/// "Accepted full adds nodes entered, then a line per attribute: `=`, quark, start, end, kind, value."
fn full_added(answer: &Answer) -> String {
    let mut text = format!(" {}", answer.entered);
    for i in 0..answer.intervals.len() {
        text += &format!("\n= {} {}", i, state(answer, i));
    }
    text
}

/// "A second open starts anew; refused, it changes nothing." Tags 2 to 8 without a history are 15.
fn carry_out(history: &mut Option<History>, record: Record) -> Result<String, u32> {
    let silent = |_| String::new();
    if let Record::Open { start, attributes, k, c, n } = record {
        let shape = Shape { k: k.into(), c: c.into(), n: n.into() };
        *history = Some(History::open(start, attributes.into(), shape, PROGRAM)?);
        return Ok(String::new());
    }
    let history = history.as_mut().ok_or(NOT_OPEN)?;
    match record {
        Record::Open { .. } => unreachable!("answered above"),
        Record::Set { t, quark, value } => history.change(t, quark, Change::Set(value)).map(silent),
        Record::Remove { t, quark } => history.change(t, quark, Change::Remove).map(silent),
        Record::Increment { t, quark } => history.change(t, quark, Change::Increment).map(silent),
        Record::Add => history.add().map(silent),
        Record::Finish { t } => history.finish(t).map(silent),
        Record::Single { t, quark } => history.single(t, quark).map(|answer| single_added(&answer)),
        Record::Full { t } => history.full(t).map(|answer| full_added(&answer)),
    }
}

/// "Each line: record number from 0, answer number." "An over-long feed prints only `0 16`."
pub fn said(feed: &[u8]) -> Vec<Said> {
    let mut history = None;
    let mut lines = Vec::new();
    let mut place = 0;
    while let Some(Read { tag, what, next }) = read(feed, place) {
        let (number, added) = match what.and_then(|record| carry_out(&mut history, record)) {
            Ok(added) => (0, added),
            Err(number) => (number, String::new()),
        };
        lines.push(Said { place, tag, number, text: format!("{} {}{}\n", lines.len(), number, added) });
        if number == TOO_LONG {
            break;
        }
        place = next;
    }
    lines
}
