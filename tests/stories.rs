//! Made-up feeds: many histories one after the other, with everything in them that a feed can have.

use crate::examples::open;
use crate::feed::{self, framed, Record};
use crate::history::LAST_TIME;
use crate::seeded::Seeded;

/// A time above the last one that a call accepts.
const TOO_LATE: u64 = LAST_TIME + 1;

/// A history in the making: what the next record can be chosen by.
struct Story<'a> {
    random: &'a mut Seeded,
    records: Vec<Vec<u8>>,
    start: u64,
    latest: u64,
    attributes: u64,
    /// Times at which something happened; questions are asked at and around them.
    times: Vec<u64>,
}

impl Story<'_> {
    fn push(&mut self, record: Record) {
        self.records.push(record.bytes());
    }

    /// Mostly a quark that is there.
    fn quark(&mut self) -> u32 {
        let beyond = [self.attributes, self.attributes + 1, u32::MAX.into(), 1 << 31];
        if self.attributes == 0 || self.random.once_in(40) {
            return self.random.one_of(&beyond) as u32;
        }
        self.random.below(self.attributes) as u32
    }

    /// Few values, so that equal ones meet; now and then one at an end of the range.
    fn value(&mut self) -> i64 {
        if self.random.once_in(12) {
            return self.random.one_of(&[i64::MAX, i64::MAX - 1, i64::MIN, -1]);
        }
        self.random.between(0, 3) as i64 - 1
    }

    /// The next change's time: the latest or a little after; now and then too early or too late.
    fn time(&mut self) -> u64 {
        let ahead = self.random.one_of(&[0, 0, 1, 1, 1, 2, 3, 7]);
        match self.random.below(40) {
            0 => return self.latest.saturating_sub(1),
            1 => return self.random.one_of(&[TOO_LATE, u64::MAX, TOO_LATE + 5]),
            2 => return self.start.saturating_sub(self.random.below(2)),
            _ => {}
        }
        let t = self.latest + ahead;
        if t < TOO_LATE {
            self.latest = t;
            self.times.push(t);
        }
        t
    }

    /// An instant to ask about: at or beside a time at which something happened, or an end of the range.
    fn instant(&mut self) -> u64 {
        if self.random.once_in(12) {
            return self.random.one_of(&[
                self.start,
                self.start.wrapping_sub(1),
                self.latest,
                self.latest + 1,
                u64::MAX,
                TOO_LATE,
            ]);
        }
        let near = self.random.one_of(&self.times);
        near.wrapping_add(self.random.below(3)).wrapping_sub(1)
    }

    fn change(&mut self) {
        let (t, quark) = (self.time(), self.quark());
        let value = self.value();
        let record = match self.random.below(10) {
            0..=5 => Record::Set { t, quark, value },
            6 | 7 => Record::Remove { t, quark },
            _ => Record::Increment { t, quark },
        };
        self.push(record);
    }

    fn question(&mut self) {
        let (t, quark) = (self.instant(), self.quark());
        // A full answer prints a line for each attribute, so many attributes are asked in full less often.
        let record = if self.random.once_in(3 + self.attributes / 4) { Record::Full { t } } else { Record::Single { t, quark } };
        self.push(record);
    }

    fn ask_everywhere(&mut self) {
        for t in self.start..=self.latest {
            self.push(Record::Full { t });
            for quark in 0..self.attributes as u32 {
                self.push(Record::Single { t, quark });
            }
        }
    }

    fn add(&mut self) {
        self.push(Record::Add);
        self.attributes = (self.attributes + 1).min(64);
    }

    /// "answered 12 and passed over; 13 likewise": a record that no history sees.
    fn hostile(&mut self) {
        let payload = self.random.below(30);
        let payload = self.random.bytes(payload);
        let tag = match self.random.below(4) {
            0 | 1 => self.random.between(1, 8) as u8,
            2 => self.random.one_of(&[0, 9, 255]),
            _ => self.random.word() as u8,
        };
        // An open or a finish made of random bytes could be accepted and end the story early; that is a story too.
        self.records.push(framed(tag, &payload));
    }

    fn finish(&mut self) {
        let t = match self.random.below(8) {
            0 => self.latest.saturating_sub(1),
            1 => TOO_LATE,
            _ => self.latest + self.random.below(3),
        };
        self.push(Record::Finish { t });
        if (self.latest..TOO_LATE).contains(&t) {
            self.latest = t;
            self.times.push(t);
        }
    }
}

/// An open with each number at, below or above its limits.
fn limits(random: &mut Seeded) -> Record {
    let mut numbers = open(random.below(9), random.between(0, 4) as u32, 2, 2, 9);
    for _ in 0..random.between(1, 2) {
        if let Record::Open { start, attributes, k, c, n } = &mut numbers {
            match random.below(5) {
                0 => *start = random.one_of(&[0, TOO_LATE - 1, TOO_LATE, u64::MAX]),
                1 => *attributes = random.one_of(&[0, 63, 64, 65, 4095, 4096, 4097, u32::MAX]),
                2 => *k = random.one_of(&[0, 1, 300, 1000, 1021, 1022, 1023, 2027, 2028, 2029, 2046, 2047, u16::MAX]),
                3 => *c = random.one_of(&[0, 1, 2, 49, 50, 51, 256, u16::MAX]),
                _ => *n = random.one_of(&[0, 1, 2, 273, 274, 372, 373, 65_535, 65_536, 65_537, u32::MAX]),
            }
        }
    }
    numbers
}

/// One history from its opening: the kinds differ in shape, attributes and length, so that every rule and every refusal is met.
fn story(random: &mut Seeded) -> Vec<Vec<u8>> {
    let kind = random.below(9);
    let (k, c) = match kind {
        0 => (1, 2),
        // wide nodes
        5 => (random.between(1, 40), random.between(2, 50)),
        // enough for many attributes to be finished
        4 => (random.between(1, 30), random.between(2, 5)),
        _ => (random.between(1, 4), random.between(2, 5)),
    };
    let held = 32_768 / (32 + 12 * c + 32 * k);
    let (attributes, n, steps) = match kind {
        // the comb: more attributes than sixteen levels can hold
        0 => (random.between(15, 22), held, random.between(20, 60)),
        // few nodes: room runs out
        1 => (random.between(1, 4), random.between(1, 12), random.between(10, 50)),
        // a long one
        2 => (random.between(1, 3), held, random.between(200, 500)),
        // attributes come later
        3 => (random.between(0, 2), held, random.between(20, 80)),
        // nearly all the attributes that the table holds
        4 => (random.between(60, 64), held, random.between(20, 80)),
        _ => (random.between(1, 6), random.between(held / 3, held), random.between(20, 120)),
    };
    let start = match random.below(12) {
        0 => TOO_LATE - 1 - random.below(40),
        1 => 0,
        2 => random.below(TOO_LATE),
        _ => random.below(20),
    };
    let mut story = Story { random, records: Vec::new(), start, latest: start, attributes, times: vec![start] };
    if story.random.once_in(3) {
        let refused_or_not = limits(story.random);
        story.push(refused_or_not);
        if story.random.once_in(2) {
            story.question();
        }
    }
    story.push(open(start, attributes as u32, k as u16, c as u16, n as u32));
    for _ in 0..steps {
        match story.random.below(40) {
            0..=4 => story.question(),
            5 => story.hostile(),
            6 => story.add(),
            7 if story.random.once_in(30) => story.finish(),
            8 | 9 if kind == 3 => story.add(),
            _ => story.change(),
        }
    }
    // A short one is asked about every instant, while it goes on and once it is finished.
    let everywhere = attributes <= 6 && story.latest - start < 60 && story.random.once_in(3);
    if everywhere {
        story.ask_everywhere();
    }
    story.finish();
    if everywhere {
        story.ask_everywhere();
    }
    for _ in 0..story.random.between(10, 40) {
        story.question();
    }
    for _ in 0..story.random.between(1, 5) {
        match story.random.below(4) {
            0 => story.finish(),
            1 => story.add(),
            _ => story.change(),
        }
    }
    story.records
}

/// How a made-up feed ends.
#[derive(Debug, Clone, Copy)]
enum Ending {
    Whole,
    Cut,
    Garbage,
    /// Exactly the longest feed.
    Full,
    TooLong,
}

/// Histories one after the other up to the longest feed, and an ending.
pub fn made_up(random: &mut Seeded, number: u64) -> Vec<u8> {
    let mut feed = Vec::new();
    // "no history open, tags 2 to 8"
    for (tag, length) in (2..=8).zip([20, 12, 12, 0, 8, 12, 8]) {
        if random.once_in(3) {
            let length = if random.once_in(4) { length + 1 } else { length };
            feed.extend(framed(tag, &random.bytes(length)));
        }
    }
    if number % 16 == 15 {
        // Random bytes from the first on, cut into records by chance.
        let length = random.below(400);
        feed.extend(random.bytes(length));
        return feed;
    }
    let ending = match number % 8 {
        0 => Ending::Full,
        1 | 2 => Ending::Cut,
        3 => Ending::Garbage,
        4 if number % 3 == 0 => Ending::TooLong,
        _ => Ending::Whole,
    };
    'filled: loop {
        for record in story(random) {
            if feed.len() + record.len() > feed::LONGEST {
                break 'filled;
            }
            feed.extend(record);
        }
    }
    match ending {
        Ending::Whole => {}
        Ending::Cut => {
            let kept = feed.len() as u64 - random.between(1, 22);
            feed.truncate(kept as usize);
        }
        Ending::Garbage => {
            let length = random.between(1, 600);
            feed.truncate(feed::LONGEST - length as usize);
            feed.extend(random.bytes(length));
        }
        Ending::Full | Ending::TooLong => {
            // A record of an unknown tag fills up what is left; where not even its head fits, bytes that are cut.
            let left = feed::LONGEST - feed.len();
            feed.extend(if left < 3 { random.bytes(left as u64) } else { framed(9, &vec![7; left - 3]) });
            if let Ending::TooLong = ending {
                let more = random.one_of(&[1, 1, 2, 3, 40, 5000]);
                feed.extend(random.bytes(more));
            }
        }
    }
    feed
}
