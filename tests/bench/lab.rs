//! What a lab would use instead of a history tree, asked the same questions in the same run: a plain scan of all stored
//! intervals, and SQLite with a table of them. Both are given the intervals and nothing else.
//!
//! SQLite takes part only where its library could be had: whoever compiles this says so with `--cfg sqlite` and links it.

// A compiler that knows all its own conditions would warn of ours; an older one does not know that warning's name.
#![allow(unknown_lints, unexpected_cfgs)]

#[cfg(sqlite)]
pub use sqlite::Sqlite;

/// One stored interval, both ends included; no value is null.
#[derive(Clone, Copy, Debug, PartialEq, Eq)]
pub struct Interval {
    pub quark: u32,
    pub start: u64,
    pub end: u64,
    pub value: Option<i64>,
}

impl Interval {
    fn covers(&self, t: u64) -> bool {
        self.start <= t && t <= self.end
    }
}

/// The interval of `quark` that covers t. A sound history has exactly one, so the scan stops at the first.
pub fn scan_single(all: &[Interval], t: u64, quark: u32) -> Option<Interval> {
    all.iter().find(|one| one.quark == quark && one.covers(t)).copied()
}

/// All attributes at t, in quark order, as many as `out` has room for; false if one has none. The scan stops when each has one.
pub fn scan_full(all: &[Interval], t: u64, out: &mut [Interval]) -> bool {
    let mut missing = clear(out);
    for one in all {
        if missing == 0 {
            break;
        }
        if one.covers(t) {
            missing -= place(out, one);
        }
    }
    missing == 0
}

/// Whose a place is that is not filled yet: what `out` held before must not pass for an answer.
const NOBODY: u32 = u32::MAX;

/// How many places there are to fill.
fn clear(out: &mut [Interval]) -> usize {
    out.iter_mut().for_each(|one| one.quark = NOBODY);
    out.len()
}

/// How many places this filled: none if the attribute has one already, or if `out` has no room for it.
fn place(out: &mut [Interval], one: &Interval) -> usize {
    match out.get_mut(one.quark as usize) {
        Some(at) if at.quark == NOBODY => {
            *at = *one;
            1
        }
        _ => 0,
    }
}

#[cfg(sqlite)]
mod sqlite {
    use super::{clear, place, Interval, NOBODY};
    use std::ffi::{CStr, CString};
    use std::os::raw::{c_char, c_int, c_void};
    use std::process::exit;
    use std::ptr::{null, null_mut};

    /// A connection, and a prepared statement: known to the library alone.
    enum Connection {}
    enum Statement {}
    type Db = *mut Connection;
    type Asked = *mut Statement;
    type Text = *const c_char;

    // As sqlite3.h declares them.
    extern "C" {
        fn sqlite3_open_v2(name: Text, db: *mut Db, flags: c_int, vfs: Text) -> c_int;
        fn sqlite3_close(db: Db) -> c_int;
        fn sqlite3_errmsg(db: Db) -> Text;
        fn sqlite3_exec(db: Db, sql: Text, each: *const c_void, of: *mut c_void, why: *mut *mut c_char) -> c_int;
        fn sqlite3_prepare_v2(db: Db, sql: Text, len: c_int, made: *mut Asked, rest: *mut Text) -> c_int;
        fn sqlite3_bind_int64(asked: Asked, place: c_int, value: i64) -> c_int;
        fn sqlite3_bind_null(asked: Asked, place: c_int) -> c_int;
        fn sqlite3_step(asked: Asked) -> c_int;
        fn sqlite3_column_int64(asked: Asked, column: c_int) -> i64;
        fn sqlite3_column_type(asked: Asked, column: c_int) -> c_int;
        fn sqlite3_reset(asked: Asked) -> c_int;
        fn sqlite3_finalize(asked: Asked) -> c_int;
    }

    const OK: c_int = 0;
    const ROW: c_int = 100;
    const DONE: c_int = 101;
    const NULL: c_int = 5;
    /// Read and write, create, and no locks, since one thread asks.
    const OPEN: c_int = 0x2 | 0x4 | 0x8000;

    /// The table is the index of the single question: without row numbers its rows lie in the key's own tree, so that one descent
    /// finds the interval with its end and value. A table with a covering index answers no faster from twice the space.
    const TABLE: &str = "CREATE TABLE interval(quark INTEGER NOT NULL, start INTEGER NOT NULL, stop INTEGER NOT NULL, \
                         value INTEGER, PRIMARY KEY(quark, start)) WITHOUT ROWID";
    /// The last interval of the attribute that starts by t: one row, and the key is in the order asked for.
    const SINGLE: &str =
        "SELECT quark, start, stop, value FROM interval WHERE quark = ?1 AND start <= ?2 ORDER BY start DESC LIMIT 1";

    /// For the full question, a copy in the order of time, and what of it started between ?2 and t and holds at t, latest first.
    const RECENT_INDEX: &str = "CREATE INDEX recent ON interval(start, stop, quark, value)";
    const RECENT: &str = "SELECT quark, start, stop, value FROM interval INDEXED BY recent \
                          WHERE start <= ?1 AND start >= ?2 AND stop >= ?1 ORDER BY start DESC";

    /// How far back in time the full question looks, in changes for each attribute: what 2, 4 and 6 came to was no better.
    const LOOK_BACK: u64 = 3;

    fn fail(word: &str) -> ! {
        eprintln!("lab: {word}");
        exit(1)
    }

    /// SQLite's integers are signed.
    fn signed(t: u64) -> i64 {
        i64::try_from(t).unwrap_or_else(|_| fail("a time above 2^63-1 does not fit SQLite"))
    }

    /// A database in memory, so that no disk is measured, with the statements that the questions use.
    pub struct Sqlite {
        db: Db,
        single: Asked,
        recent: Asked,
        /// The time between two changes, on average.
        gap: u64,
        table_bytes: u64,
    }

    impl Sqlite {
        /// The intervals are put in by order of the key, which is SQLite's fastest order, in one transaction.
        pub fn fill(all: &[Interval]) -> Sqlite {
            let mut lab = Sqlite { db: null_mut(), single: null_mut(), recent: null_mut(), gap: 0, table_bytes: 0 };
            let name = CString::new(":memory:").unwrap();
            let opened = unsafe { sqlite3_open_v2(name.as_ptr(), &mut lab.db, OPEN, null()) };
            lab.expect(opened, OK, "open");
            lab.run(TABLE);

            let mut sorted = all.to_vec();
            sorted.sort_unstable_by_key(|one| (one.quark, one.start));
            lab.run("BEGIN");
            let insert = lab.prepare("INSERT INTO interval VALUES(?1, ?2, ?3, ?4)");
            for one in &sorted {
                lab.bind(insert, 1, one.quark as i64);
                lab.bind(insert, 2, signed(one.start));
                lab.bind(insert, 3, signed(one.end));
                match one.value {
                    Some(value) => lab.bind(insert, 4, value),
                    None => lab.expect(unsafe { sqlite3_bind_null(insert, 4) }, OK, "bind"),
                }
                lab.expect(unsafe { sqlite3_step(insert) }, DONE, "insert");
                lab.expect(unsafe { sqlite3_reset(insert) }, OK, "insert");
            }
            lab.expect(unsafe { sqlite3_finalize(insert) }, OK, "insert");
            lab.run("COMMIT");
            // Even in the key's order, inserting leaves room in each page: about an eighth of the space.
            lab.run("VACUUM");
            lab.table_bytes = lab.bytes();
            lab.run(RECENT_INDEX);

            let span = all.iter().fold((u64::MAX, 0), |(first, last), one| (one.start.min(first), one.end.max(last)));
            lab.gap = span.1.saturating_sub(span.0) / (all.len() as u64).max(1) + 1;
            lab.single = lab.prepare(SINGLE);
            lab.recent = lab.prepare(RECENT);
            // Questions share one read transaction; with one for each, a single question takes about a sixth longer.
            lab.run("BEGIN");
            lab
        }

        pub fn single(&mut self, t: u64, quark: u32) -> Option<Interval> {
            self.bind(self.single, 2, signed(t));
            self.look_up(t, quark)
        }

        /// All attributes at t, in quark order, as many as `out` has room for; false if one has none.
        ///
        /// What started shortly before t is met by going back in time, many rows for the price of one descent; whatever has not
        /// changed for longer is looked up, since going back for it could end in a scan. At 32 and at 256 attributes this takes
        /// about half as long as looking all of them up, two thirds where some change far more often than others. Slower than all
        /// lookups were a join of the attributes with the table (1.3 times: one column only comes out of an inner lookup, so it
        /// descends once more for the row), lookups strung together by UNION ALL (1.1 times, 1.3 and more at 256) and SQLite's
        /// R-tree over start and stop (1.6 and more).
        pub fn full(&mut self, t: u64, out: &mut [Interval]) -> bool {
            let mut missing = clear(out);
            let back = self.gap.saturating_mul(LOOK_BACK * out.len() as u64);
            self.bind(self.recent, 1, signed(t));
            self.bind(self.recent, 2, signed(t.saturating_sub(back)));
            while missing > 0 {
                match self.row(self.recent) {
                    Some(one) => missing -= place(out, &one),
                    None => break,
                }
            }
            self.expect(unsafe { sqlite3_reset(self.recent) }, OK, "full");
            if missing > 0 {
                self.bind(self.single, 2, signed(t));
                for quark in 0..out.len() {
                    if out[quark].quark == NOBODY {
                        missing -= self.look_up(t, quark as u32).map_or(0, |one| place(out, &one));
                    }
                }
            }
            missing == 0
        }

        /// The space that both orders take, in memory as on a disk.
        pub fn bytes(&self) -> u64 {
            self.number("PRAGMA page_count") * self.number("PRAGMA page_size")
        }

        /// The space without the copy in the order of time: enough for the single question, and for a full one by lookups.
        #[allow(dead_code)]
        pub fn table_bytes(&self) -> u64 {
            self.table_bytes
        }

        /// The single question with t bound already: a statement that is reset keeps what was bound.
        fn look_up(&mut self, t: u64, quark: u32) -> Option<Interval> {
            self.bind(self.single, 1, quark as i64);
            let found = self.row(self.single);
            self.expect(unsafe { sqlite3_reset(self.single) }, OK, "single");
            // The last one to start may have stopped before t.
            found.filter(|one| one.covers(t))
        }

        /// The next row, an interval; none after the last.
        fn row(&self, asked: Asked) -> Option<Interval> {
            let stepped = unsafe { sqlite3_step(asked) };
            if stepped == DONE {
                return None;
            }
            self.expect(stepped, ROW, "step");
            let column = |at| unsafe { sqlite3_column_int64(asked, at) };
            let value = if unsafe { sqlite3_column_type(asked, 3) } == NULL { None } else { Some(column(3)) };
            Some(Interval { quark: column(0) as u32, start: column(1) as u64, end: column(2) as u64, value })
        }

        fn number(&self, sql: &str) -> u64 {
            let asked = self.prepare(sql);
            self.expect(unsafe { sqlite3_step(asked) }, ROW, sql);
            let number = unsafe { sqlite3_column_int64(asked, 0) };
            self.expect(unsafe { sqlite3_finalize(asked) }, OK, sql);
            number as u64
        }

        fn run(&self, sql: &str) {
            let text = CString::new(sql).unwrap();
            self.expect(unsafe { sqlite3_exec(self.db, text.as_ptr(), null(), null_mut(), null_mut()) }, OK, sql);
        }

        fn prepare(&self, sql: &str) -> Asked {
            let text = CString::new(sql).unwrap();
            let mut made = null_mut();
            self.expect(unsafe { sqlite3_prepare_v2(self.db, text.as_ptr(), -1, &mut made, null_mut()) }, OK, sql);
            made
        }

        fn bind(&self, asked: Asked, place: c_int, value: i64) {
            self.expect(unsafe { sqlite3_bind_int64(asked, place, value) }, OK, "bind");
        }

        /// Nothing here should fail but for want of memory, and no figure is worth anything after it did.
        fn expect(&self, said: c_int, wanted: c_int, doing: &str) {
            if said != wanted {
                let why = unsafe { CStr::from_ptr(sqlite3_errmsg(self.db)) }.to_string_lossy();
                fail(&format!("SQLite: {doing}: {why} ({said})"));
            }
        }
    }

    impl Drop for Sqlite {
        fn drop(&mut self) {
            // What they answer is of no use: the database was in memory and is gone.
            unsafe {
                sqlite3_finalize(self.single);
                sqlite3_finalize(self.recent);
                sqlite3_close(self.db);
            }
        }
    }
}
