//! SQLite in memory: a table in order of time, an index by load and time, prepared statements.
use crate::key::{highest, lowest, time_of, Keys};
use crate::lift::{Contender, Lift, RECORD_BYTES};
use crate::sqlite_calls::*;
use plain::{plate_of, Counts, Window};
use std::ffi::{c_int, c_void};

/// `moment` is the lift's key: its time and its number among the lifts at that time. The table is a tree by it, with whole rows,
/// and an entry of the index ends with its row's `moment`, so that the index is by load and time.
const SCHEMA: &str = "PRAGMA page_size = 16384; PRAGMA journal_mode = OFF; PRAGMA synchronous = OFF;
    PRAGMA analysis_limit = 1000;
    CREATE TABLE lifts (moment INTEGER PRIMARY KEY, load INTEGER NOT NULL, note BLOB NOT NULL);
    CREATE INDEX by_load ON lifts (load);
    BEGIN";
const INSERT: &str = "INSERT INTO lifts VALUES (?1, ?2, ?3)";
/// The planner takes the table.
const LOADS: &str = "SELECT moment, load, note FROM lifts
    WHERE moment BETWEEN ?1 AND ?2 AND load BETWEEN ?3 AND ?4 ORDER BY moment";
/// The planner takes the index: it cannot tell from a range that it holds one load only.
const ONE_LOAD: &str = "SELECT moment, load, note FROM lifts
    WHERE moment BETWEEN ?1 AND ?2 AND load = ?3 ORDER BY moment";
const TALLY: &str = "SELECT plates(load) FROM lifts WHERE moment BETWEEN ?1 AND ?2";
const FORGET: &str =
    "DELETE FROM lifts WHERE moment < (SELECT moment FROM lifts ORDER BY moment DESC LIMIT 1 OFFSET ?1)";

const COUNTS_BYTES: c_int = size_of::<Counts>() as c_int;

pub struct Sqlite {
    db: Db,
    insert: Statement,
    loads: Statement,
    one_load: Statement,
    tally: Statement,
    forget: Statement,
    keys: Keys,
}

impl Sqlite {
    /// An open transaction, in which the filling and all appends take place.
    pub fn new() -> Sqlite {
        let db = Db::open();
        db.exec(SCHEMA);
        db.aggregate(c"plates", count, hand_back);
        let statements = [INSERT, LOADS, ONE_LOAD, TALLY, FORGET].map(|sql| db.prepare(sql));
        let [insert, loads, one_load, tally, forget] = statements;
        Sqlite { db, insert, loads, one_load, tally, forget, keys: Keys::default() }
    }

    /// The statement for a search, bound.
    fn statement_for(&self, w: &Window) -> Statement {
        let bounds = [lowest(w.t1) as i64, highest(w.t2) as i64, i64::from(w.k1), i64::from(w.k2)];
        let (statement, bounds) = if w.k1 == w.k2 { (self.one_load, &bounds[..3]) } else { (self.loads, &bounds[..]) };
        statement.bind(bounds);
        statement
    }
}

/// A step of `plates`: the counts are SQLite's memory, zero at first.
extern "C" fn count(context: *mut c_void, _: c_int, values: *mut *mut c_void) {
    unsafe {
        let counts = &mut *sqlite3_aggregate_context(context, COUNTS_BYTES).cast::<Counts>();
        counts[plate_of(sqlite3_value_int(*values)).expect("a plate")] += 1;
    }
}

/// The end of `plates`: nothing where there was no lift.
extern "C" fn hand_back(context: *mut c_void) {
    unsafe {
        let counts = sqlite3_aggregate_context(context, 0);
        if !counts.is_null() {
            sqlite3_result_blob(context, counts, COUNTS_BYTES, COPIED);
        }
    }
}

impl Contender for Sqlite {
    fn append(&mut self, lift: &Lift) {
        self.insert.bind(&[self.keys.next(lift.time) as i64, i64::from(lift.load)]);
        self.insert.bind_bytes(3, &lift.note);
        self.insert.run(|| {});
    }

    fn search(&mut self, w: &Window, rows: &mut [u8]) -> usize {
        let statement = self.statement_for(w);
        let mut found = 0;
        statement.run(|| {
            let lift = unsafe {
                assert_eq!(sqlite3_column_bytes(statement.0, 2), 20);
                Lift {
                    time: time_of(sqlite3_column_int64(statement.0, 0) as u64),
                    load: sqlite3_column_int64(statement.0, 1) as i32,
                    note: *sqlite3_column_blob(statement.0, 2).cast(),
                }
            };
            lift.write(&mut rows[found * RECORD_BYTES..][..RECORD_BYTES]);
            found += 1;
        });
        found
    }

    fn tally(&mut self, t1: u64, t2: u64) -> Counts {
        let statement = self.tally;
        statement.bind(&[lowest(t1) as i64, highest(t2) as i64]);
        let mut counts = Counts::default();
        statement.run(|| unsafe {
            if sqlite3_column_bytes(statement.0, 0) == COUNTS_BYTES {
                counts = sqlite3_column_blob(statement.0, 0).cast::<Counts>().read_unaligned();
            }
        });
        counts
    }

    fn keep_last(&mut self, lifts: usize) {
        self.forget.bind(&[lifts as i64 - 1]);
        self.forget.run(|| {});
        self.db.exec("ANALYZE");
    }

    /// By the statistics gathered last; an unfit index ends the run.
    fn plans(&self) -> Vec<(&'static str, String)> {
        let kinds = [("a range of loads", LOADS, false), ("one load", ONE_LOAD, true), ("a tally", TALLY, false)];
        let plan = |(what, sql, by_load)| {
            let plan = self.db.plan(sql);
            assert!(plan.starts_with("SEARCH") && plan.contains("by_load") == by_load, "{what}: {plan}");
            (what, plan)
        };
        kinds.map(plan).into()
    }
}

impl Drop for Sqlite {
    fn drop(&mut self) {
        let statements = [self.insert, self.loads, self.one_load, self.tally, self.forget];
        statements.into_iter().for_each(Statement::finish);
        self.db.close();
    }
}
