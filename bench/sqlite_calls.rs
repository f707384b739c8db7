//! SQLite's C interface as far as it is used, with a failure ending the run.
use std::ffi::{c_char, c_int, c_void, CStr, CString};
use std::ptr::{null, null_mut};

#[link(name = "sqlite3")]
extern "C" {
    fn sqlite3_config(option: c_int, ...) -> c_int;
    fn sqlite3_open_v2(name: *const c_char, db: *mut *mut c_void, flags: c_int, system: *const c_char) -> c_int;
    fn sqlite3_exec(
        db: *mut c_void,
        sql: *const c_char,
        call: *const c_void,
        arg: *mut c_void,
        error: *mut *mut c_char,
    ) -> c_int;
    fn sqlite3_create_function(
        db: *mut c_void,
        name: *const c_char,
        arguments: c_int,
        text: c_int,
        data: *mut c_void,
        call: *const c_void,
        step: AggregateStep,
        end: AggregateEnd,
    ) -> c_int;
    fn sqlite3_prepare_v2(
        db: *mut c_void,
        sql: *const c_char,
        len: c_int,
        out: *mut *mut c_void,
        tail: *mut *const c_char,
    ) -> c_int;
    fn sqlite3_bind_int64(statement: *mut c_void, i: c_int, value: i64) -> c_int;
    fn sqlite3_bind_blob(statement: *mut c_void, i: c_int, bytes: *const u8, len: c_int, free: *const c_void) -> c_int;
    fn sqlite3_step(statement: *mut c_void) -> c_int;
    fn sqlite3_reset(statement: *mut c_void) -> c_int;
    fn sqlite3_column_text(statement: *mut c_void, i: c_int) -> *const c_char;
    fn sqlite3_finalize(statement: *mut c_void) -> c_int;
    fn sqlite3_close(db: *mut c_void) -> c_int;
    pub fn sqlite3_column_int64(statement: *mut c_void, i: c_int) -> i64;
    pub fn sqlite3_column_blob(statement: *mut c_void, i: c_int) -> *const u8;
    pub fn sqlite3_column_bytes(statement: *mut c_void, i: c_int) -> c_int;
    pub fn sqlite3_value_int(value: *mut c_void) -> c_int;
    pub fn sqlite3_aggregate_context(context: *mut c_void, bytes: c_int) -> *mut c_void;
    pub fn sqlite3_result_blob(context: *mut c_void, bytes: *const c_void, len: c_int, free: isize);
}

pub type AggregateStep = extern "C" fn(context: *mut c_void, n: c_int, values: *mut *mut c_void);
pub type AggregateEnd = extern "C" fn(context: *mut c_void);

const OK: c_int = 0;
const ROW: c_int = 100;
const DONE: c_int = 101;
const READ_WRITE: c_int = 0x2;
const CREATE: c_int = 0x4;
const NO_MUTEX: c_int = 0x8000;
const MEMORY_STATISTICS: c_int = 9;
const UTF8: c_int = 1;
const DETERMINISTIC: c_int = 0x800;
/// SQLite copies the bytes of a result before the call is over.
pub const COPIED: isize = -1;

/// A data base in memory, for one thread.
pub struct Db(*mut c_void);

/// A prepared statement; it goes before its data base does.
#[derive(Clone, Copy)]
pub struct Statement(pub *mut c_void);

// The handles live as long as the data base, and every string handed over ends in 0.
impl Db {
    pub fn open() -> Db {
        let mut db = null_mut();
        // It can be set only before the first data base is opened; later calls change nothing.
        unsafe { sqlite3_config(MEMORY_STATISTICS, 0 as c_int) };
        let flags = READ_WRITE | CREATE | NO_MUTEX;
        let code = unsafe { sqlite3_open_v2(c":memory:".as_ptr(), &mut db, flags, null()) };
        assert_eq!(code, OK, "SQLite does not open");
        Db(db)
    }

    pub fn exec(&self, sql: &str) {
        let sql = CString::new(sql).unwrap();
        let code = unsafe { sqlite3_exec(self.0, sql.as_ptr(), null(), null_mut(), null_mut()) };
        assert_eq!(code, OK, "SQLite refuses {sql:?}");
    }

    pub fn prepare(&self, sql: &str) -> Statement {
        let text = CString::new(sql).unwrap();
        let mut statement = null_mut();
        let code = unsafe { sqlite3_prepare_v2(self.0, text.as_ptr(), -1, &mut statement, null_mut()) };
        assert_eq!(code, OK, "SQLite refuses {sql}");
        Statement(statement)
    }

    /// Makes an aggregate function of one argument known.
    pub fn aggregate(&self, name: &CStr, step: AggregateStep, end: AggregateEnd) {
        let (db, text) = (self.0, UTF8 | DETERMINISTIC);
        let code = unsafe { sqlite3_create_function(db, name.as_ptr(), 1, text, null_mut(), null(), step, end) };
        assert_eq!(code, OK, "SQLite refuses {name:?}");
    }

    /// How SQLite goes about a statement, in its words.
    pub fn plan(&self, sql: &str) -> String {
        let statement = self.prepare(&format!("EXPLAIN QUERY PLAN {sql}"));
        let mut steps = Vec::new();
        statement.run(|| {
            let text = unsafe { CStr::from_ptr(sqlite3_column_text(statement.0, 3)) };
            steps.push(text.to_string_lossy().into_owned());
        });
        statement.finish();
        steps.join("; ")
    }

    pub fn close(&self) {
        assert_eq!(unsafe { sqlite3_close(self.0) }, OK, "SQLite does not close");
    }
}

impl Statement {
    pub fn bind(self, values: &[i64]) {
        for (i, &value) in (1..).zip(values) {
            assert_eq!(unsafe { sqlite3_bind_int64(self.0, i, value) }, OK);
        }
    }

    /// The bytes must outlive the next run: SQLite does not copy them.
    pub fn bind_bytes(self, i: c_int, bytes: &[u8]) {
        assert_eq!(unsafe { sqlite3_bind_blob(self.0, i, bytes.as_ptr(), bytes.len() as c_int, null()) }, OK);
    }

    /// Runs the statement to its end, with `take` for each row.
    pub fn run(self, mut take: impl FnMut()) {
        loop {
            match unsafe { sqlite3_step(self.0) } {
                ROW => take(),
                DONE => break,
                code => panic!("SQLite stops with {code}"),
            }
        }
        unsafe { sqlite3_reset(self.0) };
    }

    pub fn finish(self) {
        unsafe { sqlite3_finalize(self.0) };
    }
}
