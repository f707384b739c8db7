//! LMDB in memory: one tree in order of time; a cursor goes from t1 to t2 and looks at the loads.
use crate::key::{highest, lowest, time_of, Keys};
use crate::lift::{Contender, Lift, RECORD_BYTES};
use plain::{plate_of, Counts, Window};
use std::ffi::{c_char, c_int, c_uint, c_void, CString};
use std::ptr::{null, null_mut};

/// Bytes that are lent or borrowed.
#[repr(C)]
struct Val {
    len: usize,
    bytes: *mut u8,
}

#[repr(C)]
#[derive(Default)]
struct Stat {
    page_bytes: c_uint,
    depth: c_uint,
    branch_pages: usize,
    leaf_pages: usize,
    overflow_pages: usize,
    entries: usize,
}

#[link(name = "lmdb")]
extern "C" {
    fn mdb_env_create(env: *mut *mut c_void) -> c_int;
    fn mdb_env_set_mapsize(env: *mut c_void, bytes: usize) -> c_int;
    fn mdb_env_open(env: *mut c_void, path: *const c_char, flags: c_uint, mode: c_uint) -> c_int;
    fn mdb_env_stat(env: *mut c_void, stat: *mut Stat) -> c_int;
    fn mdb_env_close(env: *mut c_void);
    fn mdb_txn_begin(env: *mut c_void, parent: *mut c_void, flags: c_uint, txn: *mut *mut c_void) -> c_int;
    fn mdb_txn_commit(txn: *mut c_void) -> c_int;
    fn mdb_txn_abort(txn: *mut c_void);
    fn mdb_txn_reset(txn: *mut c_void);
    fn mdb_txn_renew(txn: *mut c_void) -> c_int;
    fn mdb_dbi_open(txn: *mut c_void, name: *const c_char, flags: c_uint, dbi: *mut c_uint) -> c_int;
    fn mdb_cursor_open(txn: *mut c_void, dbi: c_uint, cursor: *mut *mut c_void) -> c_int;
    fn mdb_cursor_renew(txn: *mut c_void, cursor: *mut c_void) -> c_int;
    fn mdb_cursor_close(cursor: *mut c_void);
    fn mdb_cursor_get(cursor: *mut c_void, key: *mut Val, value: *mut Val, operation: c_uint) -> c_int;
    fn mdb_cursor_put(cursor: *mut c_void, key: *mut Val, value: *mut Val, flags: c_uint) -> c_int;
    fn mdb_cursor_del(cursor: *mut c_void, flags: c_uint) -> c_int;
}

extern "C" {
    fn memfd_create(name: *const c_char, flags: c_uint) -> c_int;
    fn close(file: c_int) -> c_int;
}

const OK: c_int = 0;
const NOT_FOUND: c_int = -30_798;
const NO_SUBDIRECTORY: c_uint = 0x4000;
const NO_SYNC: c_uint = 0x1_0000;
const READ_ONLY: c_uint = 0x2_0000;
const NO_META_SYNC: c_uint = 0x4_0000;
const WRITE_MAP: c_uint = 0x8_0000;
const NO_LOCK: c_uint = 0x40_0000;
const APPEND: c_uint = 0x2_0000;
const FIRST: c_uint = 0;
const NEXT: c_uint = 8;
const SET_RANGE: c_uint = 17;
const MAP_BYTES: usize = 1 << 30;

const LOAD_BYTES: usize = 4;
/// A load and a note.
const VALUE_BYTES: usize = 24;

pub struct Lmdb {
    env: *mut c_void,
    dbi: c_uint,
    /// Open from one writing to the next.
    reader: *mut c_void,
    cursor: *mut c_void,
    keys: Keys,
}

fn done(code: c_int) {
    assert_eq!(code, OK, "LMDB fails");
}

// The handles live as long as the value, and lent bytes until the next call.
impl Lmdb {
    pub fn new() -> Lmdb {
        let (mut env, mut reader, mut cursor, mut dbi) = (null_mut(), null_mut(), null_mut(), 0);
        let flags = NO_SUBDIRECTORY | NO_SYNC | NO_META_SYNC | WRITE_MAP | NO_LOCK;
        unsafe {
            let file = memfd_create(c"lifts".as_ptr(), 0);
            let path = CString::new(format!("/proc/self/fd/{file}")).unwrap();
            done(mdb_env_create(&mut env));
            done(mdb_env_set_mapsize(env, MAP_BYTES));
            done(mdb_env_open(env, path.as_ptr(), flags, 0o600));
            close(file);
            done(mdb_txn_begin(env, null_mut(), 0, &mut reader));
            done(mdb_dbi_open(reader, null(), 0, &mut dbi));
            done(mdb_txn_commit(reader));
            done(mdb_txn_begin(env, null_mut(), READ_ONLY, &mut reader));
            done(mdb_cursor_open(reader, dbi, &mut cursor));
        }
        Lmdb { env, dbi, reader, cursor, keys: Keys::default() }
    }

    /// One write transaction. Nobody reads meanwhile, so that the pages of dropped lifts are used again.
    fn write(&mut self, run: impl FnOnce(&mut Keys, *mut c_void)) {
        let (mut txn, mut cursor) = (null_mut(), null_mut());
        unsafe {
            mdb_txn_reset(self.reader);
            done(mdb_txn_begin(self.env, null_mut(), 0, &mut txn));
            done(mdb_cursor_open(txn, self.dbi, &mut cursor));
            run(&mut self.keys, cursor);
            mdb_cursor_close(cursor);
            done(mdb_txn_commit(txn));
            done(mdb_txn_renew(self.reader));
            done(mdb_cursor_renew(self.reader, self.cursor));
        }
    }

    /// Each lift from t1 to t2, by its key and value.
    fn scan(&self, t1: u64, t2: u64, mut take: impl FnMut(u64, &[u8; VALUE_BYTES])) {
        let (first, last) = (lowest(t1).to_be_bytes(), highest(t2));
        let mut key = Val { len: first.len(), bytes: first.as_ptr().cast_mut() };
        let mut value = Val { len: 0, bytes: null_mut() };
        let mut operation = SET_RANGE;
        loop {
            match unsafe { mdb_cursor_get(self.cursor, &mut key, &mut value, operation) } {
                NOT_FOUND => break,
                code => done(code),
            }
            // Keys have 8 bytes and values 24, as they were put.
            let (at, value) = unsafe { (*key.bytes.cast(), &*value.bytes.cast()) };
            let at = u64::from_be_bytes(at);
            if at > last {
                break;
            }
            take(at, value);
            operation = NEXT;
        }
    }
}

fn load_of(value: &[u8; VALUE_BYTES]) -> i32 {
    i32::from_le_bytes(value[..LOAD_BYTES].try_into().unwrap())
}

fn put(cursor: *mut c_void, key: u64, lift: &Lift) {
    let (mut key, mut value) = (key.to_be_bytes(), [0; VALUE_BYTES]);
    value[..LOAD_BYTES].copy_from_slice(&lift.load.to_le_bytes());
    value[LOAD_BYTES..].copy_from_slice(&lift.note);
    let mut key = Val { len: key.len(), bytes: key.as_mut_ptr() };
    let mut value = Val { len: value.len(), bytes: value.as_mut_ptr() };
    done(unsafe { mdb_cursor_put(cursor, &mut key, &mut value, APPEND) });
}

impl Contender for Lmdb {
    fn append(&mut self, lift: &Lift) {
        self.append_all(std::slice::from_ref(lift));
    }

    fn append_all(&mut self, lifts: &[Lift]) {
        self.write(|keys, cursor| {
            for lift in lifts {
                put(cursor, keys.next(lift.time), lift);
            }
        });
    }

    fn search(&mut self, w: &Window, rows: &mut [u8]) -> usize {
        let mut found = 0;
        self.scan(w.t1, w.t2, |key, value| {
            let load = load_of(value);
            if w.k1 <= load && load <= w.k2 {
                let lift = Lift { time: time_of(key), load, note: value[LOAD_BYTES..].try_into().unwrap() };
                lift.write(&mut rows[found * RECORD_BYTES..][..RECORD_BYTES]);
                found += 1;
            }
        });
        found
    }

    fn tally(&mut self, t1: u64, t2: u64) -> Counts {
        let mut counts = Counts::default();
        self.scan(t1, t2, |_, value| counts[plate_of(load_of(value)).expect("a plate")] += 1);
        counts
    }

    fn keep_last(&mut self, lifts: usize) {
        let mut stat = Stat::default();
        done(unsafe { mdb_env_stat(self.env, &mut stat) });
        self.write(|_, cursor| {
            let (mut key, mut value) = (Val { len: 0, bytes: null_mut() }, Val { len: 0, bytes: null_mut() });
            for _ in lifts..stat.entries {
                done(unsafe { mdb_cursor_get(cursor, &mut key, &mut value, FIRST) });
                done(unsafe { mdb_cursor_del(cursor, 0) });
            }
        });
    }
}

impl Drop for Lmdb {
    fn drop(&mut self) {
        unsafe {
            mdb_cursor_close(self.cursor);
            mdb_txn_abort(self.reader);
            mdb_env_close(self.env);
        }
    }
}
