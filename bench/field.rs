//! The contenders at one S, filled with the same lifts, and the check that they answer alike.
use crate::filled::Filled;
use crate::gym::Gym;
use crate::in_place::InPlace;
use crate::lift::{Contender, Lift, RECORD_BYTES};
use crate::proved::Proved;
use crate::scan::Scan;
use plain::Window;

pub const CONTENDERS: usize = 5;
pub const NAMES: [&str; CONTENDERS] = ["store", "(a) in place", "(b) SQLite", "(c) array", "(d) LMDB"];

type Other = Option<Box<dyn Contender>>;

#[cfg(sqlite)]
fn sqlite() -> Other {
    Some(Box::new(crate::sqlite::Sqlite::new()))
}

#[cfg(not(sqlite))]
fn sqlite() -> Other {
    None
}

#[cfg(lmdb)]
fn lmdb() -> Other {
    Some(Box::new(crate::lmdb::Lmdb::new()))
}

#[cfg(not(lmdb))]
fn lmdb() -> Other {
    None
}

fn lent(other: &mut Other) -> Option<&mut dyn Contender> {
    match other {
        Some(contender) => Some(contender.as_mut()),
        None => None,
    }
}

pub struct Field {
    pub slots: u64,
    pub proved: Proved,
    pub in_place: InPlace,
    sqlite: Other,
    scan: Scan,
    lmdb: Other,
    gym: Gym,
    /// The result area: a row for each retained lift.
    pub rows: Vec<u8>,
    /// First and last time retained.
    pub span: (u64, u64),
}

impl Field {
    /// The others get what the store and (a) have retained.
    pub fn filled(slots: u64) -> Field {
        let Filled { proved, in_place, gym, retained } = Filled::new(slots);
        let mut field = Field {
            slots,
            proved,
            in_place,
            sqlite: sqlite(),
            scan: Scan::default(),
            lmdb: lmdb(),
            gym,
            rows: Vec::new(),
            span: (0, 0),
        };
        for contender in field.contenders().into_iter().skip(2).flatten() {
            contender.append_all(&retained);
        }
        field.settle(&retained);
        field
    }

    pub fn next_lifts(&mut self, at_least: usize) -> Vec<Lift> {
        self.gym.lifts(at_least)
    }

    /// The contenders in the order of their names; SQLite and LMDB where they are to be had.
    pub fn contenders(&mut self) -> [Option<&mut dyn Contender>; CONTENDERS] {
        let (sqlite, lmdb) = (lent(&mut self.sqlite), lent(&mut self.lmdb));
        [Some(&mut self.proved), Some(&mut self.in_place), sqlite, Some(&mut self.scan), lmdb]
    }

    /// How SQLite goes about each kind of question.
    pub fn sqlite_plans(&self) -> Vec<(&'static str, String)> {
        self.sqlite.as_ref().map_or(Vec::new(), |sqlite| sqlite.plans())
    }

    /// After appends: what the store dropped is dropped by the others, and the area has room for all.
    pub fn settle(&mut self, appended: &[Lift]) {
        let retained = self.proved.retained();
        for contender in self.contenders().into_iter().flatten() {
            contender.keep_last(retained);
        }
        self.span = (self.scan.first_time(), appended.last().expect("some lifts").time);
        self.rows = vec![0; retained * RECORD_BYTES];
    }

    pub fn retained(&self) -> usize {
        self.rows.len() / RECORD_BYTES
    }

    /// Chips and state of (a) are byte for byte the store's.
    pub fn check_bytes(&self) {
        assert!(self.in_place.state.to_bytes() == self.proved.state, "the states differ");
        assert!(self.in_place.nand == self.proved.nand, "NAND differs");
        assert!(self.in_place.nor == self.proved.nor, "NOR differs");
    }

    /// All contenders find the same rows; how many, over all windows.
    pub fn check_searches(&mut self, windows: &[Window]) -> usize {
        let mut known = std::mem::take(&mut self.rows);
        let mut rows = vec![0; known.len()];
        let mut total = 0;
        for window in windows {
            let mut others = self.contenders().into_iter().flatten();
            let found = others.next().expect("the store").search(window, &mut known);
            let bytes = found * RECORD_BYTES;
            for contender in others {
                let alike = contender.search(window, &mut rows) == found && rows[..bytes] == known[..bytes];
                assert!(alike, "answers differ at {window:?}");
            }
            total += found;
        }
        self.rows = known;
        total
    }

    /// All contenders count alike; how many lifts, over all windows.
    pub fn check_tallies(&mut self, windows: &[Window]) -> usize {
        let mut total = 0;
        for w in windows {
            let counts = self.contenders().into_iter().flatten().map(|c| c.tally(w.t1, w.t2));
            let counts: Vec<_> = counts.collect();
            assert!(counts.windows(2).all(|pair| pair[0] == pair[1]), "tallies differ at {w:?}");
            total += counts[0].iter().sum::<u64>() as usize;
        }
        total
    }
}
