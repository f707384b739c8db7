//! The windows that are asked for at one S.
use crate::field::Field;
use crate::gym::{absent_load, Random, DAY};
use plain::{Window, LOAD_MAX, LOAD_MIN};

/// A range of loads two plates wide.
const RANGE: i32 = 1_000;

/// What is asked for in each line of searches and tallies.
pub struct Asked {
    pub recent_days: Vec<Window>,
    pub any_days: Vec<Window>,
    pub whole_log: Vec<Window>,
    pub absent: Vec<Window>,
}

impl Asked {
    pub fn of(slots: u64, span: (u64, u64)) -> Asked {
        let mut questions = Questions::new(slots, span);
        // Fewer questions where each takes long.
        let (days, wide) = if slots > 1_000 { (64, 4) } else { (64, 16) };
        Asked {
            recent_days: questions.days(days, 30),
            any_days: questions.days(days, u64::MAX),
            whole_log: questions.whole_log(wide),
            absent: questions.absent(wide),
        }
    }
}

struct Questions {
    random: Random,
    first: u64,
    last: u64,
}

impl Questions {
    /// Of a store of so many slots, with its first and last time retained.
    fn new(slots: u64, (first, last): (u64, u64)) -> Questions {
        Questions { random: Random(slots), first, last }
    }

    fn loads(&mut self) -> (i32, i32) {
        let low = self.random.within(-6, 16) as i32 * 500 - 250;
        (low, low + RANGE)
    }

    /// Days of training among the last so many, each with a range of loads.
    fn days(&mut self, n: usize, among_last: u64) -> Vec<Window> {
        let (first, last) = (self.first / DAY, self.last / DAY);
        let from = first.max(last.saturating_sub(among_last - 1));
        let mut windows = Vec::new();
        while windows.len() < n {
            let day = self.random.within(from as i64, last as i64) as u64;
            let (k1, k2) = self.loads();
            if day % 7 != 6 {
                windows.push(Window { t1: day * DAY, t2: day * DAY + DAY - 1, k1, k2 });
            }
        }
        windows
    }

    fn whole_log(&mut self, n: usize) -> Vec<Window> {
        (0..n)
            .map(|_| {
                let (k1, k2) = self.loads();
                Window { t1: self.first, t2: self.last, k1, k2 }
            })
            .collect()
    }

    /// Loads that were never logged, within the segments' load spans.
    fn absent(&mut self, n: usize) -> Vec<Window> {
        (0..n)
            .map(|_| {
                let load = absent_load(self.random.within(-4, 14) as i32);
                Window { t1: self.first, t2: self.last, k1: load, k2: load }
            })
            .collect()
    }
}

/// The whole log at all loads.
pub fn everything(field: &Field) -> Window {
    Window { t1: field.span.0, t2: field.span.1, k1: LOAD_MIN, k2: LOAD_MAX }
}

/// The whole log at one load that is often lifted.
pub fn five_plates(field: &Field) -> Window {
    Window { k1: 2_500, k2: 2_500, ..everything(field) }
}
