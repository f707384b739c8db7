//! A key for each lift, in order of time and then of arrival, for the contenders that keep a tree by it.

/// Lifts at one time are numbered from 0: the lowest 13 bits, below a time's 50.
const AT_ONE_TIME: u64 = 1 << 13;

/// Hands out keys; it holds the last one.
#[derive(Default)]
pub struct Keys(u64);

impl Keys {
    /// The key of the next lift; times never go back.
    pub fn next(&mut self, time: u64) -> u64 {
        self.0 = lowest(time).max(self.0 + 1);
        assert_eq!(time_of(self.0), time, "too many lifts at one time");
        self.0
    }
}

pub fn lowest(time: u64) -> u64 {
    time * AT_ONE_TIME
}

pub fn highest(time: u64) -> u64 {
    lowest(time) + AT_ONE_TIME - 1
}

pub fn time_of(key: u64) -> u64 {
    key / AT_ONE_TIME
}
