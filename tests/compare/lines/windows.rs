//! Windows of times and loads around the lifts that a log holds.
use crate::random::Random;
use model::limits::{GREATEST_LOAD, LAST_TIME, LEAST_LOAD};
use model::lines::RESULT_ROWS;
use model::paper::PaperLog;
use script::calls::Window;

/// Times and loads of the lifts held, oldest first; never empty.
pub struct Held {
    times: Vec<u64>,
    loads: Vec<i32>,
}

impl Held {
    /// Where nothing is held, a lift at the last accepted time stands for it.
    pub fn by(log: &PaperLog) -> Held {
        let (mut times, mut loads): (Vec<u64>, Vec<i32>) = log.lifts().map(|lift| (lift.time, lift.load)).unzip();
        if times.is_empty() {
            times.push(log.next_time());
            loads.push(0);
        }
        Held { times, loads }
    }

    pub fn window(&self, random: &mut Random) -> Window {
        let (t1, t2) = self.times(random);
        let (k1, k2) = self.loads(random);
        Window { t1, t2, k1, k2 }
    }

    /// The whole log, none of it, one lift, some; between two lifts in succession the window may run backwards.
    fn times(&self, random: &mut Random) -> (u64, u64) {
        let (first, last) = (self.times[0], self.times[self.times.len() - 1]);
        let place = random.index(self.times.len());
        let one = self.times[place];
        let after_one = *self.times.get(place + 1).unwrap_or(&LAST_TIME);
        let other = random.pick(&self.times);
        let (t1, t2) = match random.below(16) {
            0..=2 => (0, LAST_TIME),
            3 => (first, last),
            4 => (first + 1, last.saturating_sub(1)),
            5 => (one, one),
            6 => (one + 1, after_one.saturating_sub(1)),
            7 => (0, first.saturating_sub(1)),
            8 => (last + 1, LAST_TIME),
            9 => (0, one),
            10 => (one, LAST_TIME),
            11 => (one.max(other), one.min(other)),
            12 | 13 => self.rows_or_one_more(random),
            _ => (one.min(other), one.max(other)),
        };
        (t1.min(LAST_TIME), t2)
    }

    /// Lifts in succession, as many as there are result rows or one more, if so many are held; those at the same times
    /// come with them.
    fn rows_or_one_more(&self, random: &mut Random) -> (u64, u64) {
        let lifts = random.pick(&[RESULT_ROWS, RESULT_ROWS + 1]).min(self.times.len());
        let place = random.index(self.times.len() - lifts + 1);
        (self.times[place], self.times[place + lifts - 1])
    }

    fn loads(&self, random: &mut Random) -> (i32, i32) {
        let (one, other) = (random.pick(&self.loads), random.pick(&self.loads));
        let beside = (one + random.load(-1, 1)).clamp(LEAST_LOAD, GREATEST_LOAD);
        match random.below(10) {
            0..=3 => (LEAST_LOAD, GREATEST_LOAD),
            4 => (beside, beside),
            5 => (beside, GREATEST_LOAD),
            6 => (LEAST_LOAD, beside),
            7 => (one.max(other), one.min(other)),
            8 => (one, one),
            _ => (one.min(other), one.max(other)),
        }
    }
}
