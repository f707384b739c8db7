//! The input: a seeded gym. Members come on days of training, lift in sets, with one arm or with both, and grow stronger over the
//! weeks.
use crate::lift::Lift;

pub const DAY: u64 = 86_400_000;
const OPENS: u64 = 7 * 3_600_000;
const PLATE: i32 = 500;

/// SplitMix64.
pub struct Random(pub u64);

impl Random {
    pub fn next(&mut self) -> u64 {
        self.0 = self.0.wrapping_add(0x9e37_79b9_7f4a_7c15);
        let mut z = self.0;
        z = (z ^ (z >> 30)).wrapping_mul(0xbf58_476d_1ce4_e5b9);
        z = (z ^ (z >> 27)).wrapping_mul(0x94d0_49bb_1331_11eb);
        z ^ (z >> 31)
    }

    /// A number from `low` to `high`, both included.
    pub fn within(&mut self, low: i64, high: i64) -> i64 {
        low + (self.next() % (high - low + 1) as u64) as i64
    }
}

/// A member's plates when new, and how many plates are gained in 52 weeks. Below zero: assisted.
struct Member {
    plates: i64,
    yearly: i64,
}

pub struct Gym {
    random: Random,
    members: Vec<Member>,
    day: u64,
}

impl Gym {
    pub fn new(seed: u64) -> Gym {
        let mut random = Random(seed);
        let members = (0..40)
            .map(|i| {
                let plates = if i % 5 == 0 { random.within(-8, -2) } else { random.within(2, 16) };
                Member { plates, yearly: random.within(0, 3) }
            })
            .collect();
        Gym { random, members, day: 0 }
    }

    /// The sets of the next day, each by a member, some minutes apart: none on Sundays, else some tens.
    fn day(&mut self, mut set: impl FnMut(&mut Gym, usize, &mut u64)) {
        let day = self.day;
        self.day += 1;
        if day % 7 == 6 {
            return;
        }
        let mut time = day * DAY + OPENS;
        for _ in 0..self.random.within(28, 52) {
            time += self.random.within(60_000, 900_000) as u64;
            let number = self.random.within(0, self.members.len() as i64 - 1) as usize;
            set(self, number, &mut time);
        }
    }

    /// A set: lifts some seconds apart at one stack of plates; the cell reads up to 0.6 kg beside it. In about every other set
    /// left and right lift at one time. The note has the member, from 1 on, then repetition and arm.
    fn set(&mut self, number: usize, time: &mut u64, lifts: &mut Vec<Lift>) {
        let random = &mut self.random;
        let member = &self.members[number];
        // A member is replaced by a new one after two years.
        let weeks = (*time / DAY / 7 + 13 * number as u64) % 104;
        let gained = member.yearly * weeks as i64 / 52;
        let plates = (member.plates + gained + random.within(-1, 1)) as i32;
        let arms = random.within(1, 2);
        for lift in 0..random.within(6, 14) {
            let (repetition, arm) = (lift / arms, lift % arms);
            if arm == 0 {
                *time += random.within(1_800, 5_500) as u64;
            }
            let spread = random.within(-30, 30) + random.within(-30, 30);
            let mut note = [0; 20];
            note[..4].copy_from_slice(&(number as u32 + 1).to_le_bytes());
            note[4] = repetition as u8;
            note[5] = arm as u8;
            note[6..14].copy_from_slice(&random.next().to_le_bytes());
            lifts.push(Lift { time: *time, load: plates * PLATE + spread as i32, note });
        }
    }

    /// The next lifts, at least so many, in whole days.
    pub fn lifts(&mut self, at_least: usize) -> Vec<Lift> {
        let mut lifts = Vec::with_capacity(at_least + 1_000);
        while lifts.len() < at_least {
            self.day(|gym, number, time| gym.set(number, time, &mut lifts));
        }
        lifts
    }

    /// The next lifts of two machines, at least so many on each, in whole days.
    pub fn lifts_of_two(&mut self, at_least: usize) -> [Vec<Lift>; 2] {
        let mut lifts = [Vec::new(), Vec::new()];
        while lifts.iter().any(|lifts| lifts.len() < at_least) {
            self.day(|gym, number, time| gym.superset(number, time, &mut lifts));
        }
        lifts
    }

    /// A set on the first machine and, some seconds later, one on the second; one in six is on the first alone, one on the
    /// second alone.
    fn superset(&mut self, number: usize, time: &mut u64, [first, second]: &mut [Vec<Lift>; 2]) {
        match self.random.within(0, 5) {
            0 => self.set(number, time, first),
            1 => self.set(number, time, second),
            _ => {
                self.set(number, time, first);
                *time += self.random.within(3_000, 12_000) as u64;
                self.set(number, time, second);
            }
        }
    }
}

/// A load that lies between two plates' spreads, so that no lift has it.
pub fn absent_load(plates: i32) -> i32 {
    plates * PLATE + PLATE / 2
}
