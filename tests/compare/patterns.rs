//! How loads and times run in a list of calls.
use crate::random::Random;
use model::limits::{GREATEST_LOAD, LAST_TIME, LEAST_LOAD};

pub enum Loads {
    Equal(i32),
    /// From a load on by a step, turning at the limits.
    Steady {
        load: i32,
        step: i32,
    },
    Clustered {
        centres: Vec<i32>,
        spread: i32,
    },
    /// Anything between two loads.
    Between(i32, i32),
    AtLimits,
    /// Half-way again and again towards one load, which grows a deep tree.
    Closing {
        load: i32,
        towards: i32,
    },
    /// Runs of one load, then of one beside it, so that predictions fall on the ends of ranges.
    Runs {
        load: i32,
        left: u64,
    },
    /// By the golden section of the whole range, which needs bucket 36 every other time.
    Even {
        load: i32,
    },
    AtPlateEnds,
    /// About some loads, at them or once or twice as far off as said, give or take one.
    Apart {
        centres: Vec<i32>,
        apart: i32,
    },
}

impl Loads {
    pub fn any(random: &mut Random) -> Loads {
        let load = random.load(LEAST_LOAD, GREATEST_LOAD);
        match random.below(17) {
            0 => Loads::Equal(load),
            1 | 2 => Loads::Steady { load, step: random.pick(&[1, 2, 10, 250, 500, -1, -25, -500]) },
            3 | 4 => {
                let centres = (0..1 + random.below(5)).map(|_| random.load(0, 20_000)).collect();
                Loads::Clustered { centres, spread: random.pick(&[0, 1, 10, 300]) }
            }
            5 | 6 => Loads::Between(LEAST_LOAD, GREATEST_LOAD),
            7 => Loads::Between(LEAST_LOAD, -1),
            8 => Loads::Between(0, 10_750),
            9 => Loads::AtLimits,
            10 => {
                let width = random.pick(&[3, 7, 40]);
                Loads::Between(load.max(LEAST_LOAD + width) - width, load)
            }
            11 => Loads::Closing { load, towards: random.pick(&[LEAST_LOAD, 0, GREATEST_LOAD]) },
            12 | 13 => Loads::Runs { load, left: 0 },
            14 => Loads::AtPlateEnds,
            _ => Loads::Even { load },
        }
    }

    /// At both limits, at one of them, or anywhere.
    pub fn apart(apart: i32, random: &mut Random) -> Loads {
        let anywhere = random.load(LEAST_LOAD, GREATEST_LOAD);
        let centres = match random.below(4) {
            0 => vec![LEAST_LOAD, GREATEST_LOAD],
            1 => vec![random.pick(&[LEAST_LOAD, GREATEST_LOAD])],
            2 => vec![anywhere],
            _ => vec![LEAST_LOAD, 0, anywhere, GREATEST_LOAD],
        };
        Loads::Apart { centres, apart }
    }

    pub fn next(&mut self, random: &mut Random) -> i32 {
        match self {
            Loads::Equal(load) => *load,
            Loads::Steady { load, step } => {
                if !(LEAST_LOAD..=GREATEST_LOAD).contains(&(*load + *step)) {
                    *step = -*step;
                }
                *load += *step;
                *load
            }
            Loads::Clustered { centres, spread } => {
                let centre = random.pick(centres);
                random.load(centre - *spread, centre + *spread)
            }
            Loads::Between(least, greatest) => random.load(*least, *greatest),
            Loads::AtLimits => {
                let near = random.load(0, 2);
                if random.once_in(2) {
                    LEAST_LOAD + near
                } else {
                    GREATEST_LOAD - near
                }
            }
            Loads::Closing { load, towards } => {
                *load += (*towards - *load) / 2;
                if (*towards - *load).abs() < 2 {
                    *load = random.load(LEAST_LOAD, GREATEST_LOAD);
                }
                *load
            }
            Loads::Runs { load, left } => {
                if *left == 0 {
                    *left = random.pick(&[2, 13, 14, 30]);
                    *load = (*load + random.load(-2, 2)).clamp(LEAST_LOAD, GREATEST_LOAD);
                }
                *left -= 1;
                *load
            }
            Loads::Even { load } => {
                let range = GREATEST_LOAD - LEAST_LOAD + 1;
                *load = LEAST_LOAD + (*load - LEAST_LOAD + 92_706) % range;
                *load
            }
            Loads::AtPlateEnds => near_plate_end(random),
            Loads::Apart { centres, apart } => {
                let load = random.pick(centres) + *apart * random.load(-2, 2) + random.load(-1, 1);
                load.clamp(LEAST_LOAD, GREATEST_LOAD)
            }
        }
    }
}

/// At the end of a plate's band, of the last one too, or one beside it; now and then far beyond the stack.
pub fn near_plate_end(random: &mut Random) -> i32 {
    if random.once_in(16) {
        return random.load(10_251, GREATEST_LOAD);
    }
    500 * random.load(-2, 22) + 250 + random.load(-1, 1)
}

/// Steps from one time to the next.
#[derive(Clone, Copy)]
pub enum Times {
    /// Every millisecond.
    Dense,
    Sparse(u64),
    /// Reaches the last time within some hundred lifts.
    Hasty,
    /// Two arms: about every other lift at the time of the one before.
    Twice,
    /// Runs of one time, past the ends of pages, sections and segments.
    Runs {
        left: u64,
    },
    /// One time for good, later than 0, so that all starts are equal.
    Still,
}

/// How long a run of one time is: about a page, a section, a segment, and more than two.
const RUNS: [u64; 12] = [2, 3, 15, 16, 17, 63, 64, 65, 319, 320, 321, 700];

impl Times {
    pub fn any(random: &mut Random) -> Times {
        match random.below(16) {
            0..=2 => Times::Dense,
            3..=8 => Times::Sparse(random.pick(&[2, 3, 1000, 86_400_000, 1_000_000_000])),
            9 => Times::Hasty,
            10..=12 => Times::Twice,
            13 | 14 => Times::Runs { left: 0 },
            _ => Times::Still,
        }
    }

    /// A time not below `last_time`, if that is within the limit.
    pub fn after(&mut self, last_time: u64, random: &mut Random) -> u64 {
        let left = LAST_TIME.saturating_sub(last_time);
        let step = match self {
            Times::Dense => 1,
            Times::Sparse(end) => random.below(*end),
            Times::Hasty => random.below(left / 20 + 2),
            Times::Twice => random.pick(&[0, 0, 0, 1, 1, 1000]),
            Times::Runs { left: 0 } => {
                *self = Times::Runs { left: random.pick(&RUNS) - 1 };
                random.pick(&[1, 1, 1000])
            }
            Times::Runs { left } => {
                *left -= 1;
                0
            }
            Times::Still => u64::from(last_time == 0),
        };
        last_time.saturating_add(step.min(left))
    }
}
