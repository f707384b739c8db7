//! The limits of document 01 and the numbers of the grounds.
use script::calls::Window;

pub const SLOTS: std::ops::RangeInclusive<u64> = 2..=4096;
pub const LAST_TIME: u64 = 999_999_999_999_999;
pub const LEAST_LOAD: i32 = -50_000;
pub const GREATEST_LOAD: i32 = 100_000;
/// Stored load = load + this; also the lower end of the root range, below zero.
pub const LOAD_SHIFT: i64 = 50_001;
/// "d from 0 to 1,000" (W-209)
pub const MOST_TOLERANCE: u64 = 1_000;
/// "Counts with a sum above 1,310,720 break ground 3" (W-210)
pub const MOST_COUNTED: u64 = 1_310_720;
pub const LAST_SERIAL: u32 = 999_999_999;
pub const SEGMENT_LIFTS: usize = 320;
pub const SEGMENT_BUCKETS: usize = 36;
pub const BUCKET_ENTRIES: usize = 13;
pub const ROW_BYTES: usize = 32;
/// All times and all loads.
pub const EVERYTHING: Window = Window { t1: 0, t2: LAST_TIME, k1: LEAST_LOAD, k2: GREATEST_LOAD };

pub const SLOTS_OR_NAND_LENGTH: u8 = 1;
pub const NOR_LENGTH: u8 = 2;
pub const STATE_BOUND: u8 = 3;
pub const TIME_LIMIT: u8 = 4;
pub const LOAD_LIMIT: u8 = 5;
pub const BACKWARD_RANGE: u8 = 6;
pub const TIME_BELOW_NEXT: u8 = 7;
pub const LAST_SERIALS: u8 = 8;
pub const NOTHING_TO_DO: u8 = 9;
pub const DAMAGE: u8 = 10;
pub const PAGE_NOT_ERASED: u8 = 11;
pub const TOO_MANY_ROWS: u8 = 12;
pub const OTHER_FORM: u8 = 13;
pub const NO_WAY_BACK: u8 = 14;
pub const NO_STACK: u8 = 15;
pub const TOO_MANY_PAIRS: u8 = 16;
pub const TOLERANCE_LIMIT: u8 = 17;
pub const OTHER_TEXT: u8 = 18;

/// What a call gives, or the number of the first ground against it.
pub type Outcome<T> = Result<T, u8>;

pub fn refuse_if(ground_holds: bool, number: u8) -> Outcome<()> {
    if ground_holds {
        return Err(number);
    }
    Ok(())
}

pub fn time_past_limit(time: u64) -> bool {
    time > LAST_TIME
}

pub fn load_past_limit(load: i32) -> bool {
    !(LEAST_LOAD..=GREATEST_LOAD).contains(&load)
}
