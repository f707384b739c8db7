//! The plate of a load: of twenty plates of 500 by division, of an uneven stack by a table (W-205); above the last end it is
//! a plate more (W-206).
use crate::{load_ok, stored, Ground, LOAD_OFFSET};

pub(crate) const PLATES: usize = 22;

/// A load beyond the twenty plates of either carried stack.
const BEYOND: usize = PLATES - 1;

/// How many lifts belong to each plate.
pub type Counts = [u64; PLATES];

/// The ends of the bands on four plates of 250 over sixteen of 500.
const LIGHT_AT_THE_TOP: [i32; BEYOND] = [
    125, 375, 625, 875, 1_250, 1_750, 2_250, 2_750, 3_250, 3_750, 4_250, 4_750, 5_250, 5_750, 6_250, 6_750, 7_250,
    7_750, 8_250, 8_750, 9_250,
];

pub(crate) fn plate_of_code(code: u32) -> usize {
    const FIRST: u32 = (250 + LOAD_OFFSET) as u32;
    const LAST: u32 = (10_250 + LOAD_OFFSET) as u32;
    if code <= FIRST {
        0
    } else if code > LAST {
        BEYOND
    } else {
        ((code + 249 - LOAD_OFFSET as u32) / 500) as usize
    }
}

/// On twenty plates of 500, which tallies go by.
pub fn plate_of(load: i32) -> Result<usize, Ground> {
    if load_ok(load) {
        Ok(plate_of_code(stored(load)))
    } else {
        Err(Ground::LoadLimit)
    }
}

/// On the carried stack at a place.
pub fn plate_on(place: u64, load: i32) -> Result<usize, Ground> {
    if !load_ok(load) {
        return Err(Ground::LoadLimit);
    }
    match place {
        0 => Ok(plate_of_code(stored(load))),
        1 => Ok(LIGHT_AT_THE_TOP.partition_point(|&end| end < load)),
        _ => Err(Ground::NoStack),
    }
}
