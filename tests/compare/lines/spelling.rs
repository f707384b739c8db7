//! Lines of the program's forms, now and then with leading zeros.
use crate::random::Random;
use script::calls::Window;

const TIME_COLUMNS: usize = 15;
const LOAD_COLUMNS: usize = 8;

/// A number right-justified in so many columns.
pub fn field(random: &mut Random, width: usize, number: i64) -> String {
    let digits = match random.below(30) {
        0 => width,
        1 => random.index(width),
        _ => 0,
    };
    format!("{:>width$}", format!("{number:0digits$}"))
}

pub fn time(random: &mut Random, time: u64) -> String {
    field(random, TIME_COLUMNS, time as i64)
}

pub fn load(random: &mut Random, load: i32) -> String {
    field(random, LOAD_COLUMNS, load.into())
}

pub fn append(random: &mut Random, lift_time: u64, lift_load: i32) -> String {
    format!("A{}{}", time(random, lift_time), load(random, lift_load))
}

pub fn search(random: &mut Random, window: &Window) -> String {
    let times = tally(random, 'Q', window.t1, window.t2);
    format!("{times}{}{}", load(random, window.k1), load(random, window.k2))
}

/// A line T or P.
pub fn tally(random: &mut Random, letter: char, t1: u64, t2: u64) -> String {
    format!("{letter}{}{}", time(random, t1), time(random, t2))
}
