//! An input of `plate_ends` from a seed: lists of every size and just past it, lists with a change, and any bytes.
use super::other_forms;
use crate::lines::spelling::field;
use crate::random::Random;

pub const COLUMNS: usize = 6;
const MOST_STACKS: usize = 16;
const MOST_PLATES: usize = 24;
/// Units about the limits, and odd ones for the rounding.
const MARKS: [i64; 9] = [100, 101, 103, 250, 499, 500, 501, 4_999, 5_000];
/// Past the limits; some would be within them if only their lowest bits counted.
const BEYOND: [i64; 12] = [0, 1, 50, 99, 5_001, 9_999, 10_000, 50_000, 65_636, 131_572, 262_644, 999_999];

pub fn input_of(seed: u64) -> Vec<u8> {
    let random = &mut Random::new(seed);
    match random.below(16) {
        0 => other_forms::any_bytes(random),
        1 => other_forms::longer_than_any(largest(random), random),
        2..=7 => other_forms::changed(list(random), random),
        _ => list(random),
    }
}

/// As many stacks of as many plates as there may be, all lines whole.
fn largest(random: &mut Random) -> Vec<u8> {
    let stacks: Vec<Vec<i64>> = (0..MOST_STACKS).map(|_| stack(random, MOST_PLATES, true)).collect();
    spelled(&stacks, random)
}

/// Mostly within the sizes; now and then one number of them is too large or too small.
fn list(random: &mut Random) -> Vec<u8> {
    let (most, plates) = (random.pick(&[1, 3, MOST_STACKS]), random.pick(&[1, 3, MOST_PLATES]));
    let count = match random.below(8) {
        0 => random.pick(&[MOST_STACKS - 1, MOST_STACKS, MOST_STACKS, MOST_STACKS + 1]),
        _ => 1 + random.index(most),
    };
    let (all_equal, full) = (random.once_in(4), random.once_in(6));
    let mut stacks: Vec<Vec<i64>> = Vec::new();
    for _ in 0..count {
        let plates = if full { MOST_PLATES } else { 1 + random.index(plates) };
        stacks.push(stack(random, plates, all_equal));
    }
    let place = random.index(count);
    match random.below(20) {
        0 => stacks[place] = stack(random, MOST_PLATES + 1, all_equal),
        1 => stacks[place].push(random.pick(&BEYOND)),
        _ => {}
    }
    let mut text = spelled(&stacks, random);
    let lacks_last_line_feed = random.once_in(3);
    if lacks_last_line_feed {
        text.pop();
    }
    text
}

fn stack(random: &mut Random, plates: usize, all_equal: bool) -> Vec<i64> {
    if all_equal {
        return vec![units(random); plates];
    }
    (0..plates).map(|_| units(random)).collect()
}

fn units(random: &mut Random) -> i64 {
    match random.below(3) {
        0 => random.pick(&MARKS),
        _ => random.from_to(100, 5_000),
    }
}

fn spelled(stacks: &[Vec<i64>], random: &mut Random) -> Vec<u8> {
    let mut line = |units: &i64| format!("{}\n", field(random, COLUMNS, *units));
    let stacks: Vec<String> = stacks.iter().map(|stack| stack.iter().map(&mut line).collect()).collect();
    stacks.join("\n").into()
}
