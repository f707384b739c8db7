//! Makes a list that shows a difference shorter, as far as a few seconds go: a script, or the lines of an input.
use crate::judge::{Difference, Judge};
use script::command::Command;
use std::time::{Duration, Instant};

const PATIENCE: Duration = Duration::from_secs(8);

/// The first difference that the commands show, and how many of them it takes.
pub fn first_difference(commands: &[Command]) -> Option<(usize, Difference)> {
    let mut judge = Judge::of_library();
    let steps = commands.iter().enumerate();
    steps
        .map(|(index, command)| (index + 1, judge.perform(command)))
        .find_map(|(taken, step)| Some((taken, step.err()?)))
}

/// Leaves out runs of the list, shorter and shorter ones, as long as some difference is left; `taken` tells how much
/// of a list it takes to show one. A list that shows none stays as it is.
pub fn shortened<T: Clone>(mut list: Vec<T>, taken: impl Fn(&[T]) -> Option<usize>) -> Vec<T> {
    let begun = Instant::now();
    let mut run = list.len() / 2;
    while run > 0 {
        let mut from = 0;
        while from < list.len() && begun.elapsed() < PATIENCE {
            let mut fewer = list.clone();
            fewer.drain(from..(from + run).min(list.len()));
            match taken(&fewer) {
                Some(taken) => {
                    fewer.truncate(taken);
                    list = fewer;
                }
                None => from += run,
            }
        }
        run /= 2;
    }
    list
}
