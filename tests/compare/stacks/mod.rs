//! Random lists of stacks, for which the generator must print what the model does.
mod figures;
mod inputs;
mod other_forms;

use crate::print_seeds;
use crate::programs::Program;
pub use figures::ListFigures;
use model::stacks::generated;
use std::io::Write;
use std::time::{Duration, Instant};

/// Feeds inputs of successive seeds to the generator and compares what it prints.
pub fn random_run(seconds: u64, first_seed: u64, folder: &str) -> Result<(), String> {
    let begun = Instant::now();
    let plate_ends = Program { mode: "stacks", name: "plate_ends", expected: generated, folder };
    let mut figures = ListFigures::default();
    while begun.elapsed() < Duration::from_secs(seconds) {
        let seed = first_seed.wrapping_add(figures.lists());
        let input = inputs::input_of(seed);
        let printed = plate_ends.printed(&input).map_err(|what| plate_ends.report(seed, &what, &input))?;
        figures.count(&printed);
    }
    figures.print();
    print_seeds(first_seed, figures.lists(), begun);
    println!("{} lists of stacks, no difference", figures.lists());
    Ok(())
}

/// Prints the input of a seed.
pub fn write_list(seed: u64) -> Result<(), String> {
    std::io::stdout().write_all(&inputs::input_of(seed)).map_err(|error| error.to_string())
}
