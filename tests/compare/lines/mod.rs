//! Random inputs of `slotlist`, answered by the program and by the paper log.
mod figures;
mod inputs;
mod other_forms;
pub mod spelling;
mod windows;

use crate::print_seeds;
use crate::programs::Program;
use figures::LineFigures;
use std::io::Write;
use std::time::{Duration, Instant};

fn answers(input: &[u8]) -> Vec<u8> {
    model::answers::answers(input).collect::<String>().into_bytes()
}

/// Feeds inputs of successive seeds to the program and compares what it prints with the paper log's answers.
pub fn random_run(seconds: u64, first_seed: u64, folder: &str) -> Result<(), String> {
    let begun = Instant::now();
    let slotlist = Program { mode: "lines", name: "slotlist", expected: answers, folder };
    let mut figures = LineFigures::default();
    while begun.elapsed() < Duration::from_secs(seconds) {
        let seed = first_seed.wrapping_add(figures.inputs);
        let input = inputs::input_of(seed, &mut figures.turns);
        let printed = slotlist.printed(&input).map_err(|what| slotlist.report(seed, &what, &input))?;
        figures.count(&printed);
    }
    figures.print();
    print_seeds(first_seed, figures.inputs, begun);
    let (lines, pages, inputs) = (figures.lines(), figures.pages(), figures.inputs);
    println!("{lines} lines with {pages} pages in {inputs} inputs of slotlist, no difference");
    Ok(())
}

/// Prints the input of a seed.
pub fn write_input(seed: u64) -> Result<(), String> {
    let input = inputs::input_of(seed, &mut Default::default());
    std::io::stdout().write_all(&input).map_err(|error| error.to_string())
}
