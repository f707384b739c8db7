//! Reads a list of stacks on standard input and prints what `plate_ends` should.
use std::io::{stdin, stdout, Read, Write};

fn main() -> std::io::Result<()> {
    let mut input = Vec::new();
    stdin().lock().read_to_end(&mut input)?;
    stdout().write_all(&model::stacks::generated(&input))
}
