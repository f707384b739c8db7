//! Reads a script on standard input and answers it with the built library.
use script::interpreter::Interpreter;
use std::io::{stdin, stdout, BufWriter};
use std::process::ExitCode;

fn main() -> ExitCode {
    let mut out = BufWriter::new(stdout().lock());
    match Interpreter::new(abi::Library).run(stdin().lock(), &mut out) {
        Ok(()) => ExitCode::SUCCESS,
        Err(problem) => {
            eprintln!("driver: {problem}");
            ExitCode::from(2)
        }
    }
}
