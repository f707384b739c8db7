//! Reads a script on standard input and answers it as the model expects the store to.
use model::bytes::Expectation;
use script::interpreter::Interpreter;
use std::io::{stdin, stdout, BufWriter};
use std::process::ExitCode;

fn main() -> ExitCode {
    let mut out = BufWriter::new(stdout().lock());
    match Interpreter::new(Expectation).run(stdin().lock(), &mut out) {
        Ok(()) => ExitCode::SUCCESS,
        Err(problem) => {
            eprintln!("expect: {problem}");
            ExitCode::from(2)
        }
    }
}
