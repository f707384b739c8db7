//! Runs a built program on an input.
use std::io::{Error, ErrorKind, Write};
use std::path::{Path, PathBuf};
use std::process::{ChildStdin, Command, Stdio};

/// So many bytes are written at once, so that a read may find less than it asks for and not be the last one.
const PIECE: usize = 1_000;

/// The program of this name in the folder of the one that runs.
pub fn beside(name: &str) -> Result<PathBuf, String> {
    let own = std::env::current_exe().map_err(|error| error.to_string())?;
    Ok(own.with_file_name(name))
}

/// What the program prints. The input goes into a pipe from a thread of its own, since a program may print before it has
/// read all.
pub fn printed(program: &Path, input: &[u8]) -> Result<Vec<u8>, String> {
    let told = |error: Error| format!("{}: {error}", program.display());
    let mut child = Command::new(program).stdin(Stdio::piped()).stdout(Stdio::piped()).spawn().map_err(told)?;
    let pipe = child.stdin.take().expect("a pipe was asked for");
    let (written, output) = std::thread::scope(|scope| {
        let writer = scope.spawn(|| write(pipe, input));
        let output = child.wait_with_output();
        (writer.join().expect("the writer does not panic"), output)
    });
    written.map_err(told)?;
    let output = output.map_err(told)?;
    if !output.status.success() {
        return Err(format!("{} ends with {}", program.display(), output.status));
    }
    Ok(output.stdout)
}

/// A program need not read to the end.
fn write(mut pipe: ChildStdin, input: &[u8]) -> Result<(), Error> {
    match input.chunks(PIECE).try_for_each(|piece| pipe.write_all(piece)) {
        Err(error) if error.kind() == ErrorKind::BrokenPipe => Ok(()),
        written => written,
    }
}
