//! Reads the lines of `slotlist` on standard input and answers them by the paper log.
use std::io::{stdin, stdout, BufWriter, Read, Write};

fn main() -> std::io::Result<()> {
    let mut input = Vec::new();
    stdin().lock().read_to_end(&mut input)?;
    let mut out = BufWriter::new(stdout().lock());
    model::answers::answers(&input).try_for_each(|answer| out.write_all(answer.as_bytes()))?;
    out.flush()
}
