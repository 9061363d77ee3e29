//! Reads a tape from standard input and prints document 01's lines.
//!
//! Left open: what happens when standard input cannot be read or standard
//! output not written. The program then ends with a failing status and the
//! error on standard error; no tape, good or damaged, leads there.

#![forbid(unsafe_code)]

use std::io::{self, BufWriter, Read, Write};

use second::program;
use second::tape::MAX_TAPE;

fn main() -> io::Result<()> {
    // One byte past the limit tells a tape that is too long; no more is read.
    let mut tape = Vec::with_capacity(MAX_TAPE + 1);
    io::stdin()
        .lock()
        .take(MAX_TAPE as u64 + 1)
        .read_to_end(&mut tape)?;
    let mut out = BufWriter::new(io::stdout().lock());
    program::run(&tape, &mut out)?;
    out.flush()
}
