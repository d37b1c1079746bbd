//! Runs a sheet from standard input through the library and prints its report.

use std::io::{self, Read as _, Write as _};

mod kaqsherim;

/// One byte more than a sheet may have, so that a longer one is refused.
const MOST_BYTES: u64 = 65_537;

fn main() -> io::Result<()> {
    if kaqsherim::version() != kaqsherim::VERSION {
        return Err(io::Error::other("the library has another version"));
    }
    let mut sheet = Vec::new();
    io::stdin()
        .lock()
        .take(MOST_BYTES)
        .read_to_end(&mut sheet)?;
    let report = kaqsherim::report(&sheet).map_err(io::Error::other)?;
    io::stdout().lock().write_all(&report)
}
