//! Reads a sheet from standard input and prints its listing.

use reference::limits::SHEET_BYTES;
use std::io::{self, Read, Write};

fn main() -> io::Result<()> {
    let mut sheet = Vec::with_capacity(SHEET_BYTES + 1);
    // One byte more than a sheet may have is enough to refuse it.
    io::stdin().take(SHEET_BYTES as u64 + 1).read_to_end(&mut sheet)?;
    io::stdout().write_all(&reference::listing(&sheet))
}
