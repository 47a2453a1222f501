//! Reads a record from standard input and prints its key.

use std::io::{self, Read, Write};

fn main() -> io::Result<()> {
    // One byte past the longest record is enough to refuse a longer one.
    let most = hoard::LONGEST_RECORD as u64 + 1;
    let mut record = Vec::new();
    io::stdin().lock().take(most).read_to_end(&mut record)?;
    io::stdout().write_all(&hoard::key(&record))
}
