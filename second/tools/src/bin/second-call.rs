//! Reads a call with its state and storage from standard input and prints the
//! outcome, the next state and the changed order places.

use std::io::{self, Read, Write};

fn main() -> io::Result<()> {
    let mut bytes = Vec::new();
    io::stdin().lock().read_to_end(&mut bytes)?;
    let text = tools::call_form::answer_bytes(&bytes);
    io::stdout().write_all(text.as_bytes())
}
