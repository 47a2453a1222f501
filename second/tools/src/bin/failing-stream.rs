//! Runs a program with a stream that fails, for the tests of what it does then.
//!
//! `failing-stream input PROGRAM` hands it this program's standard input, with a
//! failure where the end would be. `failing-stream output PROGRAM` hands it an
//! output that fails once it is full, and prints what that took.

use std::io::{self, Read, Write};
use std::os::fd::OwnedFd;
use std::os::unix::net::UnixStream;
use std::process::{Command, ExitCode, Stdio};

fn main() -> ExitCode {
    let arguments: Vec<String> = std::env::args().skip(1).collect();
    let arguments: Vec<&str> = arguments.iter().map(String::as_str).collect();
    let result = match arguments[..] {
        ["input", program] => failing_input(program),
        ["output", program] => failing_output(program),
        _ => {
            eprintln!("usage: failing-stream input|output PROGRAM");
            return ExitCode::FAILURE;
        }
    };
    match result {
        Ok(true) => ExitCode::SUCCESS,
        Ok(false) => ExitCode::FAILURE,
        Err(error) => {
            eprintln!("failing-stream: {error}");
            ExitCode::FAILURE
        }
    }
}

/// Bytes of the output that are taken before the program starts. Most systems let a
/// stream hold some 200 KB, which a whole answer of `call` would fit.
const TAKEN_BEFORE: usize = 128 * 1024;

/// Two ends of a stream. A read from an empty or a write to a full one fails at
/// the second, which is handed out, since that end does not wait.
fn stream() -> io::Result<(UnixStream, UnixStream)> {
    let (ours, handed_out) = UnixStream::pair()?;
    handed_out.set_nonblocking(true)?;
    Ok((ours, handed_out))
}

fn stdio(end: UnixStream) -> Stdio {
    Stdio::from(OwnedFd::from(end))
}

fn failing_input(program: &str) -> io::Result<bool> {
    let (mut ours, handed_out) = stream()?;
    let mut bytes = Vec::new();
    io::stdin().lock().read_to_end(&mut bytes)?;
    ours.write_all(&bytes)?;
    // Our end stays open until the program ends, so that it meets no end of input.
    let status = Command::new(program).stdin(stdio(handed_out)).status()?;
    Ok(status.success())
}

fn failing_output(program: &str) -> io::Result<bool> {
    let (mut ours, mut handed_out) = stream()?;
    let before = handed_out.write(&[0; TAKEN_BEFORE])?;
    let status = Command::new(program).stdout(stdio(handed_out)).status()?;
    let mut taken = Vec::new();
    ours.read_to_end(&mut taken)?;
    io::stdout().write_all(&taken[before..])?;
    Ok(status.success())
}
