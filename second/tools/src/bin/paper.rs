//! Turns a paper's text into a record and back.

use std::io::{self, Read, Write};
use std::process::ExitCode;

use hoard::LONGEST_RECORD;
use tools::paper::{to_record, to_text};

const USAGE: &str = "usage: paper to-record < paper.txt > record.bin\n       \
                     paper to-text < record.bin > paper.txt";

fn main() -> ExitCode {
    match convert() {
        Ok(()) => ExitCode::SUCCESS,
        Err(message) => {
            eprintln!("{message}");
            ExitCode::FAILURE
        }
    }
}

fn convert() -> Result<(), String> {
    let arguments: Vec<String> = std::env::args().skip(1).collect();
    let [direction] = &arguments[..] else {
        return Err(USAGE.to_string());
    };
    let output = match direction.as_str() {
        "to-record" => to_record(&read_input()?).map_err(|error| format!("paper: {error}"))?,
        "to-text" => to_text(&read_input()?)
            .map_err(|error| format!("paper: {error}"))?
            .into_bytes(),
        _ => return Err(USAGE.to_string()),
    };
    if direction == "to-record" && output.len() > LONGEST_RECORD {
        let length = output.len();
        eprintln!(
            "paper: note: {length} bytes; above {LONGEST_RECORD} the key is refusal 11 alone"
        );
    }
    io::stdout()
        .write_all(&output)
        .map_err(|error| format!("paper: cannot write: {error}"))
}

fn read_input() -> Result<Vec<u8>, String> {
    let mut input = Vec::new();
    match io::stdin().lock().read_to_end(&mut input) {
        Ok(_) => Ok(input),
        Err(error) => Err(format!("paper: cannot read: {error}")),
    }
}
