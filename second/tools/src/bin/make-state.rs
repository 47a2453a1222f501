//! Writes a call with its state and storage: `make-state KIND SEED`.

use std::io::{self, Write};
use std::process::ExitCode;

use tools::make_state::{kind_of_name, make_state, KINDS};

fn main() -> ExitCode {
    let arguments: Vec<String> = std::env::args().skip(1).collect();
    let arguments: Vec<&str> = arguments.iter().map(String::as_str).collect();
    match arguments[..] {
        ["--kinds"] => {
            KINDS.iter().for_each(|(name, _)| println!("{name}"));
            ExitCode::SUCCESS
        }
        [name, seed] => {
            let (Some(kind), Ok(seed)) = (kind_of_name(name), seed.parse()) else {
                return usage();
            };
            match io::stdout().write_all(&make_state(kind, seed)) {
                Ok(()) => ExitCode::SUCCESS,
                Err(_) => ExitCode::FAILURE,
            }
        }
        _ => usage(),
    }
}

fn usage() -> ExitCode {
    eprintln!("usage: make-state KIND SEED > call.bin");
    eprintln!("       make-state --kinds");
    ExitCode::FAILURE
}
