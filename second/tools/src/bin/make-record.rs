//! Writes a random record: `make-record KIND SEED LENGTH`.

use std::io::{self, Write};
use std::process::ExitCode;

use tools::make_record::{kind_of_name, make_record, KINDS};

fn main() -> ExitCode {
    let arguments: Vec<String> = std::env::args().skip(1).collect();
    let arguments: Vec<&str> = arguments.iter().map(String::as_str).collect();
    match arguments[..] {
        ["--kinds"] => {
            KINDS.iter().for_each(|(name, _)| println!("{name}"));
            ExitCode::SUCCESS
        }
        [name, seed, length] => {
            let (kind, seed, length) = (kind_of_name(name), seed.parse(), length.parse());
            let (Some(kind), Ok(seed), Ok(length)) = (kind, seed, length) else {
                return usage();
            };
            match io::stdout().write_all(&make_record(kind, seed, length)) {
                Ok(()) => ExitCode::SUCCESS,
                Err(_) => ExitCode::FAILURE,
            }
        }
        _ => usage(),
    }
}

fn usage() -> ExitCode {
    eprintln!("usage: make-record KIND SEED LENGTH > record.bin");
    eprintln!("       make-record --kinds");
    ExitCode::FAILURE
}
