//! The printed key of a record.

use std::fmt::{self, Display, Write};

use crate::engine::run;
use crate::outcome::{Outcome, Refusal};
use crate::record::{decode, Command, Stop, LONGEST_RECORD};
use crate::runs::runs;
use crate::state::{Setup, State, ORDER_PLACES, SUPERBLOCKS};
use crate::totals::{Usage, CLASSES};

/// The whole printed key of a record.
pub fn key(record: &[u8]) -> Vec<u8> {
    let mut text = String::new();
    match print_commands(record, &mut text) {
        Ok(state) => {
            print_heaps(&state, &mut text);
            print_runs(&state, &mut text);
            text.push_str("end\n");
        }
        Err(stop) => print_line(
            &mut text,
            format_args!("stopped {} at {}", stop.refusal.number(), stop.offset),
        ),
    }
    text.into_bytes()
}

/// Prints a line for each command; the state after the last one.
fn print_commands(record: &[u8], text: &mut String) -> Result<State, Stop> {
    if record.len() > LONGEST_RECORD {
        return Err(Stop {
            refusal: Refusal::RecordTooLong,
            offset: 0,
        });
    }
    let mut order = vec![0; SUPERBLOCKS * ORDER_PLACES];
    let mut state = State::new(Setup::default());
    let mut offset = 0;
    loop {
        let (command, next_offset) = decode(record, offset)?;
        let answer = run(&command, &state, &mut order);
        if let Outcome::Refused(refusal @ Refusal::Setup) = answer.outcome {
            return Err(Stop { refusal, offset });
        }
        match answer.outcome {
            Outcome::Ready => print_line(text, format_args!("{command}")),
            outcome => print_line(text, format_args!("{command} {outcome}")),
        }
        state = answer.state;
        offset = next_offset;
        if offset == record.len() {
            return Ok(state);
        }
    }
}

/// Prints a line for each heap and class with a superblock.
fn print_heaps(state: &State, text: &mut String) {
    for heap in 0..=state.control.setup.processors {
        for class in 0..CLASSES as u8 {
            let Usage { superblocks, live } = state.control.totals.usage(heap, class);
            if superblocks > 0 {
                print_line(
                    text,
                    format_args!("heap {heap} class {class} superblocks {superblocks} live {live}"),
                );
            }
        }
    }
}

/// Prints a line for each run, by its first superblock.
fn print_runs(state: &State, text: &mut String) {
    for (first, length) in runs(&state.superblocks) {
        print_line(text, format_args!("run {first} superblocks {length}"));
    }
}

fn print_line(text: &mut String, line: fmt::Arguments) {
    writeln!(text, "{line}").expect("writing to a string does not fail");
}

/// A command as in the key: its word and numbers, for a drop how many addresses.
impl Display for Command {
    fn fmt(&self, f: &mut fmt::Formatter) -> fmt::Result {
        match self {
            Command::Setup(setup) => write!(f, "setup {setup}"),
            Command::Take { processor, size } => write!(f, "take {processor} {size}"),
            Command::Free { processor, address } => write!(f, "free {processor} {address}"),
            Command::NamedTake {
                processor,
                name,
                size,
            } => write!(f, "take {processor} name {name} {size}"),
            Command::NamedFree { processor, name } => write!(f, "free {processor} name {name}"),
            Command::Drop {
                processor,
                addresses,
            } => write!(f, "drop {processor} count {}", addresses.len()),
        }
    }
}

/// The five numbers in record order.
impl Display for Setup {
    fn fmt(&self, f: &mut fmt::Formatter) -> fmt::Result {
        let [processors, superblocks, spare, p, q] = self.numbers();
        write!(f, "{processors} {superblocks} {spare} {p} {q}")
    }
}

/// The answer: its word and number.
impl Display for Outcome {
    fn fmt(&self, f: &mut fmt::Formatter) -> fmt::Result {
        match self {
            Outcome::Ready => write!(f, "ready"),
            Outcome::At(address) => write!(f, "at {address}"),
            Outcome::Moved(moves) => write!(f, "moved {moves}"),
            Outcome::Refused(refusal) => write!(f, "refused {}", refusal.number()),
        }
    }
}
