//! Papers as text: one command a line, as in the key but without the answers. A drop
//! has its addresses, where the key only counts them.

use std::fmt::{self, Display};

use hoard::{read_command, write_command, Command, Refusal, Setup};

/// What is wrong in a paper's text, with its line (from 1).
#[derive(Debug, PartialEq, Eq)]
pub struct LineError {
    pub line: usize,
    pub message: String,
}

impl Display for LineError {
    fn fmt(&self, f: &mut fmt::Formatter) -> fmt::Result {
        write!(f, "line {}: {}", self.line, self.message)
    }
}

/// What is wrong in a record, with the byte offset of its command.
#[derive(Debug, PartialEq, Eq)]
pub struct ByteError {
    pub offset: usize,
    pub message: String,
}

impl Display for ByteError {
    fn fmt(&self, f: &mut fmt::Formatter) -> fmt::Result {
        write!(f, "byte {}: {}", self.offset, self.message)
    }
}

/// The record of a paper's text. Blank lines and lines that start with # are
/// skipped. Any numbers that the fields can carry are allowed, in any order of
/// commands: refusals are part of papers.
pub fn to_record(text: &[u8]) -> Result<Vec<u8>, LineError> {
    let mut record = Vec::new();
    for (index, line) in text.split(|&byte| byte == b'\n').enumerate() {
        let line = line.trim_ascii();
        if line.is_empty() || line[0] == b'#' {
            continue;
        }
        let command = read_line(line).map_err(|message| LineError {
            line: index + 1,
            message,
        })?;
        write_command(&mut record, &command);
    }
    Ok(record)
}

/// The text of a record.
pub fn to_text(record: &[u8]) -> Result<String, ByteError> {
    let mut text = String::new();
    let mut offset = 0;
    while offset < record.len() {
        let (command, next_offset) = read_command(record, offset).map_err(|stop| ByteError {
            offset,
            message: match stop.refusal {
                Refusal::UnknownCommand => format!("unknown command byte {:02x}", record[offset]),
                _ => "the record ends inside this command".to_string(),
            },
        })?;
        text += &line_of(&command);
        offset = next_offset;
    }
    Ok(text)
}

/// The line of a command.
fn line_of(command: &Command) -> String {
    let Command::Drop {
        processor,
        addresses,
    } = command
    else {
        return format!("{command}\n");
    };
    let addresses = addresses.iter().map(|address| format!(" {address}"));
    format!("drop {processor}{}\n", addresses.collect::<String>())
}

/// The command of one line.
fn read_line(line: &[u8]) -> Result<Command, String> {
    let line = std::str::from_utf8(line).map_err(|_| "not plain text".to_string())?;
    let mut words = line.split_ascii_whitespace();
    let command = words.next().unwrap_or("");
    let fields: Vec<&str> = words.collect();
    match (command, &fields[..]) {
        ("setup", fields) => setup(fields),
        ("take", [processor, "name", rest @ ..]) => named_take(&[&[*processor], rest].concat()),
        ("take", fields) => take(fields),
        ("free", [processor, "name", rest @ ..]) => named_free(&[&[*processor], rest].concat()),
        ("free", fields) => free(fields),
        ("drop", fields) => drop(fields),
        _ => Err(format!(
            "unknown command \"{command}\" (setup, take, free or drop)"
        )),
    }
}

fn setup(fields: &[&str]) -> Result<Command, String> {
    let [processors, superblocks, spare, p, q] = exactly("setup", "P N K p q", fields)?;
    Ok(Command::Setup(Setup {
        processors: byte("P", processors)?,
        superblocks: byte("N", superblocks)?,
        spare: byte("K", spare)?,
        p: byte("p", p)?,
        q: byte("q", q)?,
    }))
}

fn take(fields: &[&str]) -> Result<Command, String> {
    let [processor, size] = exactly("take", "processor size", fields)?;
    Ok(Command::Take {
        processor: byte("processor", processor)?,
        size: two_bytes("size", size)?,
    })
}

fn free(fields: &[&str]) -> Result<Command, String> {
    let [processor, address] = exactly("free", "processor address", fields)?;
    Ok(Command::Free {
        processor: byte("processor", processor)?,
        address: four_bytes("address", address)?,
    })
}

fn named_take(fields: &[&str]) -> Result<Command, String> {
    let [processor, name, size] = exactly("take by name", "processor name size", fields)?;
    Ok(Command::NamedTake {
        processor: byte("processor", processor)?,
        name: two_bytes("name", name)?,
        size: two_bytes("size", size)?,
    })
}

fn named_free(fields: &[&str]) -> Result<Command, String> {
    let [processor, name] = exactly("free by name", "processor name", fields)?;
    Ok(Command::NamedFree {
        processor: byte("processor", processor)?,
        name: two_bytes("name", name)?,
    })
}

/// A drop of as many addresses as there are, if a record can count them.
fn drop(fields: &[&str]) -> Result<Command, String> {
    let Some((processor, addresses)) = fields.split_first() else {
        return Err("drop has a processor and its addresses, here are 0 numbers".to_string());
    };
    let processor = byte("processor", processor)?;
    byte("count", &addresses.len().to_string())?;
    let addresses = addresses.iter();
    let addresses = addresses.map(|address| four_bytes("address", address));
    Ok(Command::Drop {
        processor,
        addresses: addresses.collect::<Result<_, _>>()?,
    })
}

/// The fields of a command, if there are as many as it has.
fn exactly<'a, const COUNT: usize>(
    command: &str,
    names: &str,
    fields: &[&'a str],
) -> Result<[&'a str; COUNT], String> {
    fields.try_into().map_err(|_| {
        let found = fields.len();
        format!("{command} has {COUNT} numbers ({names}), here are {found}")
    })
}

/// A field of one byte.
fn byte(name: &str, digits: &str) -> Result<u8, String> {
    Ok(number(name, digits, u64::from(u8::MAX))? as u8)
}

/// A field of two bytes.
fn two_bytes(name: &str, digits: &str) -> Result<u16, String> {
    Ok(number(name, digits, u64::from(u16::MAX))? as u16)
}

/// A field of four bytes.
fn four_bytes(name: &str, digits: &str) -> Result<u32, String> {
    Ok(number(name, digits, u64::from(u32::MAX))? as u32)
}

/// A field of decimal digits, 0 to `most`.
fn number(name: &str, digits: &str, most: u64) -> Result<u64, String> {
    if !digits.bytes().all(|digit| digit.is_ascii_digit()) {
        return Err(format!("{name} \"{digits}\" is not a decimal number"));
    }
    match digits.parse::<u64>() {
        Ok(value) if value <= most => Ok(value),
        _ => Err(format!("{name} {digits} is out of range (0 to {most})")),
    }
}
