//! The bytes of a record.

use crate::outcome::Refusal;
use crate::state::Setup;

/// Most bytes in a record.
pub const LONGEST_RECORD: usize = 60000;

pub const SETUP_BYTE: u8 = 0;
pub const TAKE_BYTE: u8 = 1;
pub const FREE_BYTE: u8 = 2;
pub const NAMED_TAKE_BYTE: u8 = 3;
pub const NAMED_FREE_BYTE: u8 = 4;
/// The last command byte; those above are unknown.
pub const DROP_BYTE: u8 = 5;

/// Most addresses of a drop in a record, where their count is one byte.
pub const MOST_DROPPED: usize = u8::MAX as usize;

/// One command of a record.
#[derive(Clone, Debug, PartialEq, Eq)]
pub enum Command {
    Setup(Setup),
    Take { processor: u8, size: u16 },
    Free { processor: u8, address: u32 },
    NamedTake { processor: u8, name: u16, size: u16 },
    NamedFree { processor: u8, name: u16 },
    Drop { processor: u8, addresses: Vec<u32> },
}

impl Command {
    /// The byte that a record has for this command.
    pub fn byte(&self) -> u8 {
        match self {
            Command::Setup(_) => SETUP_BYTE,
            Command::Take { .. } => TAKE_BYTE,
            Command::Free { .. } => FREE_BYTE,
            Command::NamedTake { .. } => NAMED_TAKE_BYTE,
            Command::NamedFree { .. } => NAMED_FREE_BYTE,
            Command::Drop { .. } => DROP_BYTE,
        }
    }

    /// The command of a byte and the numbers behind it. None for an unknown byte,
    /// or where the numbers end early.
    pub fn read_numbers(byte: u8, bytes: &mut Bytes) -> Option<Command> {
        Some(match byte {
            SETUP_BYTE => Command::Setup(Setup::from_numbers(bytes.read()?)),
            TAKE_BYTE => Command::Take {
                processor: u8::from_le_bytes(bytes.read()?),
                size: u16::from_le_bytes(bytes.read()?),
            },
            FREE_BYTE => Command::Free {
                processor: u8::from_le_bytes(bytes.read()?),
                address: u32::from_le_bytes(bytes.read()?),
            },
            NAMED_TAKE_BYTE => Command::NamedTake {
                processor: u8::from_le_bytes(bytes.read()?),
                name: u16::from_le_bytes(bytes.read()?),
                size: u16::from_le_bytes(bytes.read()?),
            },
            NAMED_FREE_BYTE => Command::NamedFree {
                processor: u8::from_le_bytes(bytes.read()?),
                name: u16::from_le_bytes(bytes.read()?),
            },
            DROP_BYTE => {
                let [processor, count] = bytes.read()?;
                let addresses = bytes.read_addresses(count.into())?;
                Command::Drop {
                    processor,
                    addresses,
                }
            }
            _ => return None,
        })
    }

    /// Appends the numbers that stand behind the command byte. A drop must have no
    /// more addresses than a record can count.
    pub fn write_numbers(&self, bytes: &mut Vec<u8>) {
        match *self {
            Command::Setup(setup) => bytes.extend(setup.numbers()),
            Command::Take { processor, size } => {
                bytes.push(processor);
                bytes.extend(size.to_le_bytes());
            }
            Command::Free { processor, address } => {
                bytes.push(processor);
                bytes.extend(address.to_le_bytes());
            }
            Command::NamedTake {
                processor,
                name,
                size,
            } => {
                bytes.push(processor);
                bytes.extend(name.to_le_bytes());
                bytes.extend(size.to_le_bytes());
            }
            Command::NamedFree { processor, name } => {
                bytes.push(processor);
                bytes.extend(name.to_le_bytes());
            }
            Command::Drop {
                processor,
                ref addresses,
            } => {
                let count = u8::try_from(addresses.len()).expect("at most 255 addresses");
                bytes.extend([processor, count]);
                bytes.extend(addresses.iter().flat_map(|address| address.to_le_bytes()));
            }
        }
    }
}

/// Bytes still to be read.
pub struct Bytes<'a>(pub &'a [u8]);

impl Bytes<'_> {
    /// The next bytes, if there are as many.
    pub fn read<const COUNT: usize>(&mut self) -> Option<[u8; COUNT]> {
        let (first, rest) = self.0.split_first_chunk()?;
        self.0 = rest;
        Some(*first)
    }

    /// The next addresses, if there are as many.
    pub fn read_addresses(&mut self, count: usize) -> Option<Vec<u32>> {
        let address = |_| Some(u32::from_le_bytes(self.read()?));
        (0..count).map(address).collect()
    }
}

/// A refusal that ends the record, with the byte offset of its command.
#[derive(Clone, Copy, Debug, PartialEq, Eq)]
pub struct Stop {
    pub refusal: Refusal,
    pub offset: usize,
}

/// The command at `offset` and the offset after it. Refusals in order: unknown
/// command byte, command in the wrong place (or no byte at all), truncated command.
pub fn decode(record: &[u8], offset: usize) -> Result<(Command, usize), Stop> {
    let stop = |refusal| Stop { refusal, offset };
    let byte = *record.get(offset).ok_or(stop(Refusal::MisplacedCommand))?;
    if byte > DROP_BYTE {
        return Err(stop(Refusal::UnknownCommand));
    }
    let is_setup = byte == SETUP_BYTE;
    let is_first = offset == 0;
    if is_setup != is_first {
        return Err(stop(Refusal::MisplacedCommand));
    }
    read_command(record, offset)
}

/// The command at `offset`, wherever it stands, and the offset after it.
pub fn read_command(record: &[u8], offset: usize) -> Result<(Command, usize), Stop> {
    let stop = |refusal| Stop { refusal, offset };
    let bytes = &mut Bytes(&record[offset..]);
    let [byte] = bytes.read().ok_or(stop(Refusal::TruncatedCommand))?;
    if byte > DROP_BYTE {
        return Err(stop(Refusal::UnknownCommand));
    }
    let command = Command::read_numbers(byte, bytes).ok_or(stop(Refusal::TruncatedCommand))?;
    Ok((command, record.len() - bytes.0.len()))
}

/// Appends a command to a record.
pub fn write_command(record: &mut Vec<u8>, command: &Command) {
    record.push(command.byte());
    command.write_numbers(record);
}
