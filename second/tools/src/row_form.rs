//! One call on a lent row, as bytes, and its answer as text. docs/FORMATS.md describes
//! both.

use hoard::{Command, RowAnswer, Superblock};

use crate::call_form::{print_answer, read_input, write_input, CallInput};

/// First byte of a call on a lent row.
pub const ROW_BYTE: u8 = 255;

/// The most records of a row.
pub const MOST_RECORDS: u8 = 65;

/// What a row holds where the call's form has no superblock for it.
pub const FILLER: Superblock = Superblock {
    owner: 9,
    class: 9,
    live: [9; 4],
    rank: 9,
    run_length: 9,
};

/// A call and the length of the row that it is lent.
#[derive(Clone, Debug, PartialEq, Eq)]
pub struct RowInput {
    pub length: u8,
    pub input: CallInput,
}

impl RowInput {
    /// The row lent: for a setup filler alone, else the superblocks of the form and
    /// then filler.
    pub fn row(&self) -> Vec<Superblock> {
        let mut row = match self.input.call {
            Command::Setup(_) => Vec::new(),
            _ => self.input.state.superblocks.to_vec(),
        };
        row.resize(self.length.into(), FILLER);
        row
    }
}

/// The call in `bytes`, if they are one call on a row and nothing more.
pub fn read_row_input(bytes: &[u8]) -> Option<RowInput> {
    match bytes {
        &[ROW_BYTE, length, ref call @ ..] if length <= MOST_RECORDS => Some(RowInput {
            length,
            input: read_input(call)?,
        }),
        _ => None,
    }
}

/// The bytes of a call on a row.
pub fn write_row_input(input: &RowInput) -> Vec<u8> {
    let mut bytes = vec![ROW_BYTE, input.length];
    bytes.extend(write_input(&input.input));
    bytes
}

/// Runs the call on the row and prints its answer.
pub fn answer_row_input(input: &RowInput) -> String {
    let mut row = input.row();
    let mut order = input.input.order.clone();
    let RowAnswer { outcome, control } = run_row_call(&input.input, &mut row, &mut order);
    print_answer(&outcome, &control, &row, &input.input.order, &order)
}

/// Runs the call on the row and storage given.
pub fn run_row_call(input: &CallInput, row: &mut [Superblock], order: &mut [u16]) -> RowAnswer {
    hoard::run_row(&input.call, input.state.control.clone(), row, order)
}
