//! The calls on a lent row: the superblocks are records that the caller lends, in
//! a row of any length, and an accepted call edits them there. Setup numbers,
//! names and totals go in and come back by value.

use crate::check::{check_numbers_and_storage, check_setup};
use crate::engine::{drop, free, free_named, run, setup, take, take_named};
use crate::outcome::{Answer, Outcome, Refusal, RowAnswer};
use crate::record::Command;
use crate::state::{Control, Setup, State, Superblock, SUPERBLOCKS};

/// Makes the call that a command asks for. A setup does not look at `control`.
pub fn run_row(
    command: &Command,
    control: Control,
    row: &mut [Superblock],
    order: &mut [u16],
) -> RowAnswer {
    match *command {
        Command::Setup(asked) => setup_row(asked, row, order),
        _ => edit_row(control, row, order, |state, order| {
            run(command, state, order)
        }),
    }
}

/// Sets up on a lent row. Refusals: 1, 12, then 13 for a row that is not 64
/// long. What the row holds is not checked; an accepted setup writes every
/// record as unused. A refused one hands back five zeros, no name and totals of 0,
/// and writes nothing.
pub fn setup_row(asked: Setup, row: &mut [Superblock], order: &mut [u16]) -> RowAnswer {
    let refusal = match check_setup(&asked, order) {
        Err(refusal) => Some(refusal),
        Ok(()) if row.len() != SUPERBLOCKS => Some(Refusal::State),
        Ok(()) => None,
    };
    match refusal {
        Some(refusal) => refused(Control::new(Setup::default()), refusal),
        None => write_back(setup(asked, order), row),
    }
}

/// Takes a block on a lent row. Refusals: 13 for the setup numbers, 12, 13 for
/// the row's length and the rest of the check, then the take's own. A refused
/// take changes nothing and hands back the setup numbers, names and totals it was
/// given.
pub fn take_row(
    control: Control,
    row: &mut [Superblock],
    processor: u8,
    size: u16,
    order: &mut [u16],
) -> RowAnswer {
    edit_row(control, row, order, |state, order| {
        take(state, processor, size, order)
    })
}

/// Takes a block by name, with the refusals of [`take_row`] and 14.
pub fn take_named_row(
    control: Control,
    row: &mut [Superblock],
    processor: u8,
    name: u16,
    size: u16,
    order: &mut [u16],
) -> RowAnswer {
    edit_row(control, row, order, |state, order| {
        take_named(state, processor, name, size, order)
    })
}

/// Frees a block on a lent row, with the refusals of [`take_row`] up to 2 and then
/// the free's own.
pub fn free_row(
    control: Control,
    row: &mut [Superblock],
    processor: u8,
    address: u32,
    order: &mut [u16],
) -> RowAnswer {
    edit_row(control, row, order, |state, order| {
        free(state, processor, address, order)
    })
}

/// Frees a block by name, with the refusals of [`take_row`] up to 2 and then 15.
pub fn free_named_row(
    control: Control,
    row: &mut [Superblock],
    processor: u8,
    name: u16,
    order: &mut [u16],
) -> RowAnswer {
    edit_row(control, row, order, |state, order| {
        free_named(state, processor, name, order)
    })
}

/// Frees many blocks together, with the refusals of [`take_row`] up to 2, then 16 for
/// none and the free's own of the first bad address.
pub fn drop_row(
    control: Control,
    row: &mut [Superblock],
    processor: u8,
    addresses: &[u32],
    order: &mut [u16],
) -> RowAnswer {
    edit_row(control, row, order, |state, order| {
        drop(state, processor, addresses, order)
    })
}

/// Makes a call other than a setup on the state in a row.
fn edit_row(
    control: Control,
    row: &mut [Superblock],
    order: &mut [u16],
    call: impl FnOnce(&State, &mut [u16]) -> Answer,
) -> RowAnswer {
    if let Err(refusal) = check_numbers_and_storage(&control.setup, order) {
        return refused(control, refusal);
    }
    let Ok(superblocks) = row.try_into() else {
        return refused(control, Refusal::State);
    };
    let state = State {
        control,
        superblocks,
    };
    write_back(call(&state, order), row)
}

/// Puts the superblocks of an accepted call in the row, which is 64 long.
fn write_back(answer: Answer, row: &mut [Superblock]) -> RowAnswer {
    if !matches!(answer.outcome, Outcome::Refused(_)) {
        row.copy_from_slice(&answer.state.superblocks);
    }
    RowAnswer {
        outcome: answer.outcome,
        control: answer.state.control,
    }
}

fn refused(control: Control, refusal: Refusal) -> RowAnswer {
    RowAnswer {
        outcome: Outcome::Refused(refusal),
        control,
    }
}
