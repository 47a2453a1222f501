//! Calls on states handed in that have runs, most of them of long blocks: sound states,
//! lent rows, and states with wrong fields.

use std::ops::Range;

use hoard::{
    runs, BlockId, Command, Setup, State, GLOBAL_HEAP, LONGEST_RUN, SIZE_CLASSES, SUPERBLOCKS,
};

use crate::call_form::{CallInput, MOST_ADDRESSES, MOST_PLACES};
use crate::drop_states::on_any_row;
use crate::long_blocks::{drop_with_runs, inner_address_of, long_size, start_of_run};
use crate::make_record::{any_processor, setup_in_limits};
use crate::naming::{available_name, name_to_bind, name_to_free};
use crate::rank_faults::loosen_ranks;
use crate::row_form::{write_row_input, RowInput};
use crate::run_faults::loosen_runs;
use crate::table::{any_call, Table};
use crate::total_faults::loosen_totals;
use crate::xorshift::Xorshift;

/// A call on a sound state with runs, mostly of a long block. Unused superblocks, those
/// that the global heap has empty, live ones and runs stand beside each other in any
/// order, also where no record leads.
pub fn sound(random: &mut Xorshift) -> CallInput {
    let setup = setup_for_runs(random, 1);
    let mut table = Table::new(setup, random);
    scatter_with_runs(random, &mut table, 0..setup.superblocks.into());
    finish(random, &mut table);
    with_long_call(random, table)
}

/// A setup with so many superblocks or more, at times the most.
pub(crate) fn setup_for_runs(random: &mut Xorshift, fewest: u8) -> Setup {
    let most = random.pick(&[3, 8, 20, 40, 64, 64]).max(fewest);
    let any = random.byte_between(fewest, most);
    Setup {
        superblocks: random.pick(&[any, most]),
        ..setup_in_limits(random, 8, 64)
    }
}

/// Fills a part of the table: with runs, unused superblocks, empty ones of the global
/// heap and others of any heap, in stretches that are often one long.
pub(crate) fn scatter_with_runs(random: &mut Xorshift, table: &mut Table, part: Range<usize>) {
    let processors = table.state.control.setup.processors;
    let shares = random.pick(&[[3, 2, 2, 3], [6, 1, 1, 2], [1, 4, 4, 1], [2, 3, 0, 5]]);
    let mut number = part.start;
    while number < part.end {
        let any = random.byte_between(1, LONGEST_RUN);
        let stretch = random.pick(&[1, 1, 2, 3, any, LONGEST_RUN]);
        let stretch = stretch.min((part.end - number) as u8);
        match sort_of_stretch(random, &shares) {
            0 => table.lay_run(number, stretch),
            1 => {}
            2 => (0..stretch.into()).for_each(|at| own_empty(random, table, number + at)),
            _ => {
                let owner = random.byte_between(0, processors);
                own_any(random, table, number, owner);
                number += 1;
                continue;
            }
        }
        number += usize::from(stretch);
    }
}

/// One of four, each in its share of ten cases.
fn sort_of_stretch(random: &mut Xorshift, shares: &[u32; 4]) -> usize {
    let mut drawn = random.below(10);
    for (sort, &share) in shares.iter().enumerate() {
        if drawn < share {
            return sort;
        }
        drawn -= share;
    }
    unreachable!("shares of ten");
}

/// Makes a superblock an empty one of the global heap, of any class, or one in six times
/// leaves it unused.
fn own_empty(random: &mut Xorshift, table: &mut Table, number: usize) {
    if random.chance(5, 6) {
        let class = random.byte_between(0, 26);
        table.own(number, GLOBAL_HEAP, class, 0, random);
    }
}

/// Gives a superblock to a heap, of any class, often empty or with one block live.
pub(crate) fn own_any(random: &mut Xorshift, table: &mut Table, number: usize, owner: u8) {
    let class = random.byte_between(0, 26);
    let blocks = SIZE_CLASSES[usize::from(class)].blocks;
    let any = random.below(blocks + 1);
    let live = random.pick(&[0, 1, any, blocks]);
    table.own(number, owner, class, live, random);
}

/// Brings the owners within the check, names some live blocks and half of the runs, and
/// ranks some superblocks.
pub(crate) fn finish(random: &mut Xorshift, table: &mut Table) {
    table.restore_invariants();
    table.name_some_blocks(random);
    name_some_runs(random, &mut table.state);
    table.rank_some_superblocks(random);
}

/// Gives names to half of the runs that have none, as far as there are names.
fn name_some_runs(random: &mut Xorshift, state: &mut State) {
    let names = &mut state.control.names;
    for (superblock, _) in runs(&state.superblocks) {
        let block = BlockId {
            superblock,
            block: 0,
        };
        let is_named = names.held().any(|(_, held)| held == block);
        if is_named || random.chance(1, 2) {
            continue;
        }
        if let Some(name) = available_name(random, names) {
            names.bind(name, block);
        }
    }
}

/// The table with right totals and a call, mostly of a long block.
pub(crate) fn with_long_call(random: &mut Xorshift, table: Table) -> CallInput {
    let mut input = table.with_call(random);
    input.call = long_call(random, &input.state);
    input
}

/// A take, free or drop for a state with runs: mostly of a long size, of a run by its
/// start or its name, of an address inside one, or of runs beside other blocks.
fn long_call(random: &mut Xorshift, state: &State) -> Command {
    let processor = any_processor(random, state.control.setup.processors, 12);
    let start = start_of_run(random, state);
    let names = &state.control.names;
    match (random.below(12), start) {
        (0..=2, _) => Command::Take {
            processor,
            size: long_size(random, state),
        },
        (3 | 4, _) => Command::NamedTake {
            processor,
            name: name_to_bind(random, names, 6),
            size: long_size(random, state),
        },
        (5, Some(address)) => Command::Free { processor, address },
        (6, Some(start)) => Command::Free {
            processor,
            address: inner_address_of(random, state, start),
        },
        (7 | 8, Some(_)) => {
            let name = name_of_run(random, state);
            let name = name.unwrap_or_else(|| name_to_free(random, names));
            Command::NamedFree { processor, name }
        }
        (9 | 10, Some(_)) => Command::Drop {
            processor,
            addresses: drop_with_runs(random, state, MOST_ADDRESSES),
        },
        _ => any_call(random, state),
    }
}

/// A name that holds a run.
fn name_of_run(random: &mut Xorshift, state: &State) -> Option<u16> {
    let firsts: Vec<usize> = runs(&state.superblocks).map(|run| run.0).collect();
    let held = state.control.names.held();
    let of_runs = held.filter(|(_, block)| firsts.contains(&block.superblock));
    let names: Vec<u16> = of_runs.map(|(name, _)| name).collect();
    (!names.is_empty()).then(|| random.pick(&names))
}

/// Such a call on a lent row, mostly of 64 records and with a sound state.
pub fn row(random: &mut Xorshift) -> Vec<u8> {
    let mut input = match random.below(4) {
        0 => damaged(random),
        _ => sound(random),
    };
    if random.chance(1, 2) {
        input.order.truncate(MOST_PLACES);
        let length = SUPERBLOCKS as u8;
        return write_row_input(&RowInput { length, input });
    }
    on_any_row(random, input)
}

/// Such a call on a state with runs that mostly has wrong fields: of runs, of other
/// superblocks, of totals or of ranks.
pub fn damaged(random: &mut Xorshift) -> CallInput {
    let mut input = sound(random);
    match random.below(8) {
        0 => loosen_totals(random, &mut input.state.control.totals),
        1 => loosen_ranks(random, &mut input.state),
        _ => loosen_runs(random, &mut input.state),
    }
    input
}
