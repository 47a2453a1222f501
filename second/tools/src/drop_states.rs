//! Drops on states handed in: sound ones, ones of every other kind, lent rows, and
//! bytes that are no drop.

use hoard::{Command, Names, State, DROP_BYTE, SUPERBLOCKS};

use crate::call_form::{write_input, CallInput, MOST_ADDRESSES, MOST_PLACES};
use crate::dropping::any_drop;
use crate::make_record::{any_processor, setup_in_limits};
use crate::make_state::{
    around_threshold, break_setup, crowded, equal_superblocks, make_input, scatter, with_global,
    Kind, KINDS, SOUND_KINDS, WRONG_LENGTHS,
};
use crate::row_form::{write_row_input, RowInput};
use crate::run_faults::loosen_runs;
use crate::table::{live_addresses, Table};
use crate::xorshift::Xorshift;

/// Numbers of addresses that are tried, where a state has as many live blocks.
const COUNTS: [usize; 10] = [1, 2, 3, 40, 254, 255, 256, 300, 511, 512];

/// A drop on a sound state: of many heaps and classes, of superblocks that are often
/// equally full or in the global heap, of a heap just above its threshold, or of more
/// blocks than a record can count.
pub fn sound(random: &mut Xorshift) -> CallInput {
    let mut input = match random.below(7) {
        0 | 1 => around_threshold(random, 1),
        2 => {
            let kind = random.pick(&SOUND_KINDS);
            make_input(kind, random)
        }
        _ => {
            let mut table = any_table(random);
            table.restore_invariants();
            // Equals have some already.
            table.state.control.names = Names::NONE;
            table.name_some_blocks(random);
            table.rank_some_superblocks(random);
            table.with_call(random)
        }
    };
    input.call = drop_for(random, &input.state);
    input
}

/// Superblocks of any heaps, many of them equally full, of the global heap or crowded.
fn any_table(random: &mut Xorshift) -> Table {
    let setup = setup_in_limits(random, 8, 64);
    match random.below(5) {
        0 => equal_superblocks(random, setup, 9),
        1 => with_global(random, 40),
        2 | 3 => crowded(random),
        _ => scatter(random, setup, setup.superblocks),
    }
}

/// A drop for a state, in one case of three of as many live blocks as one of the counts.
fn drop_for(random: &mut Xorshift, state: &State) -> Command {
    let (processor, addresses) = match random.below(3) {
        0 => {
            let count = random.pick(&COUNTS);
            let processor = any_processor(random, state.control.setup.processors, 12);
            (processor, counted_addresses(random, state, count))
        }
        _ => any_drop(random, state, MOST_ADDRESSES),
    };
    Command::Drop {
        processor,
        addresses,
    }
}

/// So many addresses of live blocks. Where there are fewer, they are listed again, which
/// is refused.
fn counted_addresses(random: &mut Xorshift, state: &State, count: usize) -> Vec<u32> {
    let mut live = live_addresses(state);
    random.shuffle(&mut live);
    if live.is_empty() {
        live.push(0);
    }
    live.into_iter().cycle().take(count).collect()
}

/// A drop on a state of any kind before rows, sound or not, with any storage.
pub fn damaged(random: &mut Xorshift) -> CallInput {
    let kind = random.pick(&KINDS[..Kind::Row as usize]).1;
    let mut input = make_input(kind, random);
    input.order.truncate(MOST_PLACES);
    input.call = drop_for(random, &input.state);
    if random.chance(1, 8) {
        loosen_runs(random, &mut input.state);
    }
    input
}

/// A drop on a lent row, mostly with a sound state.
pub fn row(random: &mut Xorshift) -> Vec<u8> {
    let input = match random.below(3) {
        0 => damaged(random),
        _ => sound(random),
    };
    on_any_row(random, input)
}

/// A call on a lent row, three in five of 64 records. Storage is at times short, and a
/// setup number at times broken.
pub(crate) fn on_any_row(random: &mut Xorshift, mut input: CallInput) -> Vec<u8> {
    input.order.truncate(MOST_PLACES);
    let needed = input.state.control.setup.order_places();
    match random.below(8) {
        0 => input.order.truncate(needed.saturating_sub(1)),
        1 => input.order.clear(),
        2 => break_setup(random, &mut input.state.control.setup),
        _ => {}
    }
    let length = match random.below(5) {
        0 | 1 => random.pick(&WRONG_LENGTHS),
        _ => SUPERBLOCKS as u8,
    };
    write_row_input(&RowInput { length, input })
}

/// The bytes of a drop, made no call: cut anywhere or inside the addresses, with bytes
/// left over, with another call byte, or with a count that the bytes do not have or that
/// is above the most.
pub fn bytes(random: &mut Xorshift) -> Vec<u8> {
    let mut input = sound(random);
    input.order.truncate(MOST_PLACES);
    let Command::Drop { addresses, .. } = &mut input.call else {
        unreachable!("a drop");
    };
    let way = random.below(7);
    if way == 0 {
        let count = random.pick(&[513, 514, 600, 1024]);
        addresses.resize(count, 0);
    }
    let count = addresses.len() as u16;
    let mut bytes = write_input(&input);
    match way {
        0 => {}
        1 => bytes.truncate(random.below(bytes.len() as u32) as usize),
        2 => bytes.truncate(9 + random.below(4 * u32::from(count) + 1) as usize),
        3 => bytes.push(random.byte()),
        4 => bytes[0] = random.byte_between(DROP_BYTE + 1, 254),
        5 => set_count(&mut bytes, random.pick(&[count + 1, count.wrapping_sub(1)])),
        _ => set_count(&mut bytes, random.pick(&[513, 768, 32768, 65535])),
    }
    bytes
}

/// Changes the count of a drop, not its addresses.
fn set_count(bytes: &mut [u8], count: u16) {
    bytes[7..9].copy_from_slice(&count.to_le_bytes());
}
