//! The check of a state handed in.

use crate::engine::over_emptiness_threshold;
use crate::names::{any_held, NAMES_AT_ONCE, NOT_HELD};
use crate::outcome::Refusal;
use crate::ranking::ranks_are_sound;
use crate::runs::runs_are_sound;
use crate::size_class::SIZE_CLASSES;
use crate::state::{Setup, State, Superblock, GLOBAL_HEAP, ORDER_PLACES, RUN_OWNER};
use crate::totals::Totals;

/// Whether the five setup numbers are within their limits.
pub fn setup_within_limits(setup: &Setup) -> bool {
    (1..=8).contains(&setup.processors)
        && (1..=64).contains(&setup.superblocks)
        && (1..=16).contains(&setup.spare)
        && (2..=8).contains(&setup.q)
        && 1 <= setup.p
        && setup.p < setup.q
}

/// Checks the numbers asked for and the storage given to a setup.
pub(crate) fn check_setup(asked: &Setup, order: &[u16]) -> Result<(), Refusal> {
    if !setup_within_limits(asked) {
        return Err(Refusal::Setup);
    }
    check_storage(asked, order)
}

/// Checks the setup numbers and storage given to a take, free or drop.
pub(crate) fn check_numbers_and_storage(setup: &Setup, order: &[u16]) -> Result<(), Refusal> {
    if !setup_within_limits(setup) {
        return Err(Refusal::State);
    }
    check_storage(setup, order)
}

fn check_storage(setup: &Setup, order: &[u16]) -> Result<(), Refusal> {
    if order.len() < setup.order_places() {
        return Err(Refusal::Storage);
    }
    Ok(())
}

/// Checks the state and storage given to a take, free or drop, in the order of the
/// refusals: setup numbers, length of the storage, then the rest of the state.
pub fn check_handed_in(state: &State, order: &[u16]) -> Result<(), Refusal> {
    let setup = &state.control.setup;
    check_numbers_and_storage(setup, order)?;
    let is_sound = superblocks_are_sound(state, order)
        && runs_are_sound(&state.superblocks, setup.superblocks.into())
        && ranks_are_sound(&state.superblocks)
        && names_are_sound(state);
    if !is_sound {
        return Err(Refusal::State);
    }
    Ok(())
}

/// The check of the superblocks, all but runs and the ranking, and of the totals, which
/// are counted anew on the way. Those handed in may be any numbers: they are read once
/// they are right.
fn superblocks_are_sound(state: &State, order: &[u16]) -> bool {
    let setup = &state.control.setup;
    let mut recount = Totals::NONE;
    for (number, superblock) in state.superblocks.iter().enumerate() {
        // An unused one that has a mark, a class, a rank or a length all the same fails
        // by its owner.
        if *superblock == Superblock::UNUSED || superblock.owner == RUN_OWNER {
            continue;
        }
        let known = number < usize::from(setup.superblocks)
            && superblock.owner <= setup.processors
            && usize::from(superblock.class) < SIZE_CLASSES.len();
        if !known {
            return false;
        }
        let places = &order[number * ORDER_PLACES..][..ORDER_PLACES];
        let live = superblock.live_count();
        if !marks_are_in_range(superblock) || !order_is_sound(superblock, live, places) {
            return false;
        }
        let is_global = superblock.owner == GLOBAL_HEAP;
        if is_global && !empty_enough_for_global(setup, superblock, live) {
            return false;
        }
        recount.add(superblock.owner, superblock.class, live);
    }
    let totals = &state.control.totals;
    recount == *totals && !any_heap_over_threshold(setup, totals)
}

/// Whether each held name points at a live block and no two at one, in superblocks
/// that passed their check: these mark no block but those they have. A long block is
/// block 0 of its run's first superblock.
fn names_are_sound(state: &State) -> bool {
    // Marks of the live blocks that no name has pointed at yet. Block j of
    // superblock s is bit s x 256 + j of them all, which is its number in names.
    let mut unnamed = state.superblocks.map(|it| it.blocks_to_name());
    let words = unnamed.as_flattened_mut();
    let groups = state.control.names.0.chunks_exact(NAMES_AT_ONCE);
    let numbers = groups.filter(|group| any_held(group)).flatten();
    numbers.filter(|&&number| number != NOT_HELD).all(|number| {
        let Some(word) = words.get_mut(usize::from(number / 64)) else {
            return false;
        };
        let bit = 1 << (number % 64);
        let is_unnamed = *word & bit != 0;
        *word &= !bit;
        is_unnamed
    })
}

/// Whether no block at n or above is marked live.
fn marks_are_in_range(superblock: &Superblock) -> bool {
    let blocks = superblock.size_class().blocks;
    (0u32..).zip(superblock.live).all(|(word, marks)| {
        let in_range = blocks.saturating_sub(64 * word);
        in_range >= 64 || marks >> in_range == 0
    })
}

/// Whether the filled order places of an owned superblock, of whose blocks `live`
/// are marked, hold each unmarked block just once. There are as many filled places
/// as unmarked blocks, so it is enough that no block is marked, out of range or met
/// before.
fn order_is_sound(superblock: &Superblock, live: u32, places: &[u16]) -> bool {
    let blocks = superblock.size_class().blocks;
    let mut taken = superblock.live;
    for &place in &places[..(blocks - live) as usize] {
        let block = u32::from(place);
        if block >= blocks {
            return false;
        }
        let (word, bit) = (block as usize / 64, 1 << (block % 64));
        if taken[word] & bit != 0 {
            return false;
        }
        taken[word] |= bit;
    }
    true
}

/// Whether a superblock of the global heap is as empty as a moved one must be.
fn empty_enough_for_global(setup: &Setup, superblock: &Superblock, live: u32) -> bool {
    let (p, q) = (u32::from(setup.p), u32::from(setup.q));
    q * live < (q - p) * superblock.size_class().blocks
}

/// Whether a processor heap and class should have given up a superblock. One of up
/// to K superblocks has no more than K superblocks' worth of free blocks.
fn any_heap_over_threshold(setup: &Setup, totals: &Totals) -> bool {
    (1..=setup.processors).any(|heap| {
        let owned = (0u8..).zip(totals.superblocks[usize::from(heap)]);
        let mut classes = owned.filter(|&(_, superblocks)| superblocks > setup.spare);
        classes.any(|(class, _)| {
            let usage = totals.usage(heap, class);
            over_emptiness_threshold(setup, &SIZE_CLASSES[usize::from(class)], &usage)
        })
    })
}
