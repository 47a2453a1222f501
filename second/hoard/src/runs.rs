//! Long blocks: one above the largest class has a run of neighbouring superblocks to
//! itself. A run is of no heap and class: totals, the ranking and the move rule never
//! see it.

use crate::names::BlockId;
use crate::outcome::Refusal;
use crate::ranking::take_out;
use crate::size_class::SUPERBLOCK_BYTES;
use crate::state::{State, Superblock, GLOBAL_HEAP, RUN_OWNER, SUPERBLOCKS, UNUSED_OWNER};

/// Most superblocks in a run, as many as the largest size needs.
pub const LONGEST_RUN: u8 = 16;

/// Superblocks that a long block needs: "size / 4096 rounded up".
pub fn run_length_of_size(size: u16) -> u8 {
    u32::from(size).div_ceil(SUPERBLOCK_BYTES) as u8
}

/// The runs of superblocks that have passed their check, by first superblock: its
/// number and the run's length.
pub fn runs(superblocks: &[Superblock]) -> impl Iterator<Item = (usize, u8)> + '_ {
    let numbered = superblocks.iter().enumerate();
    let firsts = numbered.filter(|(_, superblock)| superblock.begins_run());
    firsts.map(|(first, superblock)| (first, superblock.run_length))
}

/// The take of a long block, in a state that has passed.
pub(crate) fn take_run(state: &mut State, size: u16) -> Result<BlockId, Refusal> {
    let length = run_length_of_size(size);
    let first = find_run(state, length).ok_or(Refusal::NoRun)?;
    for number in first..first + usize::from(length) {
        join_run(state, number);
    }
    state.superblocks[first] = Superblock::first_of_run(length);
    Ok(BlockId {
        superblock: first,
        block: 0,
    })
}

/// The first of "the lowest-numbered run of neighbouring superblocks, all below N, that
/// are each unused or empty in heap 0".
fn find_run(state: &State, length: u8) -> Option<usize> {
    let mut windows = state.of_setup().windows(length.into());
    windows.position(|run| run.iter().all(may_join_run))
}

/// Whether a long block may have the superblock: it is unused, or of the global heap
/// with nothing live.
pub fn may_join_run(superblock: &Superblock) -> bool {
    match superblock.owner {
        UNUSED_OWNER => true,
        GLOBAL_HEAP => superblock.live_count() == 0,
        _ => false,
    }
}

/// Takes a superblock out of the global heap, if it is there, and out of the ranking.
/// Its order places keep what they had.
fn join_run(state: &mut State, number: usize) {
    let Superblock { owner, class, .. } = state.superblocks[number];
    if owner == GLOBAL_HEAP {
        state.control.totals.remove(GLOBAL_HEAP, class, 0);
    }
    take_out(&mut state.superblocks, number);
    state.superblocks[number] = Superblock::IN_RUN;
}

/// Makes the whole run that begins at a superblock unused.
pub(crate) fn release_run(superblocks: &mut [Superblock; SUPERBLOCKS], first: usize) {
    let length = usize::from(superblocks[first].run_length);
    superblocks[first..][..length].fill(Superblock::UNUSED);
}

/// Whether every superblock of a run is in just one, which is whole, 1 to 16 long and
/// below `end`, and no superblock but its first carries a length. Lengths may be any
/// bytes.
pub(crate) fn runs_are_sound(superblocks: &[Superblock; SUPERBLOCKS], end: usize) -> bool {
    // Superblocks still to come of the run that has begun.
    let mut to_come = 0;
    for (number, superblock) in superblocks.iter().enumerate() {
        let length = superblock.run_length;
        let expected = if to_come > 0 {
            to_come -= 1;
            Superblock::IN_RUN
        } else if superblock.owner == RUN_OWNER {
            let in_range = (1..=LONGEST_RUN).contains(&length);
            if !in_range || number + usize::from(length) > end {
                return false;
            }
            to_come = length - 1;
            Superblock::first_of_run(length)
        } else {
            Superblock {
                run_length: 0,
                ..*superblock
            }
        };
        if *superblock != expected {
            return false;
        }
    }
    true
}
