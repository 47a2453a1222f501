//! Rankings of superblocks for states handed in: right ones, and ones that are wrong
//! for the superblocks they are handed in with.

use hoard::{State, Superblock, RUN_OWNER, SUPERBLOCKS, UNUSED_OWNER};

use crate::make_state::Kind;
use crate::xorshift::Xorshift;

/// Kinds with a fault of ranks. A rank met twice needs two owned superblocks, the
/// others one.
pub const RANK_FAULTS: [Kind; 5] = [
    Kind::RankGap,
    Kind::RankTwice,
    Kind::RankUnused,
    Kind::RankRange,
    Kind::RankOneMore,
];

/// The numbers of the superblocks that some heap owns.
pub fn owned_numbers(state: &State) -> Vec<usize> {
    numbers_where(state, |it| ![UNUSED_OWNER, RUN_OWNER].contains(&it.owner))
}

fn ranked_numbers(state: &State) -> Vec<usize> {
    numbers_where(state, |superblock| superblock.rank != 0)
}

pub(crate) fn numbers_where(state: &State, holds: impl Fn(&Superblock) -> bool) -> Vec<usize> {
    let superblocks = state.superblocks.iter().enumerate();
    let found = superblocks.filter(|(_, superblock)| holds(superblock));
    found.map(|(number, _)| number).collect()
}

/// Ranks so many of the owned superblocks, or all there are, in any order.
pub fn rank_any(random: &mut Xorshift, state: &mut State, most: usize) {
    let mut owned = owned_numbers(state);
    random.shuffle(&mut owned);
    for superblock in &mut state.superblocks {
        superblock.rank = 0;
    }
    for (rank, number) in (1..).zip(owned).take(most) {
        state.superblocks[number].rank = rank;
    }
}

/// Makes the ranking of a sound state wrong, in the way that the kind names.
pub fn break_ranks(kind: Kind, random: &mut Xorshift, state: &mut State) {
    let owned = owned_numbers(state).len() as u32;
    let fewest = if kind == Kind::RankTwice { 2 } else { 1 };
    let some = random.between(fewest, owned);
    let ranked = random.pick(&[some, owned]);
    rank_any(random, state, ranked as usize);
    match kind {
        Kind::RankTwice => twice(random, state),
        Kind::RankUnused => unused(random, state),
        Kind::RankRange => range(random, state),
        Kind::RankOneMore => shift_from(state, ranked as u8),
        _ => gap(random, state, ranked as u8),
    }
}

/// Moves a rank and those behind it back by one.
fn shift_from(state: &mut State, first: u8) {
    for superblock in &mut state.superblocks {
        superblock.rank += u8::from(superblock.rank >= first);
    }
}

/// Leaves a rank out: the first or another one before the last is given to none, or
/// its superblock is not ranked any more.
fn gap(random: &mut Xorshift, state: &mut State, ranked: u8) {
    let any = random.byte_between(1, ranked);
    let missing = random.pick(&[1, any]);
    if missing == ranked || random.chance(1, 2) {
        shift_from(state, missing);
    } else {
        state.superblocks[number_of_rank(state, missing)].rank = 0;
    }
}

fn number_of_rank(state: &State, rank: u8) -> usize {
    let mut superblocks = state.superblocks.iter();
    superblocks
        .position(|superblock| superblock.rank == rank)
        .expect("a rank that is given")
}

/// Gives a rank twice: to another ranked superblock or to one that was not ranked, or
/// to both neighbours in the ranking, so that the sum is right.
fn twice(random: &mut Xorshift, state: &mut State) {
    let mut ranked = ranked_numbers(state);
    let owned = owned_numbers(state).into_iter();
    let unranked: Vec<usize> = owned.filter(|number| !ranked.contains(number)).collect();
    random.shuffle(&mut ranked);
    let rank = state.superblocks[ranked[0]].rank;
    match random.below(3) {
        0 if !unranked.is_empty() => state.superblocks[random.pick(&unranked)].rank = rank,
        1 if 1 < rank && usize::from(rank) < ranked.len() => {
            let neighbours = [rank - 1, rank + 1].map(|rank| number_of_rank(state, rank));
            for number in neighbours {
                state.superblocks[number].rank = rank;
            }
        }
        _ => state.superblocks[ranked[1]].rank = rank,
    }
}

/// Ranks an unused superblock, the last of the setup or one from N on: as the next, in
/// place of an owned one, or as the one before an owned one.
fn unused(random: &mut Xorshift, state: &mut State) {
    let last = u32::from(state.control.setup.superblocks) - 1;
    let any = random.between(last, SUPERBLOCKS as u32 - 1);
    let number = random.pick(&[last, any]) as usize;
    let ranked = ranked_numbers(state);
    let owned = random.pick(&ranked);
    let rank = state.superblocks[owned].rank;
    state.superblocks[number].rank = match random.below(3) {
        0 => ranked.len() as u8 + 1,
        1 => {
            state.superblocks[owned].rank = 0;
            rank
        }
        _ => {
            shift_from(state, rank);
            rank
        }
    };
}

/// A rank above 64: just above, the widest, or right but for its upper bits.
fn range(random: &mut Xorshift, state: &mut State) {
    let number = random.pick(&ranked_numbers(state));
    let rank = &mut state.superblocks[number].rank;
    let upper_bits = random.pick(&[64, 128, 64 + 128]);
    let with_upper_bits = rank.saturating_add(upper_bits);
    let any = random.byte_between(65, 255);
    *rank = random.pick(&[65, 255, with_upper_bits, with_upper_bits, any]);
}

/// In one case of four puts some or all ranks at any numbers.
pub fn loosen_ranks(random: &mut Xorshift, state: &mut State) {
    if random.chance(3, 4) {
        return;
    }
    let share = random.pick(&[1, 8, 64]);
    for superblock in &mut state.superblocks {
        if random.chance(share, 64) {
            let any = random.byte();
            superblock.rank = random.pick(&[any, any % 4]);
        }
    }
}
