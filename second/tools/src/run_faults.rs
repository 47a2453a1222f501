//! Runs of states handed in that are wrong: by their lengths, by what they reach over,
//! by the fields of their superblocks, by names and by totals.

use hoard::{
    BlockId, Setup, State, Superblock, GLOBAL_HEAP, LONGEST_RUN, RUN_OWNER, SUPERBLOCKS,
    UNUSED_OWNER,
};

use crate::call_form::CallInput;
use crate::long_states::{finish, own_any, scatter_with_runs, setup_for_runs, with_long_call};
use crate::make_state::Kind;
use crate::rank_faults::{numbers_where, owned_numbers};
use crate::table::Table;
use crate::xorshift::Xorshift;

/// Kinds with a fault of runs.
pub const RUN_FAULTS: [Kind; 14] = [
    Kind::RunLength0,
    Kind::RunLength17,
    Kind::RunPastN,
    Kind::RunOverlapping,
    Kind::RunInnerLength,
    Kind::RunShort,
    Kind::RunLong,
    Kind::RunMark,
    Kind::RunRank,
    Kind::RunClass,
    Kind::RunLengthInHeap,
    Kind::RunLengthUnused,
    Kind::RunNameInner,
    Kind::RunTotal,
];

/// Lengths that a superblock may carry where it must carry none or another.
const STRAY_LENGTHS: [u8; 8] = [1, 1, 2, 16, 17, 64, 128, 255];

/// The first superblock of a run and its length.
type RunAt = (usize, u8);

/// A sound state with runs but for one of them, in the way that the kind names.
pub fn wrong_runs(kind: Kind, random: &mut Xorshift) -> CallInput {
    let (table, run) = match kind {
        Kind::RunLength17 => with_too_long(random),
        Kind::RunPastN => with_past_n(random),
        _ => {
            let length = match kind {
                Kind::RunOverlapping => 3,
                Kind::RunInnerLength | Kind::RunShort => 2,
                _ => 1,
            };
            with_run(random, length)
        }
    };
    let mut input = with_long_call(random, table);
    break_runs(kind, random, &mut input.state, run);
    input
}

/// A sound state with a run of so many superblocks or more that has a neighbour on both
/// sides: a heap's behind it, and one that is unused before it.
fn with_run(random: &mut Xorshift, fewest: u8) -> (Table, RunAt) {
    let setup = setup_for_runs(random, fewest + 2);
    let most = (setup.superblocks - 2).min(LONGEST_RUN);
    let any = random.byte_between(fewest, most);
    let length = random.pick(&[fewest, any, any, most]);
    let first = random.between(1, u32::from(setup.superblocks - 1 - length)) as usize;
    let mut table = Table::new(setup, random);
    scatter_with_runs(random, &mut table, 0..first - 1);
    table.lay_run(first, length);
    let behind = first + usize::from(length);
    let owner = random.byte_between(1, setup.processors);
    own_any(random, &mut table, behind, owner);
    scatter_with_runs(random, &mut table, behind + 1..setup.superblocks.into());
    finish(random, &mut table);
    (table, (first, length))
}

/// A state that is sound but for a run of 17 or more superblocks below N.
fn with_too_long(random: &mut Xorshift) -> (Table, RunAt) {
    let setup = setup_for_runs(random, LONGEST_RUN + 1);
    let most = setup.superblocks;
    let length = random.pick(&[17, 17, 17, most, 32.min(most)]);
    let first = random.below(u32::from(most - length) + 1) as usize;
    let mut table = Table::new(setup, random);
    scatter_with_runs(random, &mut table, 0..first);
    scatter_with_runs(random, &mut table, first + usize::from(length)..most.into());
    finish(random, &mut table);
    table.lay_run(first, length);
    (table, (first, length))
}

/// A state that is sound but for a run that reaches past N, begins there, or has more
/// superblocks than the table has behind its first.
fn with_past_n(random: &mut Xorshift) -> (Table, RunAt) {
    let setup = match random.below(3) {
        0 => Setup {
            superblocks: SUPERBLOCKS as u8,
            ..setup_for_runs(random, 1)
        },
        _ => setup_for_runs(random, 1),
    };
    let end = usize::from(setup.superblocks);
    let length = random.between(1, LONGEST_RUN.into()) as usize;
    // One superblock further than where such a run would just be below N.
    let last = SUPERBLOCKS - 1;
    let lowest = (end + 1).saturating_sub(length).min(last);
    let any = random.between(lowest as u32, last as u32) as usize;
    let first = random.pick(&[lowest, lowest, end.min(last), any]);
    let length = length.max(end + 1 - first.min(end));
    let mut table = Table::new(setup, random);
    scatter_with_runs(random, &mut table, 0..first.min(end));
    finish(random, &mut table);
    let behind = SUPERBLOCKS - first;
    table.lay_run(first, length.min(behind) as u8);
    table.state.superblocks[first].run_length = length as u8;
    (table, (first, length as u8))
}

/// Makes a run of a sound state wrong, or gives a length to a superblock of no run, in
/// the way that the kind names.
pub fn break_runs(kind: Kind, random: &mut Xorshift, state: &mut State, (first, length): RunAt) {
    let inside = first + random.below(length.max(1).into()) as usize;
    let last = first + usize::from(length.max(1)) - 1;
    let stray = random.pick(&STRAY_LENGTHS);
    match kind {
        Kind::RunLength0 => state.superblocks[first].run_length = 0,
        Kind::RunOverlapping => overlap(random, state, (first, length)),
        Kind::RunInnerLength => {
            let inner = random.between(first as u32 + 1, last as u32) as usize;
            let nested = (last - inner + 1) as u8;
            state.superblocks[inner].run_length = random.pick(&[nested, length, stray]);
        }
        Kind::RunShort => {
            let shorter = random.byte_between(1, length - 1);
            state.superblocks[first].run_length = random.pick(&[shorter, length - 1]);
        }
        Kind::RunLong => lengthen(random, state, (first, length)),
        Kind::RunMark => state.superblocks[inside].mark(random.pick(&[0, 1, 63, 255])),
        Kind::RunRank => rank_of_run(random, state, inside),
        Kind::RunClass => {
            let any = random.byte_between(1, 26);
            state.superblocks[inside].class = random.pick(&[1, 26, any, 27, 255]);
        }
        Kind::RunLengthInHeap => {
            let number = random.pick(&owned_numbers(state));
            state.superblocks[number].run_length = stray;
        }
        Kind::RunLengthUnused => {
            let unused = numbers_where(state, |it| it.owner == UNUSED_OWNER);
            state.superblocks[random.pick(&unused)].run_length = stray;
        }
        Kind::RunNameInner => name_inside(random, state, (first, length)),
        Kind::RunTotal => count_run(random, state, (first, length)),
        // They are made so.
        _ => {}
    }
}

/// Makes a run two that share superblocks: one from its first superblock on, and one up to
/// its last.
fn overlap(random: &mut Xorshift, state: &mut State, (first, length): RunAt) {
    let shorter = random.byte_between(2, length - 1);
    let before = random.byte_between(1, shorter - 1);
    state.superblocks[first].run_length = shorter;
    state.superblocks[first + usize::from(before)].run_length = length - before;
}

/// A length that takes in the heap's superblock behind a run; one time in three, and for a
/// run of sixteen, an unused superblock inside it.
fn lengthen(random: &mut Xorshift, state: &mut State, (first, length): RunAt) {
    if length == LONGEST_RUN || length > 1 && random.chance(1, 3) {
        let inner = random.between(1, u32::from(length) - 1) as usize;
        state.superblocks[first + inner] = Superblock::UNUSED;
    } else {
        state.superblocks[first].run_length = random.pick(&[length + 1, LONGEST_RUN]);
    }
}

/// Ranks a superblock of a run: as the next, or in place of another, which is not ranked
/// then.
fn rank_of_run(random: &mut Xorshift, state: &mut State, number: usize) {
    let ranked = numbers_where(state, |it| it.rank != 0);
    let next = ranked.len() as u8 + 1;
    let rank = match random.below(2) {
        0 if !ranked.is_empty() => {
            let other = random.pick(&ranked);
            std::mem::take(&mut state.superblocks[other].rank)
        }
        _ => next,
    };
    state.superblocks[number].rank = rank;
}

/// Makes a name point at another block of a run's first superblock, or at any of the
/// superblocks inside it, block 0 too.
fn name_inside(random: &mut Xorshift, state: &mut State, (first, length): RunAt) {
    let superblock = first + random.below(length.into()) as usize;
    let any = random.between(1, 255);
    let block = match superblock == first {
        true => random.pick(&[1, 255, any]),
        false => random.pick(&[0, 0, 1, any]),
    };
    let number = BlockId { superblock, block }.number();
    // In place of a name that holds the run, or beside it.
    let names = &mut state.control.names.0;
    let start = (first * 256) as u16;
    let holding = names.iter().position(|&it| it == start);
    let any = random.below(names.len() as u32) as usize;
    names[holding.filter(|_| any.is_multiple_of(2)).unwrap_or(any)] = number;
}

/// Counts a run as superblocks of class 0, or of one that they were of before, of the
/// global heap or another one, at times with a live block.
fn count_run(random: &mut Xorshift, state: &mut State, (_, length): RunAt) {
    let heap = random.pick(&[GLOBAL_HEAP, GLOBAL_HEAP, 1, state.control.setup.processors]);
    let any = random.byte_between(1, 26);
    let class = random.pick(&[0, 0, 0, any]);
    let (heap, class) = (usize::from(heap), usize::from(class));
    let totals = &mut state.control.totals;
    let way = random.below(4);
    if way != 3 {
        totals.superblocks[heap][class] += random.pick(&[length, 1]);
    }
    if way >= 2 {
        totals.live[heap][class] += 1;
    }
}

/// Puts owners and lengths of runs at any numbers: of a stretch made a run as its
/// superblocks are, of the runs that are there, or anywhere.
pub fn loosen_runs(random: &mut Xorshift, state: &mut State) {
    let share = random.pick(&[1, 4, 32]);
    let way = random.below(4);
    if way == 0 {
        return make_run_of(random, state);
    }
    for superblock in &mut state.superblocks {
        if !random.chance(share, 64) {
            continue;
        }
        let any = random.byte();
        match way {
            1 => superblock.run_length = random.pick(&[0, 1, 2, 3, 16, 17, any]),
            2 => superblock.owner = random.pick(&[RUN_OWNER, RUN_OWNER, UNUSED_OWNER, 0, any]),
            _ => {
                *superblock = Superblock::IN_RUN;
                superblock.run_length = random.pick(&[0, 1, 1, 1, 2]);
            }
        }
    }
}

/// Makes a stretch of superblocks a run, with the class, marks and rank that each has or
/// without.
fn make_run_of(random: &mut Xorshift, state: &mut State) {
    let first = random.below(SUPERBLOCKS as u32) as usize;
    let most = (SUPERBLOCKS - first).min(20);
    let length = random.between(1, most as u32) as u8;
    let is_clean = random.chance(1, 2);
    for superblock in &mut state.superblocks[first..][..length.into()] {
        match is_clean {
            true => *superblock = Superblock::IN_RUN,
            false => superblock.owner = RUN_OWNER,
        }
    }
    state.superblocks[first].run_length = length;
}
