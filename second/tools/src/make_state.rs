//! States to hand in with one call: sound ones, ones with each clause of the
//! state check broken in turn, storage of every length around the limit, and the
//! same on lent rows.

use hoard::{
    BlockId, Command, Names, Setup, State, Superblock, CLASSES, DROP_BYTE, GLOBAL_HEAP,
    NAMED_FREE_BYTE, NAMES, NOT_HELD, ORDER_PLACES, SIZE_CLASSES, SUPERBLOCKS, SUPERBLOCK_BYTES,
    UNUSED_OWNER,
};

use crate::call_form::{run_call, write_input, CallInput, MOST_PLACES};
use crate::drop_states;
use crate::long_states;
use crate::make_record::{
    any_processor, any_run, edge_setup, equals as equals_run, setup_in_limits, size_of_class,
    zero_or_beside,
};
use crate::naming::{available_name, free_of_live, held_name};
use crate::rank_faults::{break_ranks, loosen_ranks, owned_numbers, rank_any, RANK_FAULTS};
use crate::row_form::{write_row_input, RowInput, MOST_RECORDS};
use crate::run_faults::{break_runs, loosen_runs, wrong_runs, RUN_FAULTS};
use crate::table::{live_addresses, most_live_of_global, named_call, owned_blocks, Table};
use crate::total_faults::{
    break_totals, forget_change, has_step, loosen_totals, Step, STEPS, TOTAL_FAULTS,
};
use crate::xorshift::Xorshift;

/// Kinds of states.
#[derive(Clone, Copy, Debug, PartialEq, Eq)]
pub enum Kind {
    /// A state reached by a random record.
    Replayed,
    /// A sound state built superblock by superblock, with order in any order.
    Built,
    /// A state built without regard to the check.
    Loose,
    /// A setup call, within limits or not, with any storage.
    SetupCall,
    /// A setup number of the state outside its limits.
    SetupNumber,
    /// An owner above P that is not 255.
    Owner,
    /// Class 27 or above.
    Class,
    /// An unused superblock of class 1 or above.
    UnusedClass,
    /// An unused superblock with a mark.
    UnusedMark,
    /// A mark at n or above.
    MarkHigh,
    /// A free block twice in the filled order places.
    OrderTwice,
    /// A filled order place at n or above.
    OrderRange,
    /// A filled order place that holds a live block.
    OrderMarked,
    /// A superblock from N on that is owned.
    Beyond,
    /// A processor heap and class that just meets both conditions of the move rule.
    MoveRule,
    /// The same with one more live block: sound, and a free from it moves.
    MoveRuleLimit,
    /// A global superblock with just too many live blocks.
    GlobalFull,
    /// The same with one fewer: sound.
    GlobalLimit,
    /// A name at a block that is not live.
    NameFree,
    /// A name at an unused superblock.
    NameUnused,
    /// A name at a block number at n or above.
    NameHigh,
    /// A name whose number is no block of the 64 superblocks.
    NameRange,
    /// Two names at one block.
    NameTwice,
    /// A total one too many.
    TotalMore,
    /// A total one too few, or the widest number in place of 0.
    TotalLess,
    /// Two totals that are wrong by as much: one more here and one less there, or
    /// swapped.
    TotalCancel,
    /// A total of a heap above P that is not 0.
    TotalAboveP,
    /// A wrong total of heap 0.
    TotalHeap0,
    /// Wrong totals of superblocks, with all those of live blocks right.
    TotalSuperblocksOnly,
    /// Wrong totals of live blocks, with all those of superblocks right.
    TotalLiveOnly,
    /// Totals of very large numbers, or wrong in their upper bits alone.
    TotalWide,
    /// Totals that an accepted call changed, some or all as they were before it.
    TotalStale,
    /// A rank left out, before the last or instead of it.
    RankGap,
    /// A rank given twice.
    RankTwice,
    /// An unused superblock that is ranked.
    RankUnused,
    /// A rank above 64.
    RankRange,
    /// The last rank one too high.
    RankOneMore,
    /// All 64 superblocks owned and ranked: sound.
    RankAll,
    /// One order place fewer than N x 256.
    StorageShort,
    /// Just N x 256 order places.
    StorageExact,
    /// More order places than N x 256.
    StorageLong,
    /// No order place.
    StorageEmpty,
    /// Two faults at once.
    TwoFaults,
    /// Input that ends early or has bytes left over.
    Bytes,
    /// A take of size 0 or beside it on a sound state, with class 0 shared, full, in
    /// the global heap or nowhere, and often no superblock left for it.
    Zero,
    /// The same take on a state of any kind before this, sound or not.
    ZeroDamaged,
    /// A take or free by name on a sound state with many names.
    Named,
    /// Mostly a take on a sound state in which many superblocks are equally full.
    Equals,
    /// A sound state, or a setup, on a lent row that is mostly 64 long.
    Row,
    /// A state or setup of any kind before these two on a lent row of any length, with
    /// storage that is at times short.
    RowDamaged,
    /// A drop on a sound state.
    Drops,
    /// A drop on a state of any kind before rows, sound or not.
    DropsDamaged,
    /// A drop on a lent row, sound or not.
    DropsRow,
    /// The bytes of a drop, made no call.
    DropsBytes,
    /// A call on a sound state with runs, mostly of a long block.
    Long,
    /// The same on a lent row of any length.
    LongRow,
    /// The same on a state with runs that has wrong fields at times.
    LongDamaged,
    /// The first superblock of a run carries no length.
    RunLength0,
    /// A run of 17 superblocks or more.
    RunLength17,
    /// A run that reaches past N or past the last superblock.
    RunPastN,
    /// Two runs that share superblocks.
    RunOverlapping,
    /// A superblock inside a run carries a length.
    RunInnerLength,
    /// A length that leaves superblocks of a run out.
    RunShort,
    /// A length that takes a superblock of another owner in.
    RunLong,
    /// A mark in a run.
    RunMark,
    /// A rank in a run.
    RunRank,
    /// A class other than 0 in a run.
    RunClass,
    /// A superblock of a heap carries a length.
    RunLengthInHeap,
    /// An unused superblock carries a length.
    RunLengthUnused,
    /// A name inside a run, or at another block of its first superblock.
    RunNameInner,
    /// Totals that count a run, or the superblocks that it was made of.
    RunTotal,
}

/// Every kind with its name.
pub const KINDS: [(&str, Kind); 71] = [
    ("replayed", Kind::Replayed),
    ("built", Kind::Built),
    ("loose", Kind::Loose),
    ("setup-call", Kind::SetupCall),
    ("setup-number", Kind::SetupNumber),
    ("owner", Kind::Owner),
    ("class", Kind::Class),
    ("unused-class", Kind::UnusedClass),
    ("unused-mark", Kind::UnusedMark),
    ("mark-high", Kind::MarkHigh),
    ("order-twice", Kind::OrderTwice),
    ("order-range", Kind::OrderRange),
    ("order-marked", Kind::OrderMarked),
    ("beyond", Kind::Beyond),
    ("move-rule", Kind::MoveRule),
    ("move-rule-limit", Kind::MoveRuleLimit),
    ("global-full", Kind::GlobalFull),
    ("global-limit", Kind::GlobalLimit),
    ("name-free", Kind::NameFree),
    ("name-unused", Kind::NameUnused),
    ("name-high", Kind::NameHigh),
    ("name-range", Kind::NameRange),
    ("name-twice", Kind::NameTwice),
    ("total-more", Kind::TotalMore),
    ("total-less", Kind::TotalLess),
    ("total-cancel", Kind::TotalCancel),
    ("total-above-p", Kind::TotalAboveP),
    ("total-heap-0", Kind::TotalHeap0),
    ("total-superblocks-only", Kind::TotalSuperblocksOnly),
    ("total-live-only", Kind::TotalLiveOnly),
    ("total-wide", Kind::TotalWide),
    ("total-stale", Kind::TotalStale),
    ("rank-gap", Kind::RankGap),
    ("rank-twice", Kind::RankTwice),
    ("rank-unused", Kind::RankUnused),
    ("rank-range", Kind::RankRange),
    ("rank-one-more", Kind::RankOneMore),
    ("rank-all", Kind::RankAll),
    ("storage-short", Kind::StorageShort),
    ("storage-exact", Kind::StorageExact),
    ("storage-long", Kind::StorageLong),
    ("storage-empty", Kind::StorageEmpty),
    ("two-faults", Kind::TwoFaults),
    ("bytes", Kind::Bytes),
    ("zero", Kind::Zero),
    ("zero-damaged", Kind::ZeroDamaged),
    ("named", Kind::Named),
    ("equals", Kind::Equals),
    ("row", Kind::Row),
    ("row-damaged", Kind::RowDamaged),
    ("drops", Kind::Drops),
    ("drops-damaged", Kind::DropsDamaged),
    ("drops-row", Kind::DropsRow),
    ("drops-bytes", Kind::DropsBytes),
    ("long", Kind::Long),
    ("long-row", Kind::LongRow),
    ("long-damaged", Kind::LongDamaged),
    ("run-length-0", Kind::RunLength0),
    ("run-length-17", Kind::RunLength17),
    ("run-past-n", Kind::RunPastN),
    ("run-overlapping", Kind::RunOverlapping),
    ("run-inner-length", Kind::RunInnerLength),
    ("run-short", Kind::RunShort),
    ("run-long", Kind::RunLong),
    ("run-mark", Kind::RunMark),
    ("run-rank", Kind::RunRank),
    ("run-class", Kind::RunClass),
    ("run-length-in-heap", Kind::RunLengthInHeap),
    ("run-length-unused", Kind::RunLengthUnused),
    ("run-name-inner", Kind::RunNameInner),
    ("run-total", Kind::RunTotal),
];

/// Kinds whose states pass the check and whose storage is enough. States are drawn from
/// these, so they stay as they are; sound drops and long blocks are kinds beside them.
pub const SOUND_KINDS: [Kind; 10] = [
    Kind::Replayed,
    Kind::Built,
    Kind::MoveRuleLimit,
    Kind::GlobalLimit,
    Kind::RankAll,
    Kind::StorageExact,
    Kind::StorageLong,
    Kind::Zero,
    Kind::Named,
    Kind::Equals,
];

/// Kinds with a fault of names.
const NAME_FAULTS: [Kind; 5] = [
    Kind::NameFree,
    Kind::NameUnused,
    Kind::NameHigh,
    Kind::NameRange,
    Kind::NameTwice,
];

/// Numbers below this stand for blocks of the 64 superblocks.
const BLOCK_NUMBERS: u16 = (SUPERBLOCKS * ORDER_PLACES) as u16;

/// Lengths of a row that is refused.
pub(crate) const WRONG_LENGTHS: [u8; 4] = [0, 1, 63, 65];

/// The kind of a name.
pub fn kind_of_name(name: &str) -> Option<Kind> {
    KINDS.iter().find(|kind| kind.0 == name).map(|kind| kind.1)
}

/// Makes the bytes of a call with its state and storage.
pub fn make_state(kind: Kind, seed: u64) -> Vec<u8> {
    let random = &mut Xorshift::new(0x5747 + kind as u64, seed);
    match kind {
        Kind::Row => write_row_input(&row(random)),
        Kind::RowDamaged => row_damaged(random),
        Kind::DropsRow => drop_states::row(random),
        Kind::DropsBytes => drop_states::bytes(random),
        Kind::LongRow => long_states::row(random),
        Kind::Bytes => {
            let mut bytes = write_input(&make_input(kind, random));
            spoil_length(random, &mut bytes);
            bytes
        }
        _ => write_input(&make_input(kind, random)),
    }
}

/// A sound state with a call, or a setup call, on a row mostly of 64 records.
fn row(random: &mut Xorshift) -> RowInput {
    let kind = match random.below(6) {
        0 => Kind::SetupCall,
        1 => Kind::Zero,
        2 => Kind::Named,
        3 => Kind::Equals,
        _ => random.pick(&SOUND_KINDS),
    };
    let mut input = make_input(kind, random);
    input.order.truncate(MOST_PLACES);
    let length = match random.below(4) {
        0 => random.pick(&WRONG_LENGTHS),
        _ => SUPERBLOCKS as u8,
    };
    RowInput { length, input }
}

/// A call of any kind before rows on a row of any length. Setup numbers are at times
/// broken on top, storage is at times short, one in sixteen is no call at all.
fn row_damaged(random: &mut Xorshift) -> Vec<u8> {
    let kind = match random.below(10) {
        0..=3 => Kind::SetupCall,
        4 => Kind::ZeroDamaged,
        5 => random.pick(&TOTAL_FAULTS),
        6 => random.pick(&RANK_FAULTS),
        _ => random.pick(&KINDS[..Kind::Row as usize]).1,
    };
    let mut input = make_input(kind, random);
    input.order.truncate(MOST_PLACES);
    if random.chance(1, 4) {
        let needed = input.state.control.setup.order_places();
        let short = random.below(needed as u32 + 1) as usize;
        let length = random.pick(&[needed.saturating_sub(1), short, 0]);
        input.order.truncate(length);
    }
    if random.chance(1, 4) {
        break_setup(random, &mut input.state.control.setup);
        if let Command::Setup(asked) = &mut input.call {
            *asked = input.state.control.setup;
        }
    }
    let length = match random.below(5) {
        0 => SUPERBLOCKS as u8,
        _ => random.pick(&WRONG_LENGTHS),
    };
    if !matches!(input.call, Command::Setup(_)) && random.chance(1, 8) {
        loosen_runs(random, &mut input.state);
    }
    let mut bytes = write_row_input(&RowInput { length, input });
    if random.chance(1, 16) {
        spoil_row(random, &mut bytes);
    }
    bytes
}

/// Makes the row too long, changes the call byte (255 makes it a row in a row), or
/// cuts the bytes or adds to them.
fn spoil_row(random: &mut Xorshift, bytes: &mut Vec<u8>) {
    match random.below(6) {
        0 => bytes[1] = random.pick(&[MOST_RECORDS + 1, 128, 255]),
        1 => bytes[2] = unknown_call(random),
        2 => bytes.truncate(random.below(4) as usize),
        3 => bytes.truncate(random.below(bytes.len() as u32) as usize),
        4 => {
            bytes.pop();
        }
        _ => bytes.push(random.byte()),
    }
}

/// A byte that stands for no call, drawn as if drops were none: so the bytes stay the
/// same but for those that would be a drop now.
fn unknown_call(random: &mut Xorshift) -> u8 {
    let byte = random.byte_between(NAMED_FREE_BYTE + 1, 255);
    byte.max(DROP_BYTE + 1)
}

pub(crate) fn make_input(kind: Kind, random: &mut Xorshift) -> CallInput {
    match kind {
        Kind::Replayed => replayed(random),
        Kind::Built | Kind::Bytes => built(random),
        Kind::Loose => loose(random),
        Kind::SetupCall => setup_call(random),
        Kind::MoveRule => around_threshold(random, 0),
        Kind::MoveRuleLimit => around_threshold(random, 1),
        Kind::StorageShort | Kind::StorageExact | Kind::StorageLong | Kind::StorageEmpty => {
            with_storage(kind, random)
        }
        Kind::TotalStale => stale_totals(random),
        Kind::RankAll => all_ranked(random).with_call(random),
        Kind::TwoFaults => two_faults(random),
        Kind::Zero => zero(random),
        Kind::ZeroDamaged => zero_damaged(random),
        Kind::Named => named(random),
        Kind::Equals => equals(random),
        Kind::Drops => drop_states::sound(random),
        Kind::DropsDamaged => drop_states::damaged(random),
        Kind::Long => long_states::sound(random),
        Kind::LongDamaged => long_states::damaged(random),
        kind if RUN_FAULTS.contains(&kind) => wrong_runs(kind, random),
        kind if RANK_FAULTS.contains(&kind) => wrong_ranks(kind, random),
        _ => damaged(kind, random),
    }
}

fn replayed(random: &mut Xorshift) -> CallInput {
    let length = random.between(1, 400) as usize;
    let run = match random.below(4) {
        0 => equals_run(random, length),
        _ => any_run(random, length),
    };
    Table::after(&run.record).with_call(random)
}

/// Gives the first `count` superblocks to heaps at random, of few classes so that
/// heaps have several of one.
pub(crate) fn scatter(random: &mut Xorshift, setup: Setup, count: u8) -> Table {
    let mut table = Table::new(setup, random);
    let classes = [random.byte_between(0, 26), random.byte_between(8, 26)];
    let owned_of_ten = random.between(3, 10);
    let fullness = random.between(1, 4);
    for number in 0..usize::from(count) {
        if !random.chance(owned_of_ten, 10) {
            continue;
        }
        let owner = random.byte_between(0, setup.processors);
        let class = match random.below(6) {
            0 => random.byte_between(0, 26),
            _ => random.pick(&classes),
        };
        let blocks = SIZE_CLASSES[usize::from(class)].blocks;
        let live = match random.below(4) {
            0 => 0,
            _ => random.below(blocks * fullness / 4 + 1),
        };
        table.own(number, owner, class, live, random);
    }
    table
}

fn built(random: &mut Xorshift) -> CallInput {
    let setup = setup_in_limits(random, 8, 64);
    let mut table = scatter(random, setup, setup.superblocks);
    table.restore_invariants();
    table.name_some_blocks(random);
    table.rank_some_superblocks(random);
    table.with_call(random)
}

fn loose(random: &mut Xorshift) -> CallInput {
    let setup = setup_in_limits(random, 8, 64);
    let mut table = scatter(random, setup, setup.superblocks);
    table.name_some_blocks(random);
    table.rank_some_superblocks(random);
    let mut input = table.with_call(random);
    loosen_totals(random, &mut input.state.control.totals);
    loosen_ranks(random, &mut input.state);
    if random.chance(1, 4) {
        loosen_runs(random, &mut input.state);
    }
    input
}

/// A sound state or a setup within limits, with storage of the length that the kind names.
fn with_storage(kind: Kind, random: &mut Xorshift) -> CallInput {
    let mut input = match random.below(3) {
        0 => replayed(random),
        1 => built(random),
        _ => {
            let setup = setup_in_limits(random, 8, 64);
            CallInput {
                call: Command::Setup(setup),
                state: State::new(setup),
                order: Vec::new(),
            }
        }
    };
    let needed = input.state.control.setup.order_places();
    let length = match kind {
        Kind::StorageShort => needed - 1,
        Kind::StorageExact => needed,
        Kind::StorageLong => needed + random.pick(&[1, 7, 256, 600]),
        _ => 0,
    };
    let filler = random.word() as u16;
    input.order.resize(length, filler);
    input
}

fn setup_call(random: &mut Xorshift) -> CallInput {
    let setup = match random.below(2) {
        0 => edge_setup(random),
        _ => setup_in_limits(random, 8, 64),
    };
    let needed = setup.order_places() as u32;
    let length = match random.below(4) {
        0 => random.below(needed + 1),
        1 => needed,
        _ => needed + random.below(600),
    };
    let order = (0..length).map(|_| random.below(4) as u16).collect();
    CallInput {
        call: Command::Setup(setup),
        state: State::new(setup),
        order,
    }
}

/// A sound state with superblock 0 owned, partly live, of class 1 to 23, and the
/// last superblock of the setup unused. The setup leaves some of the 64 out.
fn owned_and_unused(random: &mut Xorshift, most_processors: u8) -> Table {
    let mut setup = setup_in_limits(random, most_processors, 60);
    setup.superblocks = setup.superblocks.max(2);
    let mut table = scatter(random, setup, setup.superblocks - 1);
    let class = random.byte_between(1, 23);
    let blocks = SIZE_CLASSES[usize::from(class)].blocks;
    let owner = random.byte_between(1, setup.processors);
    let live = random.between(1, blocks - 2);
    table.own(0, owner, class, live, random);
    table.restore_invariants();
    table.name_some_blocks(random);
    table.rank_some_superblocks(random);
    table
}

/// A sound state with one clause of the check broken. Where it is not the totals',
/// they are right for the superblocks as they are then.
fn damaged(kind: Kind, random: &mut Xorshift) -> CallInput {
    let most_processors = if kind == Kind::TotalAboveP { 7 } else { 8 };
    let mut table = owned_and_unused(random, most_processors);
    match kind {
        Kind::SetupNumber => break_setup(random, &mut table.state.control.setup),
        Kind::MarkHigh => {
            let superblock = &mut table.state.superblocks[0];
            let blocks = superblock.size_class().blocks;
            superblock.mark(random.pick(&[blocks, (blocks + 255) / 2, 255]));
        }
        Kind::OrderTwice | Kind::OrderRange | Kind::OrderMarked => {
            break_order(kind, random, &mut table)
        }
        Kind::GlobalFull | Kind::GlobalLimit => around_global_limit(kind, random, &mut table),
        Kind::Beyond => own_beyond(random, &mut table),
        // Heap 0 has a superblock then.
        Kind::TotalHeap0 => around_global_limit(Kind::GlobalLimit, random, &mut table),
        kind if TOTAL_FAULTS.contains(&kind) => {}
        kind if NAME_FAULTS.contains(&kind) => break_names(kind, random, &mut table.state),
        _ => break_unused(kind, random, &mut table),
    }
    let mut input = table.with_call(random);
    if TOTAL_FAULTS.contains(&kind) {
        break_totals(kind, random, &mut input.state);
    }
    input
}

/// The state after a call that passed a superblock from heap to heap, with totals
/// from before it.
fn stale_totals(random: &mut Xorshift) -> CallInput {
    let step = random.pick(&STEPS);
    loop {
        let input = match step {
            Step::Moved => around_threshold(random, 1),
            _ => take_from_many_global(random),
        };
        let mut order = input.order.clone();
        let state = run_call(&input, &mut order).state;
        if has_step(step, &input.state.superblocks, &state.superblocks) {
            let before = &input.state.control.totals;
            let mut input = Table { state, order }.with_call(random);
            forget_change(random, before, &mut input.state.control.totals);
            return input;
        }
    }
}

/// Sound superblocks with many in the global heap.
pub(crate) fn with_global(random: &mut Xorshift, most_superblocks: u8) -> Table {
    let setup = setup_in_limits(random, 8, most_superblocks);
    let mut table = scatter(random, setup, setup.superblocks);
    for superblock in &mut table.state.superblocks {
        if superblock.owner != UNUSED_OWNER && random.chance(1, 2) {
            superblock.owner = GLOBAL_HEAP;
        }
    }
    table.restore_invariants();
    table
}

/// A take on a sound state with many superblocks in the global heap, in half of all
/// cases of a class that it has there.
fn take_from_many_global(random: &mut Xorshift) -> CallInput {
    let mut table = with_global(random, 16);
    let setup = table.state.control.setup;
    table.name_some_blocks(random);
    table.rank_some_superblocks(random);
    let global = table.state.superblocks.iter();
    let global = global.filter(|superblock| superblock.owner == GLOBAL_HEAP);
    let mut classes: Vec<u8> = global.map(|superblock| superblock.class).collect();
    if classes.is_empty() || random.chance(1, 2) {
        classes = (0..CLASSES as u8).collect();
    }
    let class = random.pick(&classes);
    let mut input = table.with_call(random);
    input.call = Command::Take {
        processor: random.byte_between(1, setup.processors),
        size: size_of_class(random, class),
    };
    input
}

/// Makes a name point where there is no live block, or two at one.
fn break_names(kind: Kind, random: &mut Xorshift, state: &mut State) {
    let number = match kind {
        Kind::NameTwice => return name_twice(random, state),
        Kind::NameFree => random.pick(&owned_blocks(state, false)).number(),
        Kind::NameUnused => block_of_unused(random, &state.control.setup).number(),
        Kind::NameHigh => high_block(random, state).number(),
        _ => {
            let any = random.between(BLOCK_NUMBERS.into(), u32::from(NOT_HELD) - 1) as u16;
            random.pick(&[BLOCK_NUMBERS, NOT_HELD - 1, any, any])
        }
    };
    let name = any_name(random);
    state.control.names.0[name] = number;
}

/// A block of the unused last superblock of the setup, or of one from N on.
fn block_of_unused(random: &mut Xorshift, setup: &Setup) -> BlockId {
    BlockId {
        superblock: random.between(u32::from(setup.superblocks) - 1, 63) as usize,
        block: random.below(256),
    }
}

/// A block number past the last of superblock 0, whose class has fewer than 256.
fn high_block(random: &mut Xorshift, state: &State) -> BlockId {
    let blocks = state.superblocks[0].size_class().blocks;
    BlockId {
        superblock: 0,
        block: random.pick(&[blocks, (blocks + 255) / 2, 255]),
    }
}

/// The first name, the last or any.
fn any_name(random: &mut Xorshift) -> usize {
    let last = NAMES - 1;
    let any = random.below(NAMES as u32) as usize;
    random.pick(&[0, last, any, any])
}

/// Makes two names point at one live block: the first and the last, neighbours, or
/// any two.
fn name_twice(random: &mut Xorshift, state: &mut State) {
    let last = NAMES - 1;
    let name = any_name(random);
    let other = (name + random.between(1, last as u32) as usize) % NAMES;
    let neighbour = if name == last { name - 1 } else { name + 1 };
    let (name, other) = random.pick(&[(0, last), (name, neighbour), (name, other)]);
    let number = random.pick(&owned_blocks(state, true)).number();
    state.control.names.0[name] = number;
    state.control.names.0[other] = number;
}

/// Gives a superblock from N on to a heap, with an order of its own.
fn own_beyond(random: &mut Xorshift, table: &mut Table) {
    let setup = table.state.control.setup;
    let number = random.between(setup.superblocks.into(), 63) as usize;
    let owner = random.byte_between(0, setup.processors);
    let class = random.byte_between(0, 26);
    table.own(number, owner, class, 0, random);
}

/// Puts one setup number outside its limits.
pub(crate) fn break_setup(random: &mut Xorshift, setup: &mut Setup) {
    match random.below(5) {
        0 => setup.processors = random.pick(&[0, 9, 255]),
        1 => setup.superblocks = random.pick(&[0, 65, 255]),
        2 => setup.spare = random.pick(&[0, 17, 255]),
        3 => setup.p = random.pick(&[0, setup.q, 255]),
        _ => setup.q = random.pick(&[0, setup.p, 9, 255]),
    }
}

/// Breaks the filled order places of superblock 0, of which there are two or more.
fn break_order(kind: Kind, random: &mut Xorshift, table: &mut Table) {
    let superblock = &table.state.superblocks[0];
    let blocks = superblock.size_class().blocks;
    let filled = superblock.free_count();
    let at = random.below(filled);
    let value = match kind {
        Kind::OrderTwice => table.order[((at + random.between(1, filled - 1)) % filled) as usize],
        Kind::OrderRange => random.pick(&[blocks as u16, 256, 65535]),
        _ => {
            let marked = (0..blocks).filter(|&block| superblock.is_live(block));
            random.pick(&marked.collect::<Vec<_>>()) as u16
        }
    };
    table.order[at as usize] = value;
}

/// Breaks the unused last superblock of the setup.
fn break_unused(kind: Kind, random: &mut Xorshift, table: &mut Table) {
    let processors = table.state.control.setup.processors;
    let number = usize::from(table.state.control.setup.superblocks) - 1;
    match kind {
        Kind::Owner => {
            let owner = random.pick(&[processors + 1, 100, UNUSED_OWNER - 1]);
            table.own(number, owner, random.byte_between(0, 26), 0, random);
        }
        Kind::Class => {
            table.own(number, GLOBAL_HEAP, 26, 0, random);
            table.state.superblocks[number].class = random.pick(&[27, 28, 255]);
        }
        Kind::UnusedClass => {
            table.state.superblocks[number].class = random.pick(&[1, 26, 27, 255]);
        }
        _ => table.state.superblocks[number].mark(random.below(256)),
    }
}

/// Makes the last superblock of the setup one of the global heap with just too
/// many live blocks, or with the most it may have.
fn around_global_limit(kind: Kind, random: &mut Xorshift, table: &mut Table) {
    let number = usize::from(table.state.control.setup.superblocks) - 1;
    let class = random.byte_between(0, 26);
    let most = most_live_of_global(&table.state.control.setup, class);
    let live = most + u32::from(kind == Kind::GlobalFull);
    table.own(number, GLOBAL_HEAP, class, live, random);
}

/// A heap and class with the most live blocks at which it is still over its
/// threshold, and `more` on top; the call is mostly a free from it.
pub(crate) fn around_threshold(random: &mut Xorshift, more: u32) -> CallInput {
    let (setup, class, count) = match random.below(2) {
        0 => any_threshold(random),
        _ => tight_threshold(random),
    };
    let mut table = Table::new(setup, random);
    let heap = random.byte_between(1, setup.processors);
    let live = most_live_over_threshold(&setup, class, count) + more;
    let live_counts = spread(random, live, count, class, &setup);
    for (number, live) in live_counts.into_iter().enumerate() {
        table.own(number, heap, class, live, random);
    }
    table.name_some_blocks(random);
    table.rank_some_superblocks(random);
    let mut input = table.with_call(random);
    if live > 0 && random.chance(3, 4) {
        let processor = random.byte_between(1, setup.processors);
        let address = address_to_free(random, &input.state);
        input.call = free_of_live(random, &input.state, processor, address, 50);
    }
    input
}

/// Any live address, or one in the fullest superblock, which leaves the emptiest
/// ones as they are.
fn address_to_free(random: &mut Xorshift, state: &State) -> u32 {
    let live = live_addresses(state);
    if random.chance(1, 3) {
        return random.pick(&live);
    }
    let live_of =
        |address: &u32| state.superblocks[(address / SUPERBLOCK_BYTES) as usize].live_count();
    *live
        .iter()
        .max_by_key(|address| live_of(address))
        .unwrap_or(&0)
}

/// Any setup and class, and more superblocks than a heap may keep free.
fn any_threshold(random: &mut Xorshift) -> (Setup, u8, u32) {
    let mut setup = setup_in_limits(random, 8, 64);
    setup.superblocks = random.byte_between(setup.spare + 1, 64);
    let count = random.byte_between(setup.spare + 1, setup.superblocks);
    (setup, random.byte_between(0, 26), count.into())
}

/// A class of an odd number of blocks and a fraction of eighths at which the
/// fullest superblock that may move makes up for just an eighth of a freed
/// block: one free then moves up to eight.
fn tight_threshold(random: &mut Xorshift) -> (Setup, u8, u32) {
    let class = random.pick(&[4, 5, 7, 11, 12, 17, 20, 23]);
    let blocks = SIZE_CLASSES[usize::from(class)].blocks;
    let setup = Setup {
        superblocks: random.byte_between(16, 64),
        spare: 1,
        p: 8 - (blocks % 8) as u8,
        q: 8,
        ..setup_in_limits(random, 8, 64)
    };
    let count = random.between(12, u32::from(setup.superblocks));
    (setup, class, count)
}

/// Most live blocks in `count` superblocks of a class at which both conditions
/// of the move rule hold.
fn most_live_over_threshold(setup: &Setup, class: u8, count: u32) -> u32 {
    let (p, q) = (u32::from(setup.p), u32::from(setup.q));
    let blocks = SIZE_CLASSES[usize::from(class)].blocks;
    let by_spare = (count - u32::from(setup.spare)) * blocks - 1;
    let by_fraction = ((q - p) * count * blocks).div_ceil(q) - 1;
    by_spare.min(by_fraction)
}

/// Spreads live blocks over superblocks of a class. A base is the same for all,
/// up to what a moved superblock may have; the others fill the first ones, or
/// go round. Many superblocks at that base make many moves in one free.
fn spread(random: &mut Xorshift, live: u32, count: u32, class: u8, setup: &Setup) -> Vec<u32> {
    let blocks = SIZE_CLASSES[usize::from(class)].blocks;
    let base = match random.below(3) {
        0 => 0,
        _ => most_live_of_global(setup, class).min(live / count),
    };
    let mut left = live - base * count;
    let mut counts = vec![base; count as usize];
    let step = random.pick(&[1, blocks, blocks]);
    while left > 0 {
        for live in &mut counts {
            let more = step.min(blocks - *live).min(left);
            *live += more;
            left -= more;
        }
    }
    random.shuffle(&mut counts);
    counts
}

/// Two faults or more at once, of state, storage and call: the first in the order
/// of refusals counts.
fn two_faults(random: &mut Xorshift) -> CallInput {
    let mut table = owned_and_unused(random, 8);
    table.recount_totals();
    let short = table.state.control.setup.order_places() - 1;
    let mut call = call_with_two_faults(random, &table.state);
    match random.below(10) {
        0 => {
            break_setup(random, &mut table.state.control.setup);
            table.order.truncate(short);
        }
        1 => {
            break_part(random, &mut table);
            table.order.truncate(short);
        }
        2 | 3 => break_part(random, &mut table),
        4 | 5 => {
            leave_superblock_0(&mut table.state);
            table.recount_totals();
            call = take_with_none_left(random, &table.state);
        }
        _ => {}
    }
    CallInput {
        call,
        state: table.state,
        order: table.order,
    }
}

/// Breaks the owner of a superblock or a run or, more often, a name, a total or a rank.
fn break_part(random: &mut Xorshift, table: &mut Table) {
    match random.below(10) {
        0 => {
            break_unused(Kind::Owner, random, table);
            table.recount_totals();
        }
        1 | 2 => {
            let kind = random.pick(&[Kind::TotalMore, Kind::TotalLess, Kind::TotalCancel]);
            break_totals(kind, random, &mut table.state);
        }
        3 | 4 => {
            let kind = random.pick(&[Kind::RankGap, Kind::RankUnused, Kind::RankRange]);
            break_ranks(kind, random, &mut table.state);
        }
        5 | 6 => {
            let kind = random.pick(&[Kind::RunLengthInHeap, Kind::RunLengthUnused]);
            break_runs(kind, random, &mut table.state, (0, 0));
        }
        _ => {
            let kind = random.pick(&NAME_FAULTS);
            break_names(kind, random, &mut table.state);
        }
    }
}

/// A call with two faults of its own.
fn call_with_two_faults(random: &mut Xorshift, state: &State) -> Command {
    let processor = no_processor(random, &state.control.setup);
    let size = random.pick(&[2049, 65535]);
    let taken = taken_name(random, &state.control.names);
    let unused = (u32::from(state.control.setup.superblocks) - 1) * SUPERBLOCK_BYTES;
    match random.below(6) {
        0 => Command::Take { processor, size },
        1 => Command::Free {
            processor,
            address: random.pick(&[unused + 1, 1, u32::MAX]),
        },
        2 => Command::Free {
            processor: 1,
            address: unused + 1,
        },
        3 => Command::NamedTake {
            processor,
            name: taken,
            size: random.pick(&[16, size]),
        },
        4 => Command::NamedTake {
            processor: 1,
            name: taken,
            size,
        },
        _ => Command::NamedFree {
            processor,
            name: available_name(random, &state.control.names).unwrap_or(1024),
        },
    }
}

/// A take with a fault of its own where only superblock 0 is left, which has no
/// block for it.
fn take_with_none_left(random: &mut Xorshift, state: &State) -> Command {
    match random.below(3) {
        0 => Command::Take {
            processor: no_processor(random, &state.control.setup),
            size: 0,
        },
        1 => Command::Take {
            processor: 1,
            size: random.pick(&[2049, 65535]),
        },
        _ => Command::NamedTake {
            processor: 1,
            name: taken_name(random, &state.control.names),
            size: 0,
        },
    }
}

/// A processor out of range.
fn no_processor(random: &mut Xorshift, setup: &Setup) -> u8 {
    random.pick(&[0, setup.processors + 1])
}

/// A name that no take can bind.
fn taken_name(random: &mut Xorshift, names: &Names) -> u16 {
    let high = random.pick(&[1024, 65535]);
    let held = held_name(random, names).unwrap_or(high);
    random.pick(&[held, held, high])
}

/// Leaves superblock 0 alone, which is partly live and not of class 0, and its
/// names and rank: no place offers another class a superblock.
fn leave_superblock_0(state: &mut State) {
    state.control.setup.superblocks = 1;
    state.superblocks[1..].fill(Superblock::UNUSED);
    state.superblocks[0].rank = state.superblocks[0].rank.min(1);
    for number in &mut state.control.names.0 {
        if usize::from(*number) >= ORDER_PLACES {
            *number = NOT_HELD;
        }
    }
}

/// A sound state around class 0. In one case of three live blocks hold every
/// superblock, so that a take that finds no free block of class 0 is refused.
fn zero(random: &mut Xorshift) -> CallInput {
    let most_superblocks = random.pick(&[2, 6, 64]);
    let setup = setup_in_limits(random, 4, most_superblocks);
    let mut table = Table::new(setup, random);
    let held = random.chance(1, 3);
    let of_class_0 = random.pick(&[0, 3, 8]);
    for number in 0..setup.superblocks.into() {
        if !held && random.chance(1, 4) {
            continue;
        }
        let class = if random.chance(of_class_0, 10) {
            0
        } else {
            random.byte_between(1, 26)
        };
        let blocks = SIZE_CLASSES[usize::from(class)].blocks;
        let fewest = u32::from(held);
        let any = random.between(fewest, blocks);
        let live = random.pick(&[fewest, blocks - 1, blocks, blocks, any, any]);
        let owner = random.byte_between(0, setup.processors);
        table.own(number, owner, class, live, random);
    }
    table.restore_invariants();
    table.name_some_blocks(random);
    table.rank_some_superblocks(random);
    let mut input = table.with_call(random);
    input.call = take_of_zero(random, &setup);
    input
}

/// Mostly a take of size 0, one in six with a processor out of range.
fn take_of_zero(random: &mut Xorshift, setup: &Setup) -> Command {
    Command::Take {
        processor: any_processor(random, setup.processors, 6),
        size: zero_or_beside(random),
    }
}

/// Such a take on a state of any other kind, with any storage.
fn zero_damaged(random: &mut Xorshift) -> CallInput {
    let kind = random.pick(&KINDS[..Kind::Zero as usize]).1;
    let mut input = make_input(kind, random);
    input.order.truncate(MOST_PLACES);
    input.call = take_of_zero(random, &input.state.control.setup);
    if random.chance(1, 8) {
        loosen_runs(random, &mut input.state);
    }
    input
}

/// A take or free by name on a sound state with many names, in one case of six with
/// all of them held.
fn named(random: &mut Xorshift) -> CallInput {
    let mut table = match random.below(4) {
        0 => crowded(random),
        _ => {
            // With few superblocks there is often none left for a take.
            let most_superblocks = random.pick(&[3, 64]);
            let setup = setup_in_limits(random, 8, most_superblocks);
            scatter(random, setup, setup.superblocks)
        }
    };
    table.restore_invariants();
    let most = random.pick(&[30, NAMES, NAMES]);
    table.name_blocks(most, random);
    table.rank_some_superblocks(random);
    let mut input = table.with_call(random);
    input.call = named_call(random, &input.state, 6);
    input
}

/// Live blocks for every name: 18 superblocks or more of small blocks, nearly full.
pub(crate) fn crowded(random: &mut Xorshift) -> Table {
    let mut setup = setup_in_limits(random, 8, 64);
    setup.superblocks = setup.superblocks.max(18);
    let mut table = Table::new(setup, random);
    for number in 0..usize::from(setup.superblocks) {
        let class = random.byte_between(0, 6);
        let blocks = SIZE_CLASSES[usize::from(class)].blocks;
        let live = random.between(blocks * 9 / 10, blocks);
        let owner = random.byte_between(1, setup.processors);
        table.own(number, owner, class, live, random);
    }
    table
}

/// Gives most of the superblocks of a setup to heaps, of two classes and mostly with
/// the same number of blocks live for each. Few or many are of the global heap.
pub(crate) fn equal_superblocks(random: &mut Xorshift, setup: Setup, owned_of_ten: u32) -> Table {
    let mut table = Table::new(setup, random);
    let levels = [0, 0].map(|_| {
        let class = random.byte_between(0, 26);
        let blocks = SIZE_CLASSES[usize::from(class)].blocks;
        let of_global = random.below(most_live_of_global(&setup, class) + 1);
        (class, random.pick(&[0, of_global, of_global, blocks - 1]))
    });
    let global_of_ten = random.pick(&[1, 5, 9]);
    let other_of_ten = random.pick(&[0, 1, 3]);
    for number in 0..usize::from(setup.superblocks) {
        if !random.chance(owned_of_ten, 10) {
            continue;
        }
        let (class, level) = random.pick(&levels);
        let live = match random.chance(other_of_ten, 10) {
            true => random.below(SIZE_CLASSES[usize::from(class)].blocks + 1),
            false => level,
        };
        let owner = match random.chance(global_of_ten, 10) {
            true => GLOBAL_HEAP,
            false => random.byte_between(1, setup.processors),
        };
        table.own(number, owner, class, live, random);
    }
    table.restore_invariants();
    table.name_some_blocks(random);
    table
}

/// A call on a sound state with many equals, four in five a take of a class that it
/// has, half of these by name.
fn equals(random: &mut Xorshift) -> CallInput {
    let most_superblocks = random.pick(&[8, 24, 64]);
    let setup = Setup {
        spare: random.pick(&[1, 3, 16]),
        ..setup_in_limits(random, 3, most_superblocks)
    };
    let mut table = equal_superblocks(random, setup, 9);
    table.rank_some_superblocks(random);
    let owned = owned_numbers(&table.state);
    let mut input = table.with_call(random);
    if owned.is_empty() || random.chance(1, 5) {
        return input;
    }
    let class = input.state.superblocks[random.pick(&owned)].class;
    let processor = random.byte_between(1, setup.processors);
    let size = size_of_class(random, class);
    input.call = match available_name(random, &input.state.control.names) {
        Some(name) if random.chance(1, 2) => Command::NamedTake {
            processor,
            name,
            size,
        },
        _ => Command::Take { processor, size },
    };
    input
}

/// A sound state with all 64 superblocks owned and ranked.
fn all_ranked(random: &mut Xorshift) -> Table {
    let setup = Setup {
        superblocks: SUPERBLOCKS as u8,
        ..setup_in_limits(random, 8, 64)
    };
    let mut table = equal_superblocks(random, setup, 10);
    rank_any(random, &mut table.state, SUPERBLOCKS);
    table
}

/// A sound state but for its ranks, which may be of all 64 superblocks where none has
/// to be unused.
fn wrong_ranks(kind: Kind, random: &mut Xorshift) -> CallInput {
    let table = match kind {
        Kind::RankUnused => owned_and_unused(random, 8),
        _ if random.chance(1, 3) => all_ranked(random),
        _ => with_three_owned(random),
    };
    let mut input = table.with_call(random);
    break_ranks(kind, random, &mut input.state);
    input
}

/// A sound state with three owned superblocks or more.
fn with_three_owned(random: &mut Xorshift) -> Table {
    loop {
        let table = owned_and_unused(random, 8);
        if owned_numbers(&table.state).len() >= 3 {
            return table;
        }
    }
}

/// Cuts the bytes, adds to them, or changes the call kind or the number of places.
fn spoil_length(random: &mut Xorshift, bytes: &mut Vec<u8>) {
    match random.below(5) {
        0 => bytes.truncate(random.below(bytes.len() as u32) as usize),
        1 => {
            bytes.pop();
        }
        2 => bytes.push(random.byte()),
        3 => bytes[0] = unknown_call(random),
        _ => bytes.truncate(random.below(5100) as usize),
    }
}
