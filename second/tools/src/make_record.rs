//! Random records, the same on every run for a kind, seed and length.

use hoard::{
    read_command, write_command, Command, Outcome, Setup, Superblock, DROP_BYTE, LONGEST_RECORD,
    SIZE_CLASSES, SUPERBLOCK_BYTES,
};

use crate::drop_records::{
    drop_edges, drops, garbage_drops, longest_drops, many_drops, truncated_drops,
};
use crate::long_records::{long, long_edges, many_long};
use crate::naming::{
    available_name, edge_name, free_of_live, held_name, name_to_bind, name_to_free,
};
use crate::run::{PickFrom, Run};
use crate::xorshift::Xorshift;

/// The last command byte of garbage. It was the first unknown one once and has stayed,
/// so that the bytes do; the garbage of drops goes one further.
const STRAY_BYTE: u8 = DROP_BYTE;

/// Of 100 calls, how many are by name in records that have other aims.
const NAMED_SHARES: [u32; 3] = [0, 30, 70];

/// Kinds of records.
#[derive(Clone, Copy, Debug, PartialEq, Eq)]
pub enum Kind {
    /// Any setup, takes and frees of any size and processor, a few wrong ones.
    Uniform,
    /// A heap and class filled and mostly freed around its emptiness threshold.
    Threshold,
    /// Few superblocks, so that often none is left.
    Small,
    /// Eight processors and all classes.
    Many,
    /// As long as a record may be: 60000 bytes.
    Longest,
    /// A valid record truncated at any byte.
    Truncated,
    /// Random bytes, random commands, or a sound record with damaged bytes.
    Garbage,
    /// Sizes, addresses, processors and setups at and past each limit.
    Edges,
    /// Size 0 beside 1, 16 and 17, and often no superblock left for it.
    Zero,
    /// Names held, freed either way and used again, or refused.
    Names,
    /// Eight processors and all classes, with several hundred names held.
    ManyNamed,
    /// Many superblocks of a class equally full, freed into in a mixed order.
    Equals,
    /// Blocks dropped together: of one heap and class or many, named, twice, or beside
    /// bad addresses.
    Drops,
    /// As edges, with drops at and past each limit.
    DropEdges,
    /// A record with drops truncated at any byte, often inside a drop.
    DropTruncated,
    /// Random commands or damaged bytes, with drops.
    DropGarbage,
    /// 60000 bytes, with drops.
    DropLongest,
    /// Eight processors and all classes, most frees in drops.
    ManyDrops,
    /// Long blocks in gaps of every length, over superblocks of the global heap, freed
    /// in every way.
    Long,
    /// As edges, with long blocks at and past each limit.
    LongEdges,
    /// Eight processors and all classes, with long blocks.
    ManyLong,
}

/// Every kind with its name.
pub const KINDS: [(&str, Kind); 21] = [
    ("uniform", Kind::Uniform),
    ("threshold", Kind::Threshold),
    ("small", Kind::Small),
    ("many", Kind::Many),
    ("longest", Kind::Longest),
    ("truncated", Kind::Truncated),
    ("garbage", Kind::Garbage),
    ("edges", Kind::Edges),
    ("zero", Kind::Zero),
    ("names", Kind::Names),
    ("many-named", Kind::ManyNamed),
    ("equals", Kind::Equals),
    ("drops", Kind::Drops),
    ("drop-edges", Kind::DropEdges),
    ("drop-truncated", Kind::DropTruncated),
    ("drop-garbage", Kind::DropGarbage),
    ("drop-longest", Kind::DropLongest),
    ("many-drops", Kind::ManyDrops),
    ("long", Kind::Long),
    ("long-edges", Kind::LongEdges),
    ("many-long", Kind::ManyLong),
];

/// The kind of a name.
pub fn kind_of_name(name: &str) -> Option<Kind> {
    KINDS.iter().find(|kind| kind.0 == name).map(|kind| kind.1)
}

/// Makes a record of `length` calls or so (a longest one has its own length).
pub fn make_record(kind: Kind, seed: u64, length: usize) -> Vec<u8> {
    let random = &mut Xorshift::new(kind as u64 + 1, seed);
    match kind {
        Kind::Uniform => uniform(random, length).record,
        Kind::Threshold => threshold(random, length).record,
        Kind::Small => small(random, length).record,
        Kind::Many => many(random, length, &FIRST_VERSION).record,
        Kind::Longest => longest(random),
        Kind::Truncated => truncated(random, length),
        Kind::Garbage => garbage(random, length),
        Kind::Edges => edges(random, length).record,
        Kind::Zero => zero(random, length).record,
        Kind::Names => names(random, length).record,
        Kind::ManyNamed => many(random, length, &MOSTLY_NAMED).record,
        Kind::Equals => equals(random, length).record,
        Kind::Drops => drops(random, length).record,
        Kind::DropEdges => drop_edges(random, length).record,
        Kind::DropTruncated => truncated_drops(random, length),
        Kind::DropGarbage => garbage_drops(random, length),
        Kind::DropLongest => longest_drops(random),
        Kind::ManyDrops => many_drops(random, length).record,
        Kind::Long => long(random, length).record,
        Kind::LongEdges => long_edges(random, length).record,
        Kind::ManyLong => many_long(random, length).record,
    }
}

/// A run of one of the sound kinds, for the state at its end.
pub fn any_run(random: &mut Xorshift, length: usize) -> Run {
    match random.below(6) {
        0 => uniform(random, length),
        1 => threshold(random, length),
        2 => small(random, length),
        3 => zero(random, length),
        4 => names(random, length),
        _ => many(random, length, &HALF_NAMED),
    }
}

/// A setup within limits with at most so many processors and superblocks.
pub fn setup_in_limits(random: &mut Xorshift, most_processors: u8, most_superblocks: u8) -> Setup {
    let q = random.byte_between(2, 8);
    Setup {
        processors: random.byte_between(1, most_processors),
        superblocks: random.byte_between(1, most_superblocks),
        spare: random.pick(&[1, 1, 1, 2, 3, 16]),
        p: random.byte_between(1, q - 1),
        q,
    }
}

/// The same with few spare superblocks and a fraction of at most a half, so that
/// heaps give up superblocks early.
pub(crate) fn setup_with_early_moves(
    random: &mut Xorshift,
    most_processors: u8,
    most_superblocks: u8,
) -> Setup {
    let q = random.byte_between(2, 8);
    Setup {
        spare: random.pick(&[1, 1, 1, 2]),
        p: random.byte_between(1, q / 2),
        q,
        ..setup_in_limits(random, most_processors, most_superblocks)
    }
}

/// A setup of eight processors and many superblocks.
pub(crate) fn setup_of_many(random: &mut Xorshift) -> Setup {
    Setup {
        processors: 8,
        superblocks: random.byte_between(40, 64),
        ..setup_in_limits(random, 8, 64)
    }
}

/// A size of a class, from the smallest above 0 to the block size.
pub fn size_of_class(random: &mut Xorshift, class: u8) -> u16 {
    let class = usize::from(class);
    let smallest = match class {
        0 => 1,
        _ => SIZE_CLASSES[class - 1].block_size + 1,
    };
    random.between(smallest, SIZE_CLASSES[class].block_size) as u16
}

/// A size of a class, for class 0 in half of all cases 0.
pub fn size_or_zero(random: &mut Xorshift, class: u8) -> u16 {
    if class == 0 && random.chance(1, 2) {
        return 0;
    }
    size_of_class(random, class)
}

/// In half of all cases 0, else a size beside it: of class 0, which they share,
/// or 17.
pub fn zero_or_beside(random: &mut Xorshift) -> u16 {
    let of_class_0 = size_of_class(random, 0);
    random.pick(&[0, 0, 0, 0, 1, 16, 17, of_class_0])
}

/// A processor, one in `whole` out of range.
pub fn any_processor(random: &mut Xorshift, processors: u8, whole: u32) -> u8 {
    match random.below(whole) {
        0 => random.pick(&[0, processors.wrapping_add(1), 255]),
        _ => random.byte_between(1, processors.max(1)),
    }
}

/// A call that is likely to be refused.
pub fn odd_call(random: &mut Xorshift, run: &mut Run) {
    if run.is_next_named(random) {
        return odd_named_call(random, run);
    }
    let processor = any_processor(random, run.state.control.setup.processors, 3);
    if random.chance(1, 3) {
        let size = random.pick(&[0, 1, 16, 17, 2048, 2049, 4096, 32768, 65535]);
        run.take(processor, size);
    } else {
        let address = odd_address(random, run);
        run.free(processor, address);
    }
}

/// A call by name that is likely to be refused.
fn odd_named_call(random: &mut Xorshift, run: &mut Run) {
    let processor = any_processor(random, run.state.control.setup.processors, 3);
    let names = &run.state.control.names;
    let edge = edge_name(random);
    let available = available_name(random, names).unwrap_or(edge);
    if random.chance(1, 2) {
        let held = held_name(random, names).unwrap_or(edge);
        let name = random.pick(&[held, edge, available]);
        let size = random.pick(&[0, 16, 2048, 2049, 65535]);
        run.take_named(processor, name, size);
    } else {
        run.free_named(processor, random.pick(&[edge, available]));
    }
}

/// An address that is likely to be unmapped, misaligned or not live.
pub(crate) fn odd_address(random: &mut Xorshift, run: &Run) -> u32 {
    let end = u32::from(run.state.control.setup.superblocks) * SUPERBLOCK_BYTES;
    let near = run.any_live(random).unwrap_or(0);
    match random.below(8) {
        0 => random.word(),
        1 => end,
        2 => end.wrapping_sub(1),
        3 => end + random.below(SUPERBLOCK_BYTES),
        4 => near + 1,
        5 => near.wrapping_sub(1),
        6 => near + random.pick(&[8, 16, 24, 32, 2048, 4096]),
        _ => random.below(end.max(1)),
    }
}

/// A take or a free, `takes` of 100 being takes, a few odd calls among them.
pub(crate) fn mixed_call(random: &mut Xorshift, run: &mut Run, takes: u32, classes: (u8, u8)) {
    if random.chance(1, 25) {
        return odd_call(random, run);
    }
    let processor = random.byte_between(1, run.state.control.setup.processors);
    match run.any_live(random) {
        Some(address) if !random.chance(takes, 100) => {
            run.free_either_way(random, processor, address)
        }
        _ => {
            let class = random.byte_between(classes.0, classes.1);
            let size = size_of_class(random, class);
            run.take_either_way(random, processor, size)
        }
    };
}

/// A mixed call, or one time in eight a take of size 0 or of a size beside it.
fn mixed_or_zero_call(random: &mut Xorshift, run: &mut Run, takes: u32, classes: (u8, u8)) {
    if random.chance(1, 8) {
        let processor = random.byte_between(1, run.state.control.setup.processors);
        let size = zero_or_beside(random);
        run.take_either_way(random, processor, size);
    } else {
        mixed_call(random, run, takes, classes);
    }
}

fn uniform(random: &mut Xorshift, length: usize) -> Run {
    let mut run = Run::new(setup_in_limits(random, 8, 64));
    run.named = random.pick(&NAMED_SHARES);
    let takes = random.between(40, 75);
    while run.calls < length && run.has_room() {
        mixed_or_zero_call(random, &mut run, takes, (0, 26));
    }
    run
}

fn small(random: &mut Xorshift, length: usize) -> Run {
    let mut run = Run::new(setup_in_limits(random, 3, 4));
    run.named = random.pick(&NAMED_SHARES);
    let takes = random.between(45, 65);
    while run.calls < length && run.has_room() {
        mixed_or_zero_call(random, &mut run, takes, (16, 26));
    }
    run
}

/// How a record of many heaps and classes makes its calls.
struct Style {
    refuses_zero: bool,
    /// Of 100 calls, how many are by name.
    named: u32,
    /// It begins with blocks for as many names, and grows while fewer are held.
    fewest_names: usize,
}

/// Figures of several versions are taken with these records: their bytes stay those
/// of the time when size 0 was refused and there were no names.
const FIRST_VERSION: Style = Style {
    refuses_zero: true,
    named: 0,
    fewest_names: 0,
};

const HALF_NAMED: Style = Style {
    refuses_zero: false,
    named: 50,
    fewest_names: 0,
};

const MOSTLY_NAMED: Style = Style {
    refuses_zero: false,
    named: 90,
    fewest_names: 400,
};

fn many(random: &mut Xorshift, length: usize, style: &Style) -> Run {
    let mut run = Run::new(setup_of_many(random));
    run.refuses_zero = style.refuses_zero;
    run.named = style.named;
    if style.fewest_names > 0 {
        fill_each_heap(random, &mut run, length);
    }
    while run.calls < length && run.has_room() {
        // Stretches that grow and stretches that shrink.
        let mut takes = random.pick(&[30, 50, 70, 90]);
        if run.state.control.names.held().count() < style.fewest_names {
            takes = 97;
        }
        for _ in 0..random.between(20, 120) {
            if run.calls < length && run.has_room() {
                mixed_call(random, &mut run, takes, (0, 26));
            }
        }
    }
    run
}

/// Takes a superblock's worth of small blocks for each heap, some hundred in all.
fn fill_each_heap(random: &mut Xorshift, run: &mut Run, length: usize) {
    for heap in 1..=run.state.control.setup.processors {
        let class = random.byte_between(4, 10);
        fill(random, run, heap, class, 1, length);
    }
}

/// Fills a heap and class, then frees most of it, below its threshold, again and again.
fn threshold(random: &mut Xorshift, length: usize) -> Run {
    let q = random.pick(&[8, 8, 8, 7, 5, 4, 3, 2]);
    let setup = Setup {
        processors: random.byte_between(1, 3),
        superblocks: random.byte_between(8, 40),
        spare: random.pick(&[1, 1, 2]),
        p: random.byte_between(1, q - 1),
        q,
    };
    let mut run = Run::new(setup);
    run.named = random.pick(&NAMED_SHARES);
    let classes = [random.byte_between(11, 26), random.byte_between(15, 26)];
    while run.calls < length && run.has_room() {
        let heap = random.byte_between(1, setup.processors);
        let class = random.pick(&classes);
        fill(random, &mut run, heap, class, 16, length);
        let left = random.below(8) as usize;
        free_down_to(random, &mut run, heap, class, left, length);
    }
    run
}

/// Takes the blocks of one superblock or more, up to `most`.
pub(crate) fn fill(
    random: &mut Xorshift,
    run: &mut Run,
    heap: u8,
    class: u8,
    most: u32,
    length: usize,
) {
    let blocks = SIZE_CLASSES[usize::from(class)].blocks;
    for _ in 0..random.between(blocks, most * blocks) {
        if run.calls < length && run.has_room() {
            let size = size_of_class(random, class);
            run.take_either_way(random, heap, size);
        }
    }
}

/// Frees blocks of a heap and class until so many of all blocks are left live.
/// Freeing from the fullest keeps the superblocks level, so that one free may move
/// several of them.
pub(crate) fn free_down_to(
    random: &mut Xorshift,
    run: &mut Run,
    heap: u8,
    class: u8,
    left: usize,
    length: usize,
) {
    let from = random.pick(&[PickFrom::Emptiest, PickFrom::Fullest, PickFrom::Any]);
    while run.calls < length && run.has_room() && run.live.len() > left {
        let Some(address) = run.live_of(heap, class, from, random) else {
            return;
        };
        let processor = random.byte_between(1, run.state.control.setup.processors);
        run.free_either_way(random, processor, address);
        if random.chance(1, 12) && run.has_room() {
            let size = size_or_zero(random, class);
            run.take_either_way(random, heap, size);
        }
    }
}

/// A record of 60000 bytes: calls until 6, 8 or 10 bytes are left, then the one
/// or two commands that fill these.
fn longest(random: &mut Xorshift) -> Vec<u8> {
    let mut run = Run::new(setup_in_limits(random, 8, 64));
    run.named = random.pick(&NAMED_SHARES);
    let takes = random.between(48, 60);
    let lowest = random.pick(&[0, 8, 16]);
    while run.record.len() + 12 <= LONGEST_RECORD {
        mixed_or_zero_call(random, &mut run, takes, (lowest, 26));
    }
    let left = LONGEST_RECORD - run.record.len();
    if left != 6 {
        run.take(1, 16);
    }
    match left {
        8 => run.free_named(1, 0),
        10 => run.take_named(1, 0, 16),
        _ => run.free(1, 0),
    };
    run.record
}

fn truncated(random: &mut Xorshift, length: usize) -> Vec<u8> {
    let mut record = any_run(random, length).record;
    let end = random.below(record.len() as u32 + 1);
    record.truncate(end as usize);
    record
}

fn garbage(random: &mut Xorshift, length: usize) -> Vec<u8> {
    match random.below(3) {
        0 => (0..4 * length).map(|_| random.byte()).collect(),
        1 => random_commands(random, length),
        _ => damaged(random, length),
    }
}

fn random_commands(random: &mut Xorshift, length: usize) -> Vec<u8> {
    commands_made_by(random, length, STRAY_BYTE, random_command)
}

/// A setup and commands for a processor each, and now and then a stray command byte up to
/// the last one given.
pub(crate) fn commands_made_by(
    random: &mut Xorshift,
    length: usize,
    last_byte: u8,
    make: impl Fn(&mut Xorshift, u8) -> Command,
) -> Vec<u8> {
    let setup = setup_in_limits(random, 8, 64);
    let mut record = Vec::new();
    write_command(&mut record, &Command::Setup(setup));
    for _ in 0..length {
        let processor = random.byte_between(0, setup.processors + 1);
        let command = make(random, processor);
        write_command(&mut record, &command);
        if random.chance(1, 100) {
            record.push(random.byte_between(0, last_byte));
        }
    }
    record
}

/// A command with random numbers; few names, so that some are held.
pub(crate) fn random_command(random: &mut Xorshift, processor: u8) -> Command {
    let name = match random.below(4) {
        0 => edge_name(random),
        _ => random.below(12) as u16,
    };
    let size = match random.below(4) {
        0 => zero_or_beside(random),
        _ => random.below(2200) as u16,
    };
    match random.below(4) {
        0 => Command::Take { processor, size },
        1 => Command::Free {
            processor,
            address: random.below(66) * SUPERBLOCK_BYTES + random.below(8) * 16,
        },
        2 => Command::NamedTake {
            processor,
            name,
            size,
        },
        _ => Command::NamedFree { processor, name },
    }
}

/// A sound record with one to four bytes changed, command bytes more often.
fn damaged(random: &mut Xorshift, length: usize) -> Vec<u8> {
    let mut record = any_run(random, length).record;
    let starts = command_starts(&record);
    for _ in 0..random.between(1, 4) {
        let (at, byte) = match random.below(2) {
            0 => (random.below(record.len() as u32) as usize, random.byte()),
            _ => (random.pick(&starts), random.byte_between(0, STRAY_BYTE)),
        };
        record[at] = byte;
    }
    record
}

/// The byte offsets of the commands of a sound record.
pub(crate) fn command_starts(record: &[u8]) -> Vec<usize> {
    let mut starts = Vec::new();
    let mut offset = 0;
    while let Ok((_, next_offset)) = read_command(record, offset) {
        starts.push(offset);
        offset = next_offset;
    }
    starts
}

/// A setup at its limits, in one of three cases with one number past them.
pub fn edge_setup(random: &mut Xorshift) -> Setup {
    let q = random.pick(&[2, 3, 8]);
    let mut setup = Setup {
        processors: random.pick(&[1, 8]),
        superblocks: random.pick(&[1, 2, 63, 64]),
        spare: random.pick(&[1, 16]),
        p: random.pick(&[1, q - 1]),
        q,
    };
    if random.chance(1, 3) {
        match random.below(5) {
            0 => setup.processors = random.pick(&[0, 9, 255]),
            1 => setup.superblocks = random.pick(&[0, 65, 255]),
            2 => setup.spare = random.pick(&[0, 17, 255]),
            3 => setup.p = random.pick(&[0, setup.q, setup.q + 1, 255]),
            _ => setup.q = random.pick(&[0, 1, 9, 255]),
        }
    }
    setup
}

/// Sizes at class limits, wrong processors, addresses and names around every limit,
/// and double frees.
fn edges(random: &mut Xorshift, length: usize) -> Run {
    let mut run = Run::new(edge_setup(random));
    run.named = 40;
    let processors = run.state.control.setup.processors.max(1);
    while run.calls < length && run.has_room() {
        let processor = random.byte_between(1, processors);
        match random.below(10) {
            0..=3 => {
                let size = edge_size(random);
                run.take_either_way(random, processor, size);
            }
            4..=6 => odd_call(random, &mut run),
            _ => {
                let address = run.any_live(random).unwrap_or(0);
                let free = free_of_live(random, &run.state, processor, address, run.named);
                run.call(free.clone());
                if random.chance(1, 3) && run.has_room() {
                    run.call(free);
                }
            }
        }
    }
    run
}

/// A size at or one past a class limit.
pub(crate) fn edge_size(random: &mut Xorshift) -> u16 {
    let limit = SIZE_CLASSES[random.below(27) as usize].block_size as u16;
    match random.below(4) {
        0 => random.pick(&[limit, limit, limit + 1]),
        _ => random.pick(&[0, 0, 0, 1, 16, 17, 2048, 2049, 65535]),
    }
}

/// Class 0 filled past one superblock, freed and shared by sizes 0, 1 and 16, while
/// large blocks hold other superblocks: size 0 meets each of the four places and
/// refusal 4. At a fraction of at most a half, one block fewer than a superblock
/// holds is enough for a move.
fn zero(random: &mut Xorshift, length: usize) -> Run {
    let most_superblocks = random.pick(&[3, 8, 64, 64]);
    let setup = setup_with_early_moves(random, 3, most_superblocks);
    let mut run = Run::new(setup);
    let processors = setup.processors;
    if random.chance(1, 2) {
        // Heap 0 gets superblocks of another class before any heap has class 0.
        let heap = random.byte_between(1, processors);
        fill(random, &mut run, heap, 26, 16, length);
        free_down_to(random, &mut run, heap, 26, 0, length);
    }
    while run.calls < length && run.has_room() {
        let heap = random.byte_between(1, processors);
        match random.below(2) {
            0 => around_one_superblock(random, &mut run, heap, length),
            _ => zero_stretch(random, &mut run, heap, length),
        }
    }
    run
}

/// Takes blocks of class 0 until a heap has some more than a superblock holds, then
/// frees some, so that a superblock passes to heap 0 and comes back.
fn around_one_superblock(random: &mut Xorshift, run: &mut Run, heap: u8, length: usize) {
    for _ in 0..random.between(2, 6) {
        let most = random.between(257, 280);
        fill_class_0(random, run, heap, most, length);
        let freed = random.between(10, 60) as usize;
        let left = run.live.len().saturating_sub(freed);
        free_down_to(random, run, heap, 0, left, length);
    }
}

/// Takes blocks of class 0 until the heap has so many live, or is refused one, with
/// a call for any processor now and then.
fn fill_class_0(random: &mut Xorshift, run: &mut Run, heap: u8, live: u32, length: usize) {
    while run.live_count_of(heap, 0) < live && run.calls < length && run.has_room() {
        if random.chance(1, 6) {
            let processor = any_processor(random, run.state.control.setup.processors, 3);
            zero_call(random, run, processor, 70, 5);
        } else if let Outcome::Refused(_) = run.take(heap, size_or_zero(random, 0)) {
            return;
        }
    }
}

/// A stretch of calls, most of them for one heap: more takes or more frees, few
/// large blocks or many.
fn zero_stretch(random: &mut Xorshift, run: &mut Run, heap: u8, length: usize) {
    let takes = random.pick(&[30, 60, 85]);
    let large = random.pick(&[0, 10, 50]);
    for _ in 0..random.between(20, 120) {
        if run.calls < length && run.has_room() {
            let processor = match random.below(3) {
                0 => any_processor(random, run.state.control.setup.processors, 3),
                _ => heap,
            };
            zero_call(random, run, processor, takes, large);
        }
    }
}

/// A take or a free, `takes` of 100 being takes, `large` of 100 of these of large
/// blocks. A few have a size or an address at a limit.
fn zero_call(random: &mut Xorshift, run: &mut Run, processor: u8, takes: u32, large: u32) {
    if random.chance(1, 25) {
        return odd_call(random, run);
    }
    match run.any_live(random) {
        Some(address) if !random.chance(takes, 100) => run.free(processor, address),
        _ if random.chance(large, 100) => run.take(processor, random.pick(&[1024, 2048])),
        _ if random.chance(1, 12) => run.take(processor, random.pick(&[2048, 2049, 65535])),
        _ => run.take(processor, zero_or_beside(random)),
    };
}

/// Names taken, held, freed by name and by address and used again, over few
/// superblocks or many.
fn names(random: &mut Xorshift, length: usize) -> Run {
    let most_superblocks = random.pick(&[4, 16, 64, 64]);
    let setup = setup_with_early_moves(random, 4, most_superblocks);
    let mut run = Run::new(setup);
    run.named = 85;
    let classes = [random.byte_between(0, 26), random.byte_between(17, 23)];
    while run.calls < length && run.has_room() {
        let heap = random.byte_between(1, setup.processors);
        match random.below(3) {
            0 => names_to_heap_0(random, &mut run, heap, classes[1], length),
            _ => names_stretch(random, &mut run, heap, &classes, length),
        }
    }
    run
}

/// Fills some superblocks and frees part of their blocks, so that superblocks with
/// named blocks pass to heap 0.
fn names_to_heap_0(random: &mut Xorshift, run: &mut Run, heap: u8, class: u8, length: usize) {
    fill(random, run, heap, class, 5, length);
    let blocks = SIZE_CLASSES[usize::from(class)].blocks;
    let freed = random.between(blocks, 3 * blocks) as usize;
    let left = run.live.len().saturating_sub(freed);
    free_down_to(random, run, heap, class, left, length);
}

/// A stretch of calls, most of them for one heap: more takes or more frees.
fn names_stretch(random: &mut Xorshift, run: &mut Run, heap: u8, classes: &[u8], length: usize) {
    let takes = random.pick(&[30, 50, 70]);
    let mut recent = 0;
    for _ in 0..random.between(10, 40) {
        if run.calls < length && run.has_room() {
            let processor = match random.below(4) {
                0 => any_processor(random, run.state.control.setup.processors, 3),
                _ => heap,
            };
            recent = if random.chance(takes, 100) {
                names_take(random, run, processor, classes, recent)
            } else {
                names_free(random, run, processor, recent)
            };
        }
    }
}

/// A take, three in four by name. Returns the name used last.
fn names_take(
    random: &mut Xorshift,
    run: &mut Run,
    processor: u8,
    classes: &[u8],
    recent: u16,
) -> u16 {
    let size = match random.below(10) {
        0 => random.pick(&[0, 2048, 2049, 65535]),
        _ => {
            let class = random.pick(classes);
            size_or_zero(random, class)
        }
    };
    if random.chance(1, 4) {
        run.take(processor, size);
        return recent;
    }
    let name = match random.below(4) {
        0 => recent,
        _ => name_to_bind(random, &run.state.control.names, 12),
    };
    run.take_named(processor, name, size);
    name
}

/// A free, three in four by name, the others mostly of a named block by its
/// address. Returns the name used last.
fn names_free(random: &mut Xorshift, run: &mut Run, processor: u8, recent: u16) -> u16 {
    let names = &run.state.control.names;
    if random.chance(3, 4) {
        let name = match random.below(4) {
            0 => recent,
            _ => name_to_free(random, names),
        };
        run.free_named(processor, name);
        return name;
    }
    let name = held_name(random, names).filter(|_| random.chance(3, 4));
    let address = match name.and_then(|name| run.address_of_name(name)) {
        Some(address) => address,
        None => run.any_live(random).unwrap_or(0),
    };
    run.free(processor, address);
    name.unwrap_or(recent)
}

/// Superblocks of two classes filled, freed into in a mixed order until many are
/// equally full, in a heap and in heap 0, and taken from again.
pub fn equals(random: &mut Xorshift, length: usize) -> Run {
    let most_superblocks = random.pick(&[12, 24, 64]);
    let mut setup = setup_with_early_moves(random, 4, most_superblocks);
    setup.superblocks = setup.superblocks.max(6);
    if random.chance(2, 5) {
        // Hardly any superblock moves, so that a heap has many.
        setup.spare = 16;
    }
    let mut run = Run::new(setup);
    run.keeps_ranks = true;
    run.named = random.pick(&[0, 60, 90]);
    let classes = [random.byte_between(15, 26), random.byte_between(20, 26)];
    while run.calls < length && run.has_room() {
        let mut heaps: Vec<u8> = (1..=setup.processors).collect();
        random.shuffle(&mut heaps);
        let class = random.pick(&classes);
        match random.below(4) {
            // Fresh heaps have none that would pass before it.
            0 | 1 if run.calls == 0 => pass_unranked(random, &mut run, &heaps, class, length),
            0 => fill(random, &mut run, heaps[0], class, 8, length),
            1 => pass_unranked(random, &mut run, &heaps, class, length),
            _ => level_off(random, &mut run, class, length),
        }
        random.shuffle(&mut heaps);
        for heap in heaps {
            take_from_equals(random, &mut run, heap, class, length);
        }
    }
    run
}

/// For each heap begins to fill a superblock, then for each frees from fuller ones
/// until it is the emptiest and passes to heap 0: it gets there unranked.
fn pass_unranked(random: &mut Xorshift, run: &mut Run, heaps: &[u8], class: u8, length: usize) {
    let mut begun = Vec::new();
    for &heap in heaps {
        fill(random, run, heap, class, 1, length);
        begun.extend(begin_superblock(random, run, heap, class, length));
    }
    for number in begun {
        free_from_fuller(random, run, number, length);
    }
}

/// Takes until a superblock begins to fill.
pub(crate) fn begin_superblock(
    random: &mut Xorshift,
    run: &mut Run,
    heap: u8,
    class: u8,
    length: usize,
) -> Option<usize> {
    while run.calls < length && run.has_room() {
        let size = size_of_class(random, class);
        let Outcome::At(address) = run.take(heap, size) else {
            return None;
        };
        let number = (address / SUPERBLOCK_BYTES) as usize;
        let superblock = &run.state.superblocks[number];
        if superblock.live_count() == 1 && superblock.rank == 0 {
            return Some(number);
        }
    }
    None
}

/// Frees from the fullest superblock of its heap and class until it passes to heap 0
/// or is the fullest itself.
fn free_from_fuller(random: &mut Xorshift, run: &mut Run, begun: usize, length: usize) {
    let Superblock {
        owner: heap, class, ..
    } = run.state.superblocks[begun];
    while run.state.superblocks[begun].owner == heap {
        let address = run.live_of(heap, class, PickFrom::Fullest, random);
        let address = address.filter(|address| address / SUPERBLOCK_BYTES != begun as u32);
        let Some(address) = address.filter(|_| run.calls < length && run.has_room()) else {
            return;
        };
        run.free_either_way(random, heap, address);
    }
}

/// Frees blocks of a class, whichever heaps own them, until no superblock has more
/// than so many live: one superblock after the other, or in any order.
fn level_off(random: &mut Xorshift, run: &mut Run, class: u8, length: usize) {
    let blocks = SIZE_CLASSES[usize::from(class)].blocks;
    let any = random.below(blocks);
    let level = random.pick(&[blocks - 1, any]);
    let mut numbers: Vec<usize> = (0..run.state.superblocks.len()).collect();
    random.shuffle(&mut numbers);
    let mut frees = Vec::new();
    for number in numbers {
        let superblock = &run.state.superblocks[number];
        if superblock.class == class {
            let above = superblock.live_count().saturating_sub(level);
            frees.extend((0..above).map(|_| number));
        }
    }
    if random.chance(1, 2) {
        random.shuffle(&mut frees);
    }
    for number in frees {
        if run.calls < length && run.has_room() {
            let processor = random.byte_between(1, run.state.control.setup.processors);
            let address = run.live_in(number, random);
            run.free_either_way(random, processor, address);
        }
    }
}

/// A few takes for one heap, which often has equals of its own or gets those of heap
/// 0, with a free, a take of any class or an odd call now and then.
fn take_from_equals(random: &mut Xorshift, run: &mut Run, heap: u8, class: u8, length: usize) {
    for _ in 0..random.between(2, 12) {
        if run.calls >= length || !run.has_room() {
            return;
        }
        match (random.below(12), run.any_live(random)) {
            (0, _) => odd_call(random, run),
            (1 | 2, Some(address)) => {
                run.free_either_way(random, heap, address);
            }
            (3, _) => {
                let class = random.byte_between(0, 26);
                let size = size_or_zero(random, class);
                run.take_either_way(random, heap, size);
            }
            _ => {
                let size = size_of_class(random, class);
                run.take_either_way(random, heap, size);
            }
        }
    }
}
