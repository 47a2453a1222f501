//! Sizes and addresses for generated calls of long blocks: runs that just fit, gaps one
//! too short for them, addresses inside runs, and drops of runs beside other blocks.

use hoard::{may_join_run, runs, State, LONGEST_RUN, SUPERBLOCK_BYTES};

use crate::dropping::{live_to_drop, spoil_addresses};
use crate::xorshift::Xorshift;

/// Sizes at the limits of runs, and the largest that is no long block's.
pub const LIMIT_SIZES: [u16; 10] = [
    2048, 2049, 4095, 4096, 4097, 8192, 8193, 61440, 61441, 65535,
];

/// The smallest size whose run is so long.
pub fn smallest_of_run(length: u8) -> u16 {
    match length {
        1 => 2049,
        _ => (u16::from(length) - 1) * SUPERBLOCK_BYTES as u16 + 1,
    }
}

/// The largest size whose run is so long.
pub fn largest_of_run(length: u8) -> u16 {
    (u32::from(length) * SUPERBLOCK_BYTES).min(u16::MAX.into()) as u16
}

/// A size whose run is so long, often at a limit.
pub fn size_of_run(random: &mut Xorshift, length: u8) -> u16 {
    let (smallest, largest) = (smallest_of_run(length), largest_of_run(length));
    let any = random.between(smallest.into(), largest.into()) as u16;
    random.pick(&[smallest, largest, any])
}

/// Lengths of the gaps that runs may have: the stretches of superblocks, as long as can
/// be, that are unused or empty in the global heap.
pub fn gaps(state: &State) -> Vec<usize> {
    let end = usize::from(state.control.setup.superblocks).min(state.superblocks.len());
    let stretches = state.superblocks[..end].split(|it| !may_join_run(it));
    let lengths = stretches.map(|stretch| stretch.len());
    lengths.filter(|&length| length > 0).collect()
}

/// A size for a long take: at a limit, of a run that just fits a gap or is one too long
/// for it, of a short run, or of any.
pub fn long_size(random: &mut Xorshift, state: &State) -> u16 {
    let gaps = gaps(state);
    let length = match random.below(6) {
        0 | 1 => return random.pick(&LIMIT_SIZES),
        2 | 3 if !gaps.is_empty() => {
            let gap = random.pick(&gaps) as u8;
            random.pick(&[gap, gap, gap + 1, gap - 1])
        }
        4 => random.byte_between(1, 3),
        _ => random.byte_between(1, LONGEST_RUN),
    };
    size_of_run(random, length.clamp(1, LONGEST_RUN))
}

/// The addresses at which runs begin.
pub fn starts_of_runs(state: &State) -> Vec<u32> {
    let firsts = runs(&state.superblocks).map(|(first, _)| first as u32);
    firsts.map(|first| first * SUPERBLOCK_BYTES).collect()
}

/// Where a run begins.
pub fn start_of_run(random: &mut Xorshift, state: &State) -> Option<u32> {
    let starts = starts_of_runs(state);
    (!starts.is_empty()).then(|| random.pick(&starts))
}

/// An address inside a run, often where one of its superblocks begins or ends.
pub fn inner_address(random: &mut Xorshift, state: &State) -> Option<u32> {
    let start = start_of_run(random, state)?;
    Some(inner_address_of(random, state, start))
}

/// An address inside the run that begins at an address.
pub fn inner_address_of(random: &mut Xorshift, state: &State, start: u32) -> u32 {
    let first = &state.superblocks[(start / SUPERBLOCK_BYTES) as usize];
    let length = u32::from(first.run_length.max(1));
    let number = random.below(length);
    let offset = match random.below(3) {
        0 => random.pick(&[1, 16, 2048, SUPERBLOCK_BYTES - 1]),
        1 => random.between(1, SUPERBLOCK_BYTES - 1),
        _ if number == 0 => random.pick(&[8, 64]),
        _ => 0,
    };
    start + number * SUPERBLOCK_BYTES + offset
}

/// Addresses of runs and at times of other live blocks, at most so many. One list in two
/// is refused: it has a start twice, an address inside a run before or after its start,
/// or another bad one.
pub fn drop_with_runs(random: &mut Xorshift, state: &State, most: usize) -> Vec<u32> {
    let mut starts = starts_of_runs(state);
    random.shuffle(&mut starts);
    starts.truncate(random.between(1, 6) as usize);
    let mut addresses = match random.below(3) {
        0 => Vec::new(),
        _ => live_to_drop(random, state, most),
    };
    addresses.retain(|address| !starts.contains(address));
    addresses.truncate(most - starts.len() - 1);
    for &start in &starts {
        let at = random.below(addresses.len() as u32 + 1) as usize;
        addresses.insert(at, start);
    }
    if addresses.is_empty() || random.chance(1, 8) {
        spoil_addresses(random, state, &mut addresses, most);
    } else if !starts.is_empty() && random.chance(2, 5) {
        let start = random.pick(&starts);
        list_run_again(random, state, &mut addresses, start);
    }
    addresses
}

/// Lists the start of a run twice, or an address inside it before or after its start, or
/// in place of its start.
fn list_run_again(random: &mut Xorshift, state: &State, addresses: &mut Vec<u32>, start: u32) {
    let inner = inner_address_of(random, state, start);
    let here = addresses.iter().position(|&address| address == start);
    let here = here.expect("a start that is listed");
    let before = random.between(0, here as u32) as usize;
    let after = random.between(here as u32 + 1, addresses.len() as u32) as usize;
    match random.below(4) {
        0 => addresses.insert(after, start),
        1 => addresses.insert(before, inner),
        2 => addresses.insert(after, inner),
        _ => addresses[here] = inner,
    }
}
