//! Addresses for generated drops: of many heaps and classes or of one, of a whole
//! superblock, of named blocks, and lists that are refused.

use hoard::{runs, BlockId, State, GLOBAL_HEAP, SUPERBLOCK_BYTES, UNUSED_OWNER};

use crate::long_blocks::inner_address;
use crate::make_record::any_processor;
use crate::rank_faults::owned_numbers;
use crate::table::owned_blocks;
use crate::xorshift::Xorshift;

/// Processor and addresses of a drop for a state, at most so many: mostly of live
/// blocks, one in three with an address that is refused, at times of none.
pub fn any_drop(random: &mut Xorshift, state: &State, most: usize) -> (u8, Vec<u32>) {
    let processors = state.control.setup.processors;
    if random.chance(1, 14) {
        return (any_processor(random, processors, 2), Vec::new());
    }
    let mut addresses = live_to_drop(random, state, most);
    if addresses.is_empty() || random.chance(1, 3) {
        spoil_addresses(random, state, &mut addresses, most);
    }
    (any_processor(random, processors, 12), addresses)
}

/// Addresses of live blocks, each once and at most so many.
pub fn live_to_drop(random: &mut Xorshift, state: &State, most: usize) -> Vec<u32> {
    let mut blocks = blocks_together(random, state);
    if random.chance(2, 3) {
        random.shuffle(&mut blocks);
    }
    let count = count_to_drop(random, blocks.len());
    blocks.truncate(count.min(most));
    addresses_of(state, &blocks)
}

fn addresses_of(state: &State, blocks: &[BlockId]) -> Vec<u32> {
    let addresses = blocks.iter().map(|&block| state.address_of(block));
    addresses.collect()
}

/// Live blocks that are dropped together: those of a superblock, of a heap, of a heap
/// and class, of the global heap, also with another heap's, the named ones, one of each
/// superblock, all but one of each, or any.
fn blocks_together(random: &mut Xorshift, state: &State) -> Vec<BlockId> {
    let all = owned_blocks(state, true);
    if all.is_empty() {
        return all;
    }
    let one = random.pick(&all);
    let model = state.superblocks[one.superblock];
    let owner_of = |block: &BlockId| state.superblocks[block.superblock].owner;
    let class_of = |block: &BlockId| state.superblocks[block.superblock].class;
    let mut blocks = all.clone();
    match random.below(11) {
        0 | 1 => blocks.retain(|block| block.superblock == one.superblock),
        2 => blocks.retain(|block| owner_of(block) == model.owner),
        3 | 4 => {
            blocks.retain(|block| owner_of(block) == model.owner && class_of(block) == model.class)
        }
        5 => blocks.retain(|block| owner_of(block) == GLOBAL_HEAP),
        6 => {
            let named: Vec<BlockId> = state.control.names.held().map(|held| held.1).collect();
            blocks.retain(|block| named.contains(block));
        }
        7 => blocks.retain(|block| [GLOBAL_HEAP, model.owner].contains(&owner_of(block))),
        8 => blocks = one_of_each(random, blocks),
        9 => {
            let kept = one_of_each(random, blocks.clone());
            blocks.retain(|block| !kept.contains(block) && owner_of(block) == model.owner);
        }
        _ => {}
    }
    if blocks.is_empty() {
        return all;
    }
    blocks
}

/// Addresses of the live blocks of a heap and class, but for one of each superblock.
pub fn all_but_one_of_each(random: &mut Xorshift, state: &State, heap: u8, class: u8) -> Vec<u32> {
    let mut blocks = owned_blocks(state, true);
    blocks.retain(|block| {
        let superblock = &state.superblocks[block.superblock];
        superblock.owner == heap && superblock.class == class
    });
    let kept = one_of_each(random, blocks.clone());
    blocks.retain(|block| !kept.contains(block));
    random.shuffle(&mut blocks);
    addresses_of(state, &blocks)
}

/// Addresses of some live blocks of the global heap and of so many of other heaps, in any
/// order.
pub fn of_global_heap(random: &mut Xorshift, state: &State, others: u32) -> Vec<u32> {
    let mut blocks = owned_blocks(state, true);
    random.shuffle(&mut blocks);
    let is_global = |block: &BlockId| state.superblocks[block.superblock].owner == GLOBAL_HEAP;
    let (mut global, mut rest): (Vec<_>, Vec<_>) = blocks.into_iter().partition(is_global);
    global.truncate(random.between(1, 12) as usize);
    rest.truncate(others as usize);
    global.append(&mut rest);
    random.shuffle(&mut global);
    addresses_of(state, &global)
}

/// Any one block of each superblock.
fn one_of_each(random: &mut Xorshift, mut blocks: Vec<BlockId>) -> Vec<BlockId> {
    random.shuffle(&mut blocks);
    blocks.sort_by_key(|block| block.superblock);
    blocks.dedup_by_key(|block| block.superblock);
    blocks
}

/// How many of so many blocks to drop: all, all but one, a few, or around the most that
/// a record can count.
fn count_to_drop(random: &mut Xorshift, blocks: usize) -> usize {
    let any = random.below(blocks as u32 + 1) as usize;
    let few = random.between(4, 40) as usize;
    let count = match random.below(6) {
        0 => random.pick(&[1, 2, 3]),
        1 => few,
        2 => any,
        3 if blocks < 254 => blocks.saturating_sub(1),
        3 => random.pick(&[254, 255, 256, 300]),
        _ => blocks,
    };
    count.clamp(1, blocks.max(1))
}

/// Makes the list one that is refused, with no more than so many addresses: one of them
/// twice, or a bad one first, last or between, at times several.
pub fn spoil_addresses(
    random: &mut Xorshift,
    state: &State,
    addresses: &mut Vec<u32>,
    most: usize,
) {
    loop {
        addresses.truncate(most - 1);
        let address = match random.below(3) {
            0 if !addresses.is_empty() => random.pick(addresses),
            _ => bad_address(random, state),
        };
        let last = addresses.len();
        let any = random.below(last as u32 + 1) as usize;
        addresses.insert(random.pick(&[0, last, any]), address);
        if random.chance(3, 4) {
            return;
        }
    }
}

/// An address that a free refuses with 5, 6 or 7, each as often where the state has all
/// three.
fn bad_address(random: &mut Xorshift, state: &State) -> u32 {
    let free = owned_blocks(state, false);
    match random.below(3) {
        0 if !free.is_empty() => state.address_of(random.pick(&free)),
        1 => misaligned_address(random, state).unwrap_or(u32::MAX),
        _ => unmapped_address(random, state),
    }
}

/// An address inside a block, or past the last block of a superblock. Where there are
/// runs, one in two is inside a run.
fn misaligned_address(random: &mut Xorshift, state: &State) -> Option<u32> {
    let has_run = runs(&state.superblocks).next().is_some();
    if has_run && random.chance(1, 2) {
        return inner_address(random, state);
    }
    let owned = owned_numbers(state).into_iter();
    let known = owned.filter(|&number| state.superblocks[number].class < 27);
    let known: Vec<usize> = known.collect();
    if known.is_empty() {
        return None;
    }
    let number = random.pick(&known);
    let class = state.superblocks[number].size_class();
    let inside = random.below(class.blocks) * class.block_size + random.pick(&[1, 8]);
    let offset = match class.blocks * class.block_size {
        SUPERBLOCK_BYTES => inside,
        tail => random.pick(&[inside, tail]),
    };
    Some(number as u32 * SUPERBLOCK_BYTES + offset)
}

/// An address in an unused superblock or past the last one of the setup.
fn unmapped_address(random: &mut Xorshift, state: &State) -> u32 {
    let superblocks = usize::from(state.control.setup.superblocks);
    let end = superblocks as u32 * SUPERBLOCK_BYTES;
    let numbers = (0..superblocks.min(state.superblocks.len())).rev();
    let mut unused = numbers.filter(|&number| state.superblocks[number].owner == UNUSED_OWNER);
    let offset = random.pick(&[0, 0, 1, 16]);
    match unused.next() {
        Some(number) if random.chance(1, 2) => number as u32 * SUPERBLOCK_BYTES + offset,
        _ => random.pick(&[end, end + offset, u32::MAX]),
    }
}
