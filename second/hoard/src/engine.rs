//! The calls: setup, take and free, the last two also by name, and the drop of many
//! blocks. Those of long blocks are in `runs`.

use crate::check::{check_handed_in, check_setup};
use crate::names::BlockId;
use crate::outcome::{Answer, Outcome, Refusal};
use crate::ranking::{rank_latest, take_out};
use crate::record::Command;
use crate::runs::{release_run, take_run};
use crate::size_class::{class_of_size, SizeClass, SIZE_CLASSES, SUPERBLOCK_BYTES};
use crate::state::{Setup, State, Superblock, GLOBAL_HEAP, ORDER_PLACES, RUN_OWNER, UNUSED_OWNER};
use crate::totals::{Usage, CLASSES, HEAPS};

/// Where a take finds its superblock.
struct Offer {
    number: usize,
    from_own_heap: bool,
}

/// Makes the call that a command asks for.
pub fn run(command: &Command, state: &State, order: &mut [u16]) -> Answer {
    match *command {
        Command::Setup(asked) => setup(asked, order),
        Command::Take { processor, size } => take(state, processor, size, order),
        Command::Free { processor, address } => free(state, processor, address, order),
        Command::NamedTake {
            processor,
            name,
            size,
        } => take_named(state, processor, name, size, order),
        Command::NamedFree { processor, name } => free_named(state, processor, name, order),
        Command::Drop {
            processor,
            ref addresses,
        } => drop(state, processor, addresses, order),
    }
}

/// Sets up: every superblock unused, totals and the order places of the setup all 0.
pub fn setup(asked: Setup, order: &mut [u16]) -> Answer {
    if let Err(refusal) = check_setup(&asked, order) {
        return Answer {
            outcome: Outcome::Refused(refusal),
            state: State::new(Setup::default()),
        };
    }
    order[..asked.order_places()].fill(0);
    Answer {
        outcome: Outcome::Ready,
        state: State::new(asked),
    }
}

/// Takes a block of at least `size` bytes for a processor.
pub fn take(state: &State, processor: u8, size: u16, order: &mut [u16]) -> Answer {
    answer(state, processor, order, |next, order| {
        let block = take_block(next, processor, size, order)?;
        Ok(Outcome::At(next.address_of(block)))
    })
}

/// Takes such a block and makes `name` hold it.
pub fn take_named(state: &State, processor: u8, name: u16, size: u16, order: &mut [u16]) -> Answer {
    answer(state, processor, order, |next, order| {
        if !next.control.names.is_available(name) {
            return Err(Refusal::TakenName);
        }
        let block = take_block(next, processor, size, order)?;
        next.control.names.bind(name, block);
        Ok(Outcome::At(next.address_of(block)))
    })
}

/// Frees the block at `address`, whichever heap owns its superblock.
pub fn free(state: &State, processor: u8, address: u32, order: &mut [u16]) -> Answer {
    answer(state, processor, order, |next, order| {
        let block = find_block(next.of_setup(), address)?;
        Ok(Outcome::Moved(free_block(next, block, order)))
    })
}

/// Frees the block that `name` holds.
pub fn free_named(state: &State, processor: u8, name: u16, order: &mut [u16]) -> Answer {
    answer(state, processor, order, |next, order| {
        let held = next.control.names.block_of(name);
        let block = held.ok_or(Refusal::NameNotHeld)?;
        Ok(Outcome::Moved(free_block(next, block, order)))
    })
}

/// Frees the blocks at all the addresses, or none where one of them cannot be freed.
/// Only then do the heaps and classes that they were of give up superblocks.
pub fn drop(state: &State, processor: u8, addresses: &[u32], order: &mut [u16]) -> Answer {
    answer(state, processor, order, |next, order| {
        if addresses.is_empty() {
            return Err(Refusal::EmptyDrop);
        }
        let blocks = find_blocks(next, addresses)?;
        Ok(Outcome::Moved(free_blocks(next, &blocks, order)))
    })
}

/// Makes a call on a copy of the state, once state, storage and processor have
/// passed. The call changes copy and storage only where it is not refused.
fn answer(
    state: &State,
    processor: u8,
    order: &mut [u16],
    call: impl FnOnce(&mut State, &mut [u16]) -> Result<Outcome, Refusal>,
) -> Answer {
    let mut next = state.clone();
    let outcome = check_handed_in(state, order)
        .and_then(|()| check_processor(&state.control.setup, processor))
        .and_then(|()| call(&mut next, order));
    Answer {
        outcome: outcome.unwrap_or_else(Outcome::Refused),
        state: next,
    }
}

/// The take itself, in a state that has passed. A size of no class is a long block's.
fn take_block(
    state: &mut State,
    processor: u8,
    size: u16,
    order: &mut [u16],
) -> Result<BlockId, Refusal> {
    match class_of_size(size) {
        Some(class) => take_of_class(state, processor, class, order),
        None => take_run(state, size),
    }
}

/// The take of a block of a class.
fn take_of_class(
    state: &mut State,
    processor: u8,
    class: u8,
    order: &mut [u16],
) -> Result<BlockId, Refusal> {
    let offer = find_superblock(state, processor, class).ok_or(Refusal::NoSuperblock)?;

    let places = places_of(order, offer.number);
    if !offer.from_own_heap {
        acquire(state, offer.number, processor, class, places);
    }
    let superblock = &mut state.superblocks[offer.number];
    let last_filled = superblock.free_count() - 1;
    let block = u32::from(places[last_filled as usize]);
    superblock.mark(block);
    state.control.totals.add_live(processor, class);
    Ok(BlockId {
        superblock: offer.number,
        block,
    })
}

/// Gives a superblock of the global heap, or an unused one, to a processor's heap,
/// renewed for the class and out of the ranking if nothing in it is live.
fn acquire(state: &mut State, number: usize, processor: u8, class: u8, places: &mut [u16]) {
    let superblock = &mut state.superblocks[number];
    let totals = &mut state.control.totals;
    let live = superblock.live_count();
    if superblock.owner == GLOBAL_HEAP {
        totals.remove(GLOBAL_HEAP, superblock.class, live);
    }
    superblock.owner = processor;
    totals.add(processor, class, live);
    if live == 0 {
        renew(superblock, class, places);
        take_out(&mut state.superblocks, number);
    }
}

/// The free itself, of a live block in a state that has passed. Returns the number
/// of superblocks moved.
fn free_block(state: &mut State, freed: BlockId, order: &mut [u16]) -> u32 {
    let touched = give_back(state, freed, order);
    state.control.names.release(freed);
    match touched {
        Some((heap, class)) => transfer_excess(state, heap, class),
        None => 0,
    }
}

/// The drop itself, of live blocks in a state that has passed, each listed once. All
/// are freed before any superblock moves, so a heap may be far over its threshold by
/// then. Returns the number of superblocks moved.
fn free_blocks(state: &mut State, freed: &[BlockId], order: &mut [u16]) -> u32 {
    let mut touched = [[false; CLASSES]; HEAPS];
    for &block in freed {
        if let Some((heap, class)) = give_back(state, block, order) {
            touched[usize::from(heap)][usize::from(class)] = true;
        }
    }
    state.control.names.release_freed(&state.superblocks);
    let mut moves = 0;
    for heap in 1..=state.control.setup.processors {
        for class in 0..CLASSES as u8 {
            if touched[usize::from(heap)][usize::from(class)] {
                moves += transfer_excess(state, heap, class);
            }
        }
    }
    moves
}

/// Puts a live block back in its superblock's order, which is then the latest freed
/// into; the superblocks of a long block become unused. Returns the processor's heap
/// and class that the block was of, if it was of one.
fn give_back(state: &mut State, freed: BlockId, order: &mut [u16]) -> Option<(u8, u8)> {
    let superblock = &mut state.superblocks[freed.superblock];
    if superblock.begins_run() {
        release_run(&mut state.superblocks, freed.superblock);
        return None;
    }
    let next_place = superblock.free_count();
    superblock.unmark(freed.block);
    places_of(order, freed.superblock)[next_place as usize] = freed.block as u16;
    let (owner, class) = (superblock.owner, superblock.class);
    rank_latest(&mut state.superblocks, freed.superblock);
    state.control.totals.remove_live(owner, class);
    (owner != GLOBAL_HEAP).then_some((owner, class))
}

fn check_processor(setup: &Setup, processor: u8) -> Result<(), Refusal> {
    if processor == 0 || processor > setup.processors {
        return Err(Refusal::Processor);
    }
    Ok(())
}

/// The first superblock that one of the four places offers.
fn find_superblock(state: &State, processor: u8, class: u8) -> Option<Offer> {
    if let Some(number) = fullest_with_free(state, processor, class) {
        return Some(Offer {
            number,
            from_own_heap: true,
        });
    }
    fullest_with_free(state, GLOBAL_HEAP, class)
        .or_else(|| first_empty_of_global(state))
        .or_else(|| first_unused(state))
        .map(|number| Offer {
            number,
            from_own_heap: false,
        })
}

/// Places 1 and 2: of the heap's superblocks of the class with a free block, the
/// one with most live; among equals the one freed into last since it was renewed,
/// or where none was, the lower number.
fn fullest_with_free(state: &State, heap: u8, class: u8) -> Option<usize> {
    let blocks = SIZE_CLASSES[usize::from(class)].blocks;
    let mut best: Option<(usize, (u32, u8))> = None;
    for (number, superblock) in state.superblocks.iter().enumerate() {
        if superblock.owner != heap || superblock.class != class {
            continue;
        }
        let live = superblock.live_count();
        let precedence = (live, superblock.recency());
        if live < blocks && best.is_none_or(|(_, first)| precedence > first) {
            best = Some((number, precedence));
        }
    }
    best.map(|(number, _)| number)
}

/// Place 3: the first superblock of the global heap with nothing live.
fn first_empty_of_global(state: &State) -> Option<usize> {
    state
        .superblocks
        .iter()
        .position(|superblock| superblock.owner == GLOBAL_HEAP && superblock.live_count() == 0)
}

/// Place 4: the first unused superblock of the setup.
fn first_unused(state: &State) -> Option<usize> {
    let mut superblocks = state.of_setup().iter();
    superblocks.position(|superblock| superblock.owner == UNUSED_OWNER)
}

/// Renews an empty superblock for a class: block 0 is taken first.
pub fn renew(superblock: &mut Superblock, class: u8, places: &mut [u16]) {
    superblock.class = class;
    superblock.live = [0; 4];
    let blocks = superblock.size_class().blocks as u16;
    for (place, block) in places.iter_mut().zip((0..blocks).rev()) {
        *place = block;
    }
}

/// The live block at an address in the superblocks of a setup.
fn find_block(superblocks: &[Superblock], address: u32) -> Result<BlockId, Refusal> {
    let number = (address / SUPERBLOCK_BYTES) as usize;
    let superblock = superblocks.get(number).ok_or(Refusal::UnmappedAddress)?;
    let offset = address % SUPERBLOCK_BYTES;
    let block = match superblock.owner {
        UNUSED_OWNER => return Err(Refusal::UnmappedAddress),
        // "The block's address is the start of the run, any other address in it is
        // off-block."
        RUN_OWNER if offset == 0 && superblock.begins_run() => 0,
        RUN_OWNER => return Err(Refusal::MisalignedAddress),
        _ => find_in_class(superblock, offset)?,
    };
    Ok(BlockId {
        superblock: number,
        block,
    })
}

/// The live block at an offset in the superblock of a heap.
fn find_in_class(superblock: &Superblock, offset: u32) -> Result<u32, Refusal> {
    let class = superblock.size_class();
    let block = offset / class.block_size;
    if !offset.is_multiple_of(class.block_size) || block >= class.blocks {
        return Err(Refusal::MisalignedAddress);
    }
    if !superblock.is_live(block) {
        return Err(Refusal::NotLive);
    }
    Ok(block)
}

/// The live blocks at the addresses, or the refusal of the first that a free would
/// refuse after those before it. Moves make no difference to that: a superblock that
/// passes to the global heap keeps its class and marks.
fn find_blocks(state: &State, addresses: &[u32]) -> Result<Vec<BlockId>, Refusal> {
    // What the next address meets: blocks listed so far are live no more, and their runs
    // are unused.
    let mut left = state.superblocks;
    let end = state.of_setup().len();
    let mut find = |&address| {
        let found = find_block(&left[..end], address)?;
        let BlockId { superblock, block } = found;
        match left[superblock].begins_run() {
            true => release_run(&mut left, superblock),
            false => left[superblock].unmark(block),
        }
        Ok(found)
    };
    addresses.iter().map(&mut find).collect()
}

/// The order places of one superblock.
fn places_of(order: &mut [u16], number: usize) -> &mut [u16] {
    &mut order[number * ORDER_PLACES..][..ORDER_PLACES]
}

/// Moves the emptiest superblock of a heap and class to the global heap, again
/// and again while the heap is over the threshold. Returns the number moved.
fn transfer_excess(state: &mut State, heap: u8, class: u8) -> u32 {
    if !heap_is_over_threshold(state, heap, class) {
        return 0;
    }
    let mut moves = 0;
    for (live, number) in emptiest_first(state, heap, class) {
        if !heap_is_over_threshold(state, heap, class) {
            break;
        }
        state.superblocks[number].owner = GLOBAL_HEAP;
        let totals = &mut state.control.totals;
        totals.remove(heap, class, live);
        totals.add(GLOBAL_HEAP, class, live);
        moves += 1;
    }
    moves
}

fn heap_is_over_threshold(state: &State, heap: u8, class: u8) -> bool {
    let usage = state.control.totals.usage(heap, class);
    let class = &SIZE_CLASSES[usize::from(class)];
    over_emptiness_threshold(&state.control.setup, class, &usage)
}

/// Whether both conditions of the move rule hold: more than K superblocks' worth
/// of free blocks, and more than p/q of all blocks free.
pub fn over_emptiness_threshold(setup: &Setup, class: &SizeClass, usage: &Usage) -> bool {
    let (p, q) = (u32::from(setup.p), u32::from(setup.q));
    let spare_blocks = u32::from(setup.spare) * class.blocks;
    let blocks = usage.superblocks * class.blocks;
    usage.live + spare_blocks < blocks && q * usage.live < (q - p) * blocks
}

/// The superblocks of a heap and class by the order in which they move: how many blocks
/// of each are live, fewest first, and its number, the lower among equals. A move
/// changes neither for those that stay.
fn emptiest_first(state: &State, heap: u8, class: u8) -> Vec<(u32, usize)> {
    let superblocks = state.superblocks.iter().enumerate();
    let owned = superblocks.filter(|(_, it)| it.owner == heap && it.class == class);
    let mut emptiest: Vec<_> = owned
        .map(|(number, it)| (it.live_count(), number))
        .collect();
    emptiest.sort_unstable();
    emptiest
}
