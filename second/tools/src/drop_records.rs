//! Records with drops.

use hoard::{
    read_command, Command, State, DROP_BYTE, LONGEST_RECORD, MOST_DROPPED, SUPERBLOCK_BYTES,
};

use crate::dropping::{
    all_but_one_of_each, any_drop, live_to_drop, of_global_heap, spoil_addresses,
};
use crate::make_record::{
    any_processor, command_starts, commands_made_by, edge_setup, edge_size, fill, mixed_call,
    odd_address, odd_call, random_command, setup_in_limits, setup_of_many, setup_with_early_moves,
    size_of_class, size_or_zero,
};
use crate::run::Run;
use crate::xorshift::Xorshift;

/// Heaps and classes filled, and their blocks dropped: together or alone, twice, beside
/// bad ones, of the global heap, named, all of them or none. What follows a drop shows
/// what it did: the same drop, frees of its blocks, their names and takes of their
/// classes again.
pub fn drops(random: &mut Xorshift, length: usize) -> Run {
    let most_processors = random.pick(&[2, 5, 8]);
    let most_superblocks = random.pick(&[4, 16, 64, 64]);
    let setup = setup_with_early_moves(random, most_processors, most_superblocks);
    let mut run = Run::new(setup);
    run.keeps_ranks = true;
    run.named = random.pick(&[0, 50, 85]);
    let classes = [
        random.byte_between(0, 26),
        random.byte_between(11, 26),
        random.byte_between(18, 26),
    ];
    if random.chance(1, 3) {
        // More blocks than a record can count in a drop.
        let small = random.byte_between(0, 2);
        fill(random, &mut run, 1, small, 2, length);
    }
    while run.calls < length && run.has_room() {
        let heap = random.byte_between(1, setup.processors);
        match random.below(14) {
            0 => drop_into_global(random, &mut run, heap, length),
            1 => fill(random, &mut run, heap, classes[1], 2, length),
            2 => fill(random, &mut run, heap, classes[2], 8, length),
            3..=5 => take_for_each_heap(random, &mut run, &classes, length),
            6 => mixed_stretch(random, &mut run, length),
            _ => drop_and_follow(random, &mut run, length),
        }
    }
    run
}

/// Takes a few blocks of each class for each heap.
fn take_for_each_heap(random: &mut Xorshift, run: &mut Run, classes: &[u8], length: usize) {
    let most = random.pick(&[1, 3, 8]);
    for heap in 1..=run.state.control.setup.processors {
        for &class in classes {
            for _ in 0..random.between(0, most) {
                if run.calls < length && run.has_room() {
                    let size = size_or_zero(random, class);
                    run.take_either_way(random, heap, size);
                }
            }
        }
    }
}

/// A few takes and frees of any class, plain and by name.
fn mixed_stretch(random: &mut Xorshift, run: &mut Run, length: usize) {
    for _ in 0..random.between(1, 10) {
        if run.calls < length && run.has_room() {
            mixed_call(random, run, 50, (0, 26));
        }
    }
}

/// Fills some superblocks and drops all blocks but one of each, so that superblocks with
/// a live block pass to the global heap, then drops some there, alone or with others.
fn drop_into_global(random: &mut Xorshift, run: &mut Run, heap: u8, length: usize) {
    let class = random.byte_between(16, 22);
    fill(random, run, heap, class, 5, length);
    let processor = random.byte_between(1, run.state.control.setup.processors);
    let addresses = all_but_one_of_each(random, &run.state, heap, class);
    if run.calls < length && run.has_room() {
        run.drop(processor, addresses);
    }
    for _ in 0..random.below(3) {
        let others = random.pick(&[0, 0, 1, 5]);
        let addresses = of_global_heap(random, &run.state, others);
        if run.calls < length && run.has_room() && !addresses.is_empty() {
            run.drop(processor, addresses);
        }
    }
}

/// A drop and what follows it.
fn drop_and_follow(random: &mut Xorshift, run: &mut Run, length: usize) {
    let before = run.state.clone();
    let (processor, addresses) = any_drop(random, &before, MOST_DROPPED);
    run.drop(processor, addresses.clone());
    if addresses.is_empty() {
        return;
    }
    let names = names_at(&before, &addresses);
    for _ in 0..random.below(4) {
        if run.calls >= length || !run.has_room() {
            return;
        }
        let heap = random.byte_between(1, before.control.setup.processors);
        match random.below(4) {
            0 => follow_with_again(random, run, processor, &addresses),
            1 | 2 if !names.is_empty() => {
                let name = random.pick(&names);
                follow_with_name(random, run, heap, name);
            }
            _ => {
                let class = class_at(&before, random.pick(&addresses));
                follow_with_takes(random, run, heap, class, length);
            }
        }
    }
}

/// The names that hold blocks at the addresses.
fn names_at(state: &State, addresses: &[u32]) -> Vec<u16> {
    let held = state.control.names.held();
    let there = held.filter(|&(_, block)| addresses.contains(&state.address_of(block)));
    there.map(|(name, _)| name).collect()
}

/// The class of the superblock at an address, 0 where there is none.
fn class_at(state: &State, address: u32) -> u8 {
    let number = (address / SUPERBLOCK_BYTES) as usize;
    state.superblocks.get(number).map_or(0, |it| it.class)
}

/// The same addresses again: in a drop, in the other order or in part, or one in a free.
fn follow_with_again(random: &mut Xorshift, run: &mut Run, processor: u8, addresses: &[u32]) {
    let mut again = addresses.to_vec();
    match random.below(4) {
        0 => {
            run.free(processor, random.pick(addresses));
            return;
        }
        1 => again.reverse(),
        2 => again.truncate(random.between(1, addresses.len() as u32) as usize),
        _ => {}
    }
    run.drop(processor, again);
}

/// A name of the drop: used for a take again, or freed.
fn follow_with_name(random: &mut Xorshift, run: &mut Run, heap: u8, name: u16) {
    if random.chance(1, 3) {
        run.free_named(heap, name);
    } else {
        let class = random.byte_between(0, 26);
        let size = size_or_zero(random, class);
        run.take_named(heap, name, size);
    }
}

/// Takes of a class that was dropped, which show the order of blocks and superblocks.
fn follow_with_takes(random: &mut Xorshift, run: &mut Run, heap: u8, class: u8, length: usize) {
    for _ in 0..random.between(1, 6) {
        if run.calls < length && run.has_room() {
            let size = size_of_class(random, class);
            run.take_either_way(random, heap, size);
        }
    }
}

/// Setups, sizes, addresses, names and processors at and past each limit, and drops of
/// such addresses, with counts at each limit.
pub fn drop_edges(random: &mut Xorshift, length: usize) -> Run {
    let mut run = Run::new(edge_setup(random));
    run.keeps_ranks = true;
    run.named = 30;
    let processors = run.state.control.setup.processors.max(1);
    while run.calls < length && run.has_room() {
        let processor = random.byte_between(1, processors);
        match random.below(10) {
            0..=4 => {
                let size = edge_size(random);
                run.take_either_way(random, processor, size);
            }
            5 => odd_call(random, &mut run),
            6 => edge_drop(random, &mut run),
            _ => {
                let (processor, addresses) = any_drop(random, &run.state, MOST_DROPPED);
                run.drop(processor, addresses);
            }
        }
    }
    run
}

/// A drop of odd addresses, as many as at a limit of the count.
fn edge_drop(random: &mut Xorshift, run: &mut Run) {
    let processor = any_processor(random, run.state.control.setup.processors, 3);
    let count = random.pick(&[0, 1, 1, 2, 254, 255]);
    let mut addresses = live_to_drop(random, &run.state, MOST_DROPPED);
    addresses.truncate(random.below(4) as usize);
    while addresses.len() < count {
        addresses.push(odd_address(random, run));
    }
    addresses.truncate(count);
    run.drop(processor, addresses);
}

/// A record with drops truncated at any byte, in half of all cases inside a drop: at any
/// of its bytes, or right behind each of its parts.
pub fn truncated_drops(random: &mut Xorshift, length: usize) -> Vec<u8> {
    let mut record = drops(random, length).record;
    let starts = command_starts(&record).into_iter();
    let drops = starts.filter(|&start| record[start] == DROP_BYTE);
    let drops: Vec<usize> = drops.collect();
    let end = match random.below(2) {
        0 if !drops.is_empty() => {
            let start = random.pick(&drops);
            let (_, end) = read_command(&record, start).expect("a whole command");
            let any = random.between(start as u32, end as u32) as usize;
            random.pick(&[start + 1, start + 2, start + 3, end - 2, end - 1, any])
        }
        _ => random.below(record.len() as u32 + 1) as usize,
    };
    record.truncate(end);
    record
}

/// Random commands, or a sound record with damaged bytes, with drops and with command
/// bytes up to the first unknown one.
pub fn garbage_drops(random: &mut Xorshift, length: usize) -> Vec<u8> {
    match random.below(2) {
        0 => random_commands(random, length),
        _ => damaged(random, length),
    }
}

fn random_commands(random: &mut Xorshift, length: usize) -> Vec<u8> {
    commands_made_by(
        random,
        length,
        DROP_BYTE + 1,
        |random, processor| match random.below(3) {
            0 => random_drop(random, processor),
            _ => random_command(random, processor),
        },
    )
}

/// A drop of few addresses at the starts of superblocks, some of which are live.
fn random_drop(random: &mut Xorshift, processor: u8) -> Command {
    let count = random.pick(&[0, 1, 1, 2, 3]);
    let mut address = |_| random.below(4) * SUPERBLOCK_BYTES + random.below(4) * 16;
    Command::Drop {
        processor,
        addresses: (0..count).map(&mut address).collect(),
    }
}

/// A sound record with one to four bytes changed, command bytes and counts more often.
fn damaged(random: &mut Xorshift, length: usize) -> Vec<u8> {
    let mut record = drops(random, length).record;
    let starts = command_starts(&record);
    let last = record.len() - 1;
    for _ in 0..random.between(1, 4) {
        let start = random.pick(&starts);
        match random.below(4) {
            0 => record[random.below(last as u32 + 1) as usize] = random.byte(),
            1 => record[start] = DROP_BYTE,
            2 => record[start] = random.byte_between(0, DROP_BYTE + 1),
            _ => record[(start + 2).min(last)] = random.byte_between(0, 3),
        }
    }
    record
}

/// A record of 60000 bytes with drops: calls while the longest drop has room, then
/// takes, and drops of none, which alone have three bytes.
pub fn longest_drops(random: &mut Xorshift) -> Vec<u8> {
    let mut run = Run::new(setup_in_limits(random, 8, 64));
    run.keeps_ranks = true;
    run.named = random.pick(&[0, 50]);
    let lowest = random.pick(&[0, 8, 16]);
    while run.record.len() + 4 * MOST_DROPPED + 20 <= LONGEST_RECORD {
        match random.below(20) {
            0 => {
                let (processor, addresses) = any_drop(random, &run.state, MOST_DROPPED);
                run.drop(processor, addresses);
            }
            _ => mixed_call(random, &mut run, 75, (lowest, 26)),
        }
    }
    while run.record.len() < LONGEST_RECORD {
        match (LONGEST_RECORD - run.record.len()) % 4 {
            0 => run.take(1, 16),
            _ => run.drop(1, Vec::new()),
        };
    }
    run.record
}

/// Eight processors and all classes, nine frees in ten in drops of 2 to 40 blocks: in
/// stretches that grow and stretches that shrink, the frees that are due are gathered
/// until they fill a drop.
pub fn many_drops(random: &mut Xorshift, length: usize) -> Run {
    let mut run = Run::new(setup_of_many(random));
    run.keeps_ranks = true;
    let mut due = 0;
    let mut next_drop = random.between(2, 40);
    let mut takes = 90;
    while run.calls < length && run.has_room() {
        if random.chance(1, 70) {
            takes = random.pick(&[30, 50, 70, 90]);
        }
        if random.chance(takes, 100) || run.live.len() as u32 <= due {
            take_for_any_heap(random, &mut run);
        } else if random.chance(1, 10) {
            mixed_call(random, &mut run, 0, (0, 26));
        } else {
            due += 1;
        }
        if due == next_drop {
            drop_any(random, &mut run, due);
            due = 0;
            next_drop = random.between(2, 40);
        }
    }
    run
}

/// A take for any heap, two in three of a class that it has a free block of.
fn take_for_any_heap(random: &mut Xorshift, run: &mut Run) {
    let heap = random.byte_between(1, run.state.control.setup.processors);
    let owned = run.state.superblocks.iter().filter(|it| it.owner == heap);
    let classes = owned.filter(|it| it.free_count() > 0).map(|it| it.class);
    let classes: Vec<u8> = classes.collect();
    let class = match random.below(3) {
        1 | 2 if !classes.is_empty() => random.pick(&classes),
        _ => random.byte_between(0, 26),
    };
    run.take(heap, size_of_class(random, class));
}

/// A drop of so many live blocks, or of all there are; one in 25 is refused.
fn drop_any(random: &mut Xorshift, run: &mut Run, count: u32) {
    let mut addresses = run.live.clone();
    random.shuffle(&mut addresses);
    addresses.truncate(count as usize);
    if random.chance(1, 25) {
        spoil_addresses(random, &run.state, &mut addresses, MOST_DROPPED);
    }
    let processor = random.byte_between(1, run.state.control.setup.processors);
    run.drop(processor, addresses);
}
