//! Records with long blocks.

use hoard::{Outcome, Refusal, LONGEST_RUN, MOST_DROPPED};

use crate::dropping::any_drop;
use crate::long_blocks::{
    drop_with_runs, gaps, inner_address, inner_address_of, long_size, size_of_run, start_of_run,
    starts_of_runs, LIMIT_SIZES,
};
use crate::make_record::{
    any_processor, begin_superblock, edge_setup, edge_size, fill, free_down_to, mixed_call,
    odd_call, setup_of_many, setup_with_early_moves, size_of_class, size_or_zero,
};
use crate::naming::name_of_address;
use crate::run::Run;
use crate::xorshift::Xorshift;

/// Long blocks taken and freed beside blocks of all classes: into gaps that they just
/// fit, that are one too short or that a live superblock splits, and over superblocks
/// that the global heap has empty, of several classes and ranked. They are freed by
/// their start, their name, in drops, and twice; addresses inside them are refused.
pub fn long(random: &mut Xorshift, length: usize) -> Run {
    // Each heap keeps a superblock of each class that it ever had: few of both leave room
    // for runs where there are few superblocks.
    let (most_superblocks, most_processors, class_count) =
        random.pick(&[(3, 1, 1), (8, 1, 2), (20, 2, 2), (40, 3, 3), (64, 3, 3)]);
    let mut setup = setup_with_early_moves(random, most_processors, most_superblocks);
    if random.chance(1, 2) {
        setup.superblocks = most_superblocks;
    }
    let mut run = Run::new(setup);
    run.keeps_ranks = true;
    run.takes_long = true;
    run.named = random.pick(&[0, 40, 85]);
    let classes = [
        random.byte_between(21, 26),
        random.byte_between(18, 26),
        random.byte_between(0, 26),
    ];
    let classes = &classes[..class_count];
    while run.calls < length && run.has_room() {
        let heap = random.byte_between(1, setup.processors);
        let is_crowded = gaps(&run.state).is_empty();
        match random.below(13) {
            0 => split_gaps(random, &mut run, heap, classes[0], length),
            1 | 2 => swallow(random, &mut run, heap, classes, length),
            3 => mixed_stretch(random, &mut run, classes, length),
            4 => drop_and_follow(random, &mut run, length),
            5 | 6 => free_runs(random, &mut run, length),
            7 => free_down_to_some(random, &mut run, length),
            8 | 9 if is_crowded => free_down_to_some(random, &mut run, length),
            10 => fill_with_runs(random, &mut run, length),
            _ => take_runs(random, &mut run, length),
        }
    }
    run
}

/// Takes long blocks with a superblock that has a live block between each two, then
/// frees most of them: what is left are gaps, and takes that they are too short for.
fn split_gaps(random: &mut Xorshift, run: &mut Run, heap: u8, class: u8, length: usize) {
    let most = random.pick(&[2, 4, 16]);
    for _ in 0..random.between(2, 6) {
        if run.calls < length && run.has_room() {
            let of_run = random.byte_between(1, most);
            let size = size_of_run(random, of_run);
            run.take_either_way(random, heap, size);
        }
        begin_superblock(random, run, heap, class, length);
    }
    free_runs(random, run, length);
    free_runs(random, run, length);
    take_runs(random, run, length);
}

/// Fills superblocks of one class and another in turn and empties them, so that they pass
/// to the global heap, and takes a long block that has to have some of them; then takes
/// of the classes show what is left there.
fn swallow(random: &mut Xorshift, run: &mut Run, heap: u8, classes: &[u8], length: usize) {
    for _ in 0..random.between(1, 4) {
        for &class in classes.iter().take(2) {
            fill(random, run, heap, class, 1, length);
        }
    }
    for &class in classes.iter().take(2) {
        let left = random.pick(&[0, 0, 1, 2]);
        let all = run.live.len();
        let of_class = run.live_count_of(heap, class) as usize;
        let kept = all.saturating_sub(of_class) + left;
        free_down_to(random, run, heap, class, kept, length);
    }
    if run.calls < length && run.has_room() {
        // The longest gap is likely to be where the emptied superblocks are.
        let gap = gaps(&run.state).into_iter().max().unwrap_or(1);
        let size = size_of_run(random, gap.min(LONGEST_RUN.into()) as u8);
        long_take(random, run, size);
    }
    for _ in 0..random.between(2, 8) {
        if run.calls < length && run.has_room() {
            let class = random.pick(classes);
            let size = size_of_class(random, class);
            let processor = random.byte_between(1, run.state.control.setup.processors);
            run.take_either_way(random, processor, size);
        }
    }
}

/// Takes and frees of the classes, with an odd call now and then.
fn mixed_stretch(random: &mut Xorshift, run: &mut Run, classes: &[u8], length: usize) {
    for _ in 0..random.between(2, 16) {
        if run.calls < length && run.has_room() {
            let class = random.pick(classes);
            mixed_call(random, run, 55, (class, class));
        }
    }
}

/// Frees blocks and runs, in any order, until few are left.
fn free_down_to_some(random: &mut Xorshift, run: &mut Run, length: usize) {
    let left = random.pick(&[0, 0, 3, 10]);
    while run.live.len() > left && run.calls < length && run.has_room() {
        let processor = random.byte_between(1, run.state.control.setup.processors);
        if random.chance(1, 3) {
            let (_, addresses) = any_drop(random, &run.state, MOST_DROPPED);
            run.drop(processor, addresses);
        } else if let Some(address) = run.any_live(random) {
            run.free_either_way(random, processor, address);
        }
    }
}

/// Takes long blocks until one is refused, or a few.
fn take_runs(random: &mut Xorshift, run: &mut Run, length: usize) {
    for _ in 0..random.between(1, 5) {
        if run.calls < length && run.has_room() {
            let size = long_size(random, &run.state);
            if let Outcome::Refused(_) = long_take(random, run, size) {
                return;
            }
        }
    }
}

/// Takes long blocks, all of up to so many superblocks, until none fits.
fn fill_with_runs(random: &mut Xorshift, run: &mut Run, length: usize) {
    let longest = random.pick(&[3, 16, 16]);
    while run.calls < length && run.has_room() {
        let of_run = random.byte_between(1, longest);
        let size = size_of_run(random, of_run);
        if let Outcome::Refused(Refusal::NoRun) = long_take(random, run, size) {
            return;
        }
    }
}

/// A take of a size, plain or by name, at times for no processor.
fn long_take(random: &mut Xorshift, run: &mut Run, size: u16) -> Outcome {
    let processor = any_processor(random, run.state.control.setup.processors, 16);
    run.take_either_way(random, processor, size)
}

/// Frees some runs, and tries addresses inside them.
fn free_runs(random: &mut Xorshift, run: &mut Run, length: usize) {
    for _ in 0..random.between(1, 6) {
        if run.calls < length && run.has_room() {
            free_run(random, run, length);
        }
    }
}

/// A free of a run by its start or its name, at times again, or of an address inside it.
fn free_run(random: &mut Xorshift, run: &mut Run, length: usize) {
    let Some(start) = start_of_run(random, &run.state) else {
        return;
    };
    let processor = any_processor(random, run.state.control.setup.processors, 16);
    let name = name_of_address(&run.state, start);
    let inner = inner_address_of(random, &run.state, start);
    if random.chance(1, 5) {
        run.free(processor, inner);
        return;
    }
    run.free_either_way(random, processor, start);
    if run.calls >= length || !run.has_room() {
        return;
    }
    // What is left of it: nothing at its start, inside it or by its name.
    match (random.below(8), name) {
        (0, _) => run.free(processor, start),
        (1, _) => run.free(processor, inner),
        (2 | 3, Some(name)) => run.free_named(processor, name),
        (4, Some(name)) => {
            let class = random.byte_between(0, 26);
            let size = size_or_zero(random, class);
            run.take_named(processor, name, size)
        }
        _ => return,
    };
}

/// A drop of runs and other blocks, and what follows it: the same again, one of its
/// addresses in a free, or a long take.
fn drop_and_follow(random: &mut Xorshift, run: &mut Run, length: usize) {
    let addresses = drop_with_runs(random, &run.state, MOST_DROPPED);
    let processor = any_processor(random, run.state.control.setup.processors, 12);
    let outcome = run.drop(processor, addresses.clone());
    for _ in 0..random.below(3) {
        if run.calls >= length || !run.has_room() {
            return;
        }
        match random.below(4) {
            0 => run.drop(processor, addresses.clone()),
            1 => run.free(processor, random.pick(&addresses)),
            2 if matches!(outcome, Outcome::Refused(_)) => {
                run.free_either_way(random, processor, addresses[0])
            }
            _ => {
                let size = long_size(random, &run.state);
                long_take(random, run, size)
            }
        };
    }
}

/// Setups, sizes, addresses, names and processors at and past each limit, with long
/// blocks at the limits of runs, and addresses inside them in frees and drops.
pub fn long_edges(random: &mut Xorshift, length: usize) -> Run {
    let mut run = Run::new(edge_setup(random));
    run.keeps_ranks = true;
    run.takes_long = true;
    run.named = 30;
    let processors = run.state.control.setup.processors.max(1);
    while run.calls < length && run.has_room() {
        let processor = random.byte_between(1, processors);
        match random.below(12) {
            0..=3 => {
                let size = match random.below(2) {
                    0 => random.pick(&LIMIT_SIZES),
                    _ => edge_size(random),
                };
                run.take_either_way(random, processor, size);
            }
            4 => odd_call(random, &mut run),
            5 => {
                let inner = inner_address(random, &run.state).unwrap_or(1);
                run.free(processor, inner);
            }
            6 => {
                let addresses = drop_with_runs(random, &run.state, MOST_DROPPED);
                run.drop(processor, addresses);
            }
            7 => {
                let (processor, addresses) = any_drop(random, &run.state, MOST_DROPPED);
                run.drop(processor, addresses);
            }
            8 => free_run(random, &mut run, length),
            _ => {
                let address = run.any_live(random).unwrap_or(0);
                run.free_either_way(random, processor, address);
            }
        }
    }
    run
}

/// For timing: eight processors, three classes for each and 40 to 64 superblocks, in
/// stretches that grow and stretches that shrink, one call in six of a long block.
pub fn many_long(random: &mut Xorshift, length: usize) -> Run {
    let mut run = Run::new(setup_of_many(random));
    run.keeps_ranks = true;
    run.takes_long = true;
    let mut takes = 90;
    while run.calls < length && run.has_room() {
        if random.chance(1, 70) {
            takes = random.pick(&[30, 50, 60, 90]);
        }
        if gaps(&run.state).is_empty() {
            takes = 30;
        }
        if random.chance(1, 6) {
            many_long_call(random, &mut run);
        } else {
            let class = random.byte_between(1, 8) * 3 + random.byte_between(0, 2);
            class_call(random, &mut run, takes, class);
        }
    }
    run
}

/// A take of a class for the heap that has it, or a free of any block.
fn class_call(random: &mut Xorshift, run: &mut Run, takes: u32, class: u8) {
    match run.any_live(random) {
        Some(address) if !random.chance(takes, 100) => {
            let processor = random.byte_between(1, run.state.control.setup.processors);
            run.free(processor, address)
        }
        _ => run.take(class / 3, size_of_class(random, class)),
    };
}

/// A long take, mostly of one to three superblocks, while few runs are there; else the
/// free of a run.
fn many_long_call(random: &mut Xorshift, run: &mut Run) {
    let starts = starts_of_runs(&run.state);
    let processor = random.byte_between(1, run.state.control.setup.processors);
    if random.below(8) as usize >= starts.len() {
        let longest = random.pick(&[1, 2, 3, 3, 16]);
        let of_run = random.byte_between(1, longest);
        run.take(processor, size_of_run(random, of_run));
    } else {
        run.free(processor, random.pick(&starts));
    }
}
