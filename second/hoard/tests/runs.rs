//! Long blocks on states and storage handed in: the runs that they get, what a free and a
//! drop make of them, and the check of runs.

mod agreement;

use hoard::{check_handed_in, drop, free, free_named, key, renew, run, run_length_of_size};
use hoard::{run_row, runs, setup, take, take_named};
use hoard::{Answer, BlockId, Command, Names, Outcome, Refusal, Setup, State, Superblock, Totals};
use hoard::{NOT_HELD, ORDER_PLACES, RUN_OWNER, SUPERBLOCKS, UNUSED_OWNER};

use agreement::check_agrees;

/// A sound state of two processors with a superblock for each letter: `.` is unused, `e`
/// an empty one of heap 0 and `l` one with a block live, `p` an empty one of heap 1 and
/// `P` one with a block live, `R` begins a run and `r` goes on with it. Each superblock
/// of a heap has a class of its own, 12 and up by its number.
fn state_of(parts: &str) -> (State, Vec<u16>) {
    let count = parts.len() as u8;
    let mut state = State::new(Setup::from_numbers([2, count, 1, 1, 4]));
    let mut order = vec![999; parts.len() * ORDER_PLACES];
    for (number, part) in parts.chars().enumerate() {
        let superblock = &mut state.superblocks[number];
        let places = &mut order[number * ORDER_PLACES..];
        match part {
            '.' => {}
            'R' => {
                let rest = parts[number + 1..].chars();
                let length = 1 + rest.take_while(|&it| it == 'r').count() as u8;
                *superblock = Superblock::first_of_run(length);
            }
            'r' => *superblock = Superblock::IN_RUN,
            _ => {
                superblock.owner = u8::from("pP".contains(part));
                renew(superblock, 12 + number as u8 % 15, places);
                if "lP".contains(part) {
                    superblock.mark(0);
                }
            }
        }
    }
    state.control.totals = Totals::recount(&state.superblocks);
    (state, order)
}

fn checked(parts: &str) -> (State, Vec<u16>) {
    let (state, order) = state_of(parts);
    check_handed_in(&state, &order).expect("a sound state");
    (state, order)
}

/// A size with a run of so many superblocks.
fn size_of(length: usize) -> u16 {
    (4096 * length).min(65535) as u16
}

fn refused(answer: &Answer) -> u8 {
    match answer.outcome {
        Outcome::Refused(refusal) => refusal.number(),
        other => panic!("not refused: {other:?}"),
    }
}

fn ranks(state: &State, count: usize) -> Vec<u8> {
    let superblocks = state.superblocks[..count].iter();
    superblocks.map(|superblock| superblock.rank).collect()
}

#[test]
fn lengths_of_runs() {
    for (size, length) in [
        (2049, 1),
        (4095, 1),
        (4096, 1),
        (4097, 2),
        (8192, 2),
        (8193, 3),
        (61440, 15),
        (61441, 16),
        (65535, 16),
    ] {
        assert_eq!(run_length_of_size(size), length, "size {size}");
    }
    for size in 2049..=65535u16 {
        let length = u32::from(run_length_of_size(size));
        assert!(4096 * length >= u32::from(size) && 4096 * (length - 1) < u32::from(size));
    }
}

/// The first superblock of the lowest run that a long block may have, by its definition.
fn lowest_run(parts: &str, length: usize) -> Option<usize> {
    let firsts = 0..(parts.len() + 1).saturating_sub(length);
    firsts.into_iter().find(|&first| {
        let run = &parts[first..first + length];
        run.chars().all(|part| ".e".contains(part))
    })
}

#[test]
fn every_gap_of_a_small_table() {
    let letters = [".", "e", "l", "p", "P", "R"];
    for pattern in 0..letters.len().pow(5) {
        let digits = (0..5).map(|at| pattern / letters.len().pow(at) % letters.len());
        let parts: String = digits.map(|digit| letters[digit]).collect();
        let (state, order) = state_of(&parts);
        for length in 1..=6 {
            let mut lent = order.clone();
            let answer = take(&state, 1 + (pattern % 2) as u8, size_of(length), &mut lent);
            let outcome = match lowest_run(&parts, length) {
                Some(first) => Outcome::At(first as u32 * 4096),
                None => Outcome::Refused(Refusal::NoRun),
            };
            assert_eq!(answer.outcome, outcome, "{parts} {length}");
            assert_eq!(lent, order);
        }
    }
}

#[test]
fn long_runs_of_a_full_table() {
    for length in 1..=16 {
        let gap = ".".repeat(length);
        let size = size_of(length);
        for (parts, first) in [
            ("R".repeat(64 - length) + &gap, 64 - length),
            ("l".repeat(63 - length) + &gap + "l", 63 - length),
            ("l".repeat(64 - length) + &"e".repeat(length), 64 - length),
            ("e".repeat(64), 0),
            (gap.clone(), 0),
        ] {
            let (state, mut order) = checked(&parts);
            let answer = take(&state, 2, size, &mut order);
            assert_eq!(answer.outcome, Outcome::At(4096 * first as u32), "{parts}");
            check_handed_in(&answer.state, &order).expect("a sound state");
        }
        for parts in [
            "R".repeat(65 - length) + &gap[1..],
            "l".repeat(64 - length) + &gap[1..] + "l",
            "e".repeat(length - 1) + "R" + &gap[1..],
        ] {
            let (state, mut order) = checked(&parts);
            let answer = take(&state, 1, size, &mut order);
            assert_eq!(refused(&answer), 17, "{parts}");
        }
    }
}

#[test]
fn a_run_has_no_class_mark_rank_or_total() {
    let (mut state, order) = checked("PeleP.");
    for (number, rank) in [(0, 2), (1, 4), (2, 5), (3, 1), (4, 3)] {
        state.superblocks[number].rank = rank;
    }
    // Superblock 1 alone: the rank behind it moves up.
    let answer = take(&state, 2, 2049, &mut order.clone());
    assert_eq!(answer.outcome, Outcome::At(4096));
    assert_eq!(answer.state.superblocks[1], Superblock::first_of_run(1));
    assert_eq!(ranks(&answer.state, 6), [2, 0, 4, 1, 3, 0]);
    let totals = &answer.state.control.totals;
    assert_eq!(*totals, Totals::recount(&answer.state.superblocks));
    assert_eq!(totals.superblocks[0][13], 0);
    assert_eq!(totals.superblocks[0][15], 1);

    // Without the live block superblocks 1 to 3 are a run.
    state.superblocks[2] = Superblock::UNUSED;
    state.superblocks[1].rank = 3;
    state.superblocks[4].rank = 4;
    state.control.totals = Totals::recount(&state.superblocks);
    let mut lent = order.clone();
    let answer = take(&state, 2, 12288, &mut lent);
    assert_eq!(answer.outcome, Outcome::At(4096));
    let run = [
        Superblock::first_of_run(3),
        Superblock::IN_RUN,
        Superblock::IN_RUN,
    ];
    assert_eq!(answer.state.superblocks[1..4], run);
    assert_eq!(ranks(&answer.state, 6), [1, 0, 0, 0, 2, 0]);
    let totals = &answer.state.control.totals;
    assert_eq!(*totals, Totals::recount(&answer.state.superblocks));
    assert_eq!(totals.superblocks[0], Totals::NONE.superblocks[0]);
    assert_eq!(lent, order, "order places keep what they had");
    check_handed_in(&answer.state, &lent).expect("a sound state");
}

#[test]
fn the_processor_is_minded_for_refusal_2_alone() {
    let (state, order) = checked("P.R..");
    let answers = [1, 2].map(|processor| {
        let mut lent = order.clone();
        (take(&state, processor, 8192, &mut lent), lent)
    });
    assert_eq!(answers[0], answers[1]);
    let freed = [1, 2].map(|processor| free(&state, processor, 8192, &mut order.clone()));
    assert_eq!(freed[0], freed[1]);
    for processor in [0, 3, 255] {
        for size in [2049, 65535] {
            let answer = take(&state, processor, size, &mut order.clone());
            assert_eq!(refused(&answer), 2);
        }
        let answer = free(&state, processor, 8192, &mut order.clone());
        assert_eq!(refused(&answer), 2);
    }
}

#[test]
fn no_other_address_of_a_run() {
    let (state, order) = checked("P.Rrr.R");
    for address in 0..7 * 4096 {
        let answer = free(&state, 1, address, &mut order.clone());
        let number = address / 4096;
        match (address, number) {
            (0 | 8192 | 24576, _) => assert_eq!(answer.outcome, Outcome::Moved(0)),
            (_, 0) => assert!([6, 7].contains(&refused(&answer)), "{address}"),
            (_, 1 | 5) => assert_eq!(refused(&answer), 5, "{address}"),
            _ => assert_eq!(refused(&answer), 6, "{address}"),
        }
    }
}

/// A state with runs at 1 to 3 and at 5, held by names 0 and 1023, a superblock of heap 1
/// before them and one between, whose live block name 7 holds.
fn with_named_runs() -> (State, Vec<u16>) {
    let (mut state, order) = checked("PRrrPR.");
    for (name, number) in [(0, 256), (1023, 5 * 256), (7, 4 * 256)] {
        state.control.names.0[name] = number;
    }
    state.superblocks[0].rank = 2;
    state.superblocks[4].rank = 1;
    check_handed_in(&state, &order).expect("a sound state");
    (state, order)
}

fn held(state: &State) -> Vec<u16> {
    state.control.names.held().map(|(name, _)| name).collect()
}

#[test]
fn a_free_makes_the_whole_run_unused() {
    let (state, order) = with_named_runs();
    let mut expected = state.clone();
    expected.superblocks[1..4].fill(Superblock::UNUSED);
    expected.control.names.0[0] = NOT_HELD;
    let mut lent = order.clone();
    for answer in [
        free(&state, 2, 4096, &mut lent),
        free_named(&state, 2, 0, &mut lent),
        drop(&state, 2, &[4096], &mut lent),
    ] {
        assert_eq!(answer.outcome, Outcome::Moved(0));
        assert_eq!(answer.state, expected);
        assert_eq!(lent, order);
        check_handed_in(&answer.state, &lent).expect("a sound state");
        assert_eq!(refused(&free(&answer.state, 1, 4096, &mut lent)), 5);
        assert_eq!(refused(&free(&answer.state, 1, 8192, &mut lent)), 5);
        assert_eq!(refused(&free_named(&answer.state, 1, 0, &mut lent)), 15);
    }
}

#[test]
fn a_name_may_hold_a_run() {
    let (state, order) = with_named_runs();
    let mut lent = order.clone();
    let taken = take_named(&state, 1, 5, 2049, &mut lent);
    assert_eq!(taken.outcome, Outcome::At(6 * 4096));
    let block = taken.state.control.names.block_of(5);
    let first = BlockId {
        superblock: 6,
        block: 0,
    };
    assert_eq!(block, Some(first));
    assert_eq!(taken.state.control.names.0[5], 6 * 256);
    let plain = take(&state, 1, 2049, &mut lent);
    let mut named = plain.clone();
    named.state.control.names.bind(5, first);
    assert_eq!(taken, named);
    // 2 before 14 before 17.
    for (processor, name, size, refusal) in [
        (0, 0, 65535, 2),
        (1, 0, 65535, 14),
        (1, 1024, 2049, 14),
        (1, 8, 65535, 17),
        (1, 8, 4097, 17),
    ] {
        let answer = take_named(&state, processor, name, size, &mut lent);
        assert_eq!(refused(&answer), refusal, "{name} {size}");
        assert_eq!(answer.state, state);
    }
    assert_eq!(lent, order);
}

/// Makes a drop on a state and on a row, which must agree.
fn dropped(state: &State, addresses: &[u32], order: &mut [u16]) -> Answer {
    let command = Command::Drop {
        processor: 1,
        addresses: addresses.to_vec(),
    };
    let mut row = state.superblocks.to_vec();
    let mut row_order = order.to_vec();
    let control = state.control.clone();
    let on_row = run_row(&command, control, &mut row, &mut row_order);
    let answer = run(&command, state, order);
    assert_eq!(on_row.outcome, answer.outcome);
    assert_eq!(on_row.control, answer.state.control);
    assert_eq!(row, answer.state.superblocks);
    assert_eq!(row_order, order);
    answer
}

#[test]
fn drops_of_runs() {
    let (state, order) = with_named_runs();
    let (first, second, block) = (4096, 5 * 4096, 4 * 4096);
    for (addresses, refusal) in [
        (&[first, first][..], 5),
        (&[first, second, block, first], 5),
        (&[first + 4096, first], 6),
        (&[second, first + 8192, first], 6),
        (&[first, first + 4096], 5),
        (&[first, second, first + 8193], 5),
        (&[first + 1], 6),
        (&[first, second + 16], 6),
        (&[block, first, block, first], 7),
        (&[first, block, first, block], 5),
        (&[first, 7 * 4096], 5),
    ] {
        let mut lent = order.clone();
        let answer = dropped(&state, addresses, &mut lent);
        assert_eq!(refused(&answer), refusal, "{addresses:?}");
        assert_eq!((answer.state, lent), (state.clone(), order.clone()));
    }
    for (addresses, names) in [
        (&[first][..], &[7, 1023][..]),
        (&[second, first], &[7]),
        (&[block, first], &[1023]),
        (&[second, block, first], &[]),
        (&[block], &[0, 1023]),
    ] {
        let mut lent = order.clone();
        let answer = dropped(&state, addresses, &mut lent);
        assert_eq!(answer.outcome, Outcome::Moved(0), "{addresses:?}");
        assert_eq!(held(&answer.state), names, "{addresses:?}");
        check_handed_in(&answer.state, &lent).expect("a sound state");
        let one_by_one = addresses.iter().fold(state.clone(), |state, &address| {
            free(&state, 1, address, &mut order.clone()).state
        });
        assert_eq!(answer.state, one_by_one);
    }
}

#[test]
fn a_run_is_not_touched() {
    // Two superblocks of heap 1 and class 26: a drop of all blocks and the run between
    // them passes one on, and heap and class of the run's fields, 254 and 0, none.
    let (mut state, mut order) = state_of("..Rr.");
    for number in [0, 1] {
        let superblock = &mut state.superblocks[number];
        superblock.owner = 1;
        renew(superblock, 26, &mut order[number * ORDER_PLACES..]);
        (0..2).for_each(|block| superblock.mark(block));
    }
    state.control.totals = Totals::recount(&state.superblocks);
    check_handed_in(&state, &order).expect("a sound state");
    let answer = dropped(&state, &[0, 8192, 2048, 4096, 6144], &mut order);
    assert_eq!(answer.outcome, Outcome::Moved(1));
    let owners = answer.state.superblocks[..5].iter().map(|it| it.owner);
    assert_eq!(owners.collect::<Vec<_>>(), [0, 1, 255, 255, 255]);
    assert_eq!(ranks(&answer.state, 5), [2, 1, 0, 0, 0]);
}

/// The check of runs by their definition: the sets of superblocks that the lengths name.
fn are_sound(state: &State) -> bool {
    let count = usize::from(state.control.setup.superblocks);
    let mut in_runs = Vec::new();
    for (first, superblock) in state.superblocks.iter().enumerate() {
        let length = usize::from(superblock.run_length);
        if length == 0 {
            continue;
        }
        if superblock.owner != RUN_OWNER || length > 16 || first + length > count {
            return false;
        }
        in_runs.extend(first..first + length);
    }
    let of_owner = (0..SUPERBLOCKS).filter(|&it| state.superblocks[it].owner == RUN_OWNER);
    let is_plain = |&it: &usize| {
        let Superblock {
            class, live, rank, ..
        } = state.superblocks[it];
        (class, live, rank) == (0, [0; 4], 0)
    };
    // Each once, and no other.
    in_runs.iter().copied().eq(of_owner) && in_runs.iter().all(is_plain)
}

#[test]
fn every_length_of_every_superblock_is_checked() {
    let full = "RrrrrrrrrrrrrrrrRrrr".to_string() + &"R".repeat(44);
    for parts in ["PRrrPR.eRr", ".", "RrRrrr..", &full] {
        let (sound, order) = checked(parts);
        for number in 0..SUPERBLOCKS {
            for length in 0..=255 {
                let mut state = sound.clone();
                state.superblocks[number].run_length = length;
                check_agrees(&state, &order, are_sound(&state));
                // A second change may make it right again.
                let other = (number + 1) % parts.len();
                state.superblocks[other].run_length = sound.superblocks[number].run_length;
                check_agrees(&state, &order, are_sound(&state));
            }
        }
    }
}

#[test]
fn every_owner_in_and_beside_runs_is_checked() {
    let (sound, order) = checked("R.RrrRr..R");
    for number in 0..SUPERBLOCKS {
        for owner in [RUN_OWNER, UNUSED_OWNER, 253, 100, 3] {
            for length in [0, 1, 2, 3] {
                let mut state = sound.clone();
                state.superblocks[number].owner = owner;
                state.superblocks[number].run_length = length;
                let is_known = [RUN_OWNER, UNUSED_OWNER].contains(&owner);
                check_agrees(&state, &order, is_known && are_sound(&state));
            }
        }
    }
}

/// Checks that every call refuses a changed state and hands it back as it is.
fn fails_after(change: impl Fn(&mut State)) {
    let (mut state, order) = with_named_runs();
    change(&mut state);
    let mut lent = order.clone();
    for answer in [
        take(&state, 1, 16, &mut lent),
        take(&state, 0, 65535, &mut lent),
        take_named(&state, 1, 5, 2049, &mut lent),
        free(&state, 1, 4096, &mut lent),
        free_named(&state, 1, 0, &mut lent),
        drop(&state, 1, &[], &mut lent),
    ] {
        assert_eq!(refused(&answer), 13);
        assert_eq!(answer.state, state);
    }
    assert_eq!(lent, order);
    assert_eq!(refused(&take(&state, 1, 16, &mut lent[1..])), 12);
}

#[test]
fn each_clause_of_the_check() {
    // The first carries none, too few, too many; an inner one carries a length.
    fails_after(|state| state.superblocks[1].run_length = 0);
    fails_after(|state| state.superblocks[1].run_length = 2);
    fails_after(|state| state.superblocks[1].run_length = 4);
    fails_after(|state| state.superblocks[5].run_length = 2);
    fails_after(|state| state.superblocks[3].run_length = 1);
    fails_after(|state| {
        state.superblocks[1].run_length = 2;
        state.superblocks[2].run_length = 2;
    });
    // Past N, and from N on.
    fails_after(|state| {
        state.superblocks[6] = Superblock::first_of_run(2);
        state.superblocks[7] = Superblock::IN_RUN;
    });
    fails_after(|state| state.superblocks[7] = Superblock::first_of_run(1));
    fails_after(|state| state.superblocks[63] = Superblock::first_of_run(1));
    // Marks, ranks that the ranking would have room for, classes.
    fails_after(|state| state.superblocks[1].mark(0));
    fails_after(|state| state.superblocks[3].mark(255));
    fails_after(|state| state.superblocks[5].rank = 3);
    fails_after(|state| state.superblocks[2].rank = 3);
    fails_after(|state| state.superblocks[1].class = 1);
    fails_after(|state| state.superblocks[2].class = 27);
    // Lengths of superblocks of no run.
    fails_after(|state| state.superblocks[0].run_length = 1);
    fails_after(|state| state.superblocks[6].run_length = 1);
    fails_after(|state| state.superblocks[63].run_length = 1);
    // Names inside a run, at another block of its first, and two at one run.
    fails_after(|state| state.control.names.0[9] = 2 * 256);
    fails_after(|state| state.control.names.0[9] = 256 + 1);
    fails_after(|state| state.control.names.0[9] = 256 + 255);
    fails_after(|state| state.control.names.0[9] = 256);
    // Totals of a run.
    fails_after(|state| state.control.totals.superblocks[0][0] = 3);
    fails_after(|state| state.control.totals.live[0][0] = 1);
    fails_after(|state| state.control.totals.superblocks[8][0] = 1);
}

#[test]
fn seventeen_are_too_many() {
    let long = |length: usize| "R".to_string() + &"r".repeat(length - 1);
    checked(&long(16));
    checked(&(long(16) + &long(16)));
    for length in [17, 18, 32, 64] {
        let (state, mut order) = state_of(&long(length));
        assert_eq!(refused(&take(&state, 1, 16, &mut order)), 13, "{length}");
    }
}

#[test]
fn names_point_at_block_0_of_a_first_superblock() {
    let (mut state, order) = with_named_runs();
    state.control.names = Names::NONE;
    let passes = |number: &u16| {
        let mut state = state.clone();
        state.control.names.0[500] = *number;
        check_handed_in(&state, &order).is_ok()
    };
    let sound: Vec<u16> = (0..=u16::MAX).filter(passes).collect();
    assert_eq!(sound, [0, 256, 4 * 256, 5 * 256, NOT_HELD]);
}

#[test]
fn nothing_is_asked_of_the_order_places_of_runs() {
    let (state, order) = with_named_runs();
    for filler in [0, 1, 255, 256, 65535] {
        let mut lent = order.clone();
        lent[256..4 * 256].fill(filler);
        lent[5 * 256..].fill(filler);
        check_handed_in(&state, &lent).expect("a sound state");
        let before = lent.clone();
        let freed = free(&state, 1, 4096, &mut lent);
        assert_eq!(freed.outcome, Outcome::Moved(0));
        assert_eq!(lent, before);
        // A small block renews the first of them.
        let taken = take(&freed.state, 2, 2048, &mut lent);
        assert_eq!(taken.outcome, Outcome::At(4096));
        assert_eq!(lent[256..258], [1, 0]);
        assert_eq!(lent[258..], before[258..]);
    }
}

#[test]
fn setups_have_no_runs() {
    let mut order = vec![9; 4 * ORDER_PLACES];
    for asked in [[1, 4, 1, 1, 2], [1, 5, 1, 1, 2], [1, 4, 0, 1, 2]] {
        let answer = setup(Setup::from_numbers(asked), &mut order);
        assert_eq!(answer.state.superblocks, [Superblock::UNUSED; SUPERBLOCKS]);
    }
}

#[test]
fn runs_on_a_row() {
    let (state, order) = with_named_runs();
    for command in [
        Command::Take {
            processor: 1,
            size: 4096,
        },
        Command::NamedTake {
            processor: 2,
            name: 3,
            size: 2049,
        },
        Command::Take {
            processor: 1,
            size: 4097,
        },
        Command::Free {
            processor: 1,
            address: 4096,
        },
        Command::Free {
            processor: 1,
            address: 8192,
        },
        Command::NamedFree {
            processor: 1,
            name: 1023,
        },
    ] {
        let mut lent = order.clone();
        let answer = run(&command, &state, &mut lent);
        for length in [63, 64, 65] {
            let mut row = state.superblocks.to_vec();
            row.resize(length, Superblock::IN_RUN);
            let before = row.clone();
            let mut row_order = order.clone();
            let on_row = run_row(&command, state.control.clone(), &mut row, &mut row_order);
            if length == 64 {
                assert_eq!(on_row.outcome, answer.outcome);
                assert_eq!(on_row.control, answer.state.control);
                assert_eq!(row, answer.state.superblocks);
                assert_eq!(row_order, lent);
            } else {
                assert_eq!(on_row.outcome, Outcome::Refused(Refusal::State));
                assert_eq!((row, row_order), (before, order.clone()));
            }
        }
    }
}

#[test]
fn runs_in_the_key() {
    let (state, _) = checked("PRrr.RR");
    let found: Vec<(usize, u8)> = runs(&state.superblocks).collect();
    assert_eq!(found, [(1, 3), (5, 1), (6, 1)]);
    // Two runs with a block of class 0 between: the runs are last.
    let mut record = vec![0, 1, 4, 1, 1, 2];
    record.extend([1, 1, 1, 8, 1, 1, 0, 0, 3, 1, 7, 0, 0, 32]);
    let text = "setup 1 4 1 1 2\ntake 1 2049 at 0\ntake 1 0 at 4096\ntake 1 name 7 8192 at 8192\n\
        heap 1 class 0 superblocks 1 live 1\nrun 0 superblocks 1\nrun 2 superblocks 2\nend\n";
    assert_eq!(key(&record), text.as_bytes());
    // A record that stops has no such line.
    record.push(1);
    assert!(key(&record).ends_with(b"take 1 name 7 8192 at 8192\nstopped 9 at 20\n"));
}
