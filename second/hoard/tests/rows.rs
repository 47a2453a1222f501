//! Setup, take and free, plain and by name, on lent rows of every length around 64.

use hoard::{free_named_row, free_row, renew, run, run_row, setup, setup_row};
use hoard::{take_named_row, take_row, BlockId, Command, Control, Names, Outcome, RowAnswer};
use hoard::{Setup, State, Superblock, Totals, Usage, ORDER_PLACES, SUPERBLOCKS};

const LENGTHS: [usize; 5] = [0, 1, 63, 64, 65];

/// No superblock that a check passes.
const ODD: Superblock = Superblock {
    owner: 9,
    class: 9,
    live: [9; 4],
    rank: 9,
    run_length: 9,
};

const FIRST_BLOCK: BlockId = BlockId {
    superblock: 0,
    block: 0,
};

fn numbers(processors: u8, superblocks: u8, spare: u8, p: u8, q: u8) -> Setup {
    Setup::from_numbers([processors, superblocks, spare, p, q])
}

fn refused(answer: &RowAnswer) -> u8 {
    match answer.outcome {
        Outcome::Refused(refusal) => refusal.number(),
        other => panic!("not refused: {other:?}"),
    }
}

/// Two superblocks, the first of heap 1 and class 26 with block 0 live, which name 7
/// holds.
fn sound() -> (State, Vec<u16>) {
    let mut state = State::new(numbers(1, 2, 1, 1, 4));
    let mut order = vec![7; 2 * ORDER_PLACES];
    state.superblocks[0].owner = 1;
    renew(&mut state.superblocks[0], 26, &mut order);
    state.superblocks[0].mark(0);
    state.control.names.bind(7, FIRST_BLOCK);
    state.control.totals = Totals::recount(&state.superblocks);
    (state, order)
}

/// The state's superblocks as a row: the first of them, or all and an odd one.
fn row_of(state: &State, length: usize) -> Vec<Superblock> {
    let mut row = state.superblocks.to_vec();
    row.resize(length, ODD);
    row
}

/// A setup that is refused: five zeros, row and storage as they were.
fn setup_is_refused(asked: Setup, length: usize, places: usize, refusal: u8) {
    let (mut row, mut order) = (vec![ODD; length], vec![7; places]);
    let answer = setup_row(asked, &mut row, &mut order);
    assert_eq!(refused(&answer), refusal, "{asked:?} {length} {places}");
    assert_eq!(answer.control, Control::new(Setup::default()));
    assert_eq!(row, vec![ODD; length]);
    assert_eq!(order, vec![7; places]);
}

/// Takes and frees, plain and by name, that are all refused: numbers, names, totals,
/// row and storage as they were.
fn calls_are_refused(state: &State, length: usize, order: &[u16], refusal: u8) {
    let control = || state.control.clone();
    // The last two pairs of calls would have refusals of their own.
    for (processor, size, address) in [
        (1, 2048, 0),
        (1, 0, 0),
        (0, 0, u32::MAX),
        (0, 2049, u32::MAX),
    ] {
        let before = row_of(state, length);
        let (mut row, mut lent) = (before.clone(), order.to_vec());
        for answer in [
            take_row(control(), &mut row, processor, size, &mut lent),
            free_row(control(), &mut row, processor, address, &mut lent),
            take_named_row(control(), &mut row, processor, 1024, size, &mut lent),
            free_named_row(control(), &mut row, processor, 5, &mut lent),
        ] {
            assert_eq!(refused(&answer), refusal, "{length} {}", order.len());
            assert_eq!(answer.control, state.control);
        }
        assert_eq!(row, before);
        assert_eq!(lent, order);
    }
}

#[test]
fn setup_numbers_before_storage_before_length() {
    let asked = numbers(1, 2, 1, 1, 4);
    let places = asked.order_places();
    for length in LENGTHS {
        for out_of_limits in [[0, 2, 1, 1, 4], [1, 65, 1, 1, 4], [1, 2, 1, 4, 4], [0; 5]] {
            for places in [0, places - 1, places, 65 * ORDER_PLACES] {
                setup_is_refused(Setup::from_numbers(out_of_limits), length, places, 1);
            }
        }
        for short in [0, 1, places - 1] {
            setup_is_refused(asked, length, short, 12);
        }
        if length != SUPERBLOCKS {
            for places in [places, places + 1, 64 * ORDER_PLACES] {
                setup_is_refused(asked, length, places, 13);
            }
        }
    }
}

#[test]
fn accepted_setup_writes_the_whole_row() {
    let asked = numbers(8, 2, 1, 1, 4);
    let (mut row, mut order) = (vec![ODD; 64], vec![7; 3 * ORDER_PLACES]);
    let answer = setup_row(asked, &mut row, &mut order);
    assert_eq!(answer.outcome, Outcome::Ready);
    assert_eq!(answer.control, Control::new(asked));
    assert_eq!(row, vec![Superblock::UNUSED; 64]);
    assert!(order[..2 * ORDER_PLACES].iter().all(|&place| place == 0));
    assert!(order[2 * ORDER_PLACES..].iter().all(|&place| place == 7));
}

#[test]
fn state_numbers_before_storage_before_length() {
    let (sound, order) = sound();
    for length in LENGTHS {
        // Numbers outside their limits are 13 whatever the storage.
        for out_of_limits in [[0, 2, 1, 1, 4], [1, 65, 1, 1, 4], [1, 2, 1, 4, 4], [0; 5]] {
            let mut state = sound.clone();
            state.control.setup = Setup::from_numbers(out_of_limits);
            for places in [0, 1, order.len() - 1, order.len()] {
                calls_are_refused(&state, length, &order[..places], 13);
            }
        }
        // Short storage is 12 whatever the row's length, and whatever row, names and
        // totals hold.
        let mut damaged = sound.clone();
        damaged.superblocks[0].owner = 2;
        damaged.control.totals = Totals::recount(&damaged.superblocks);
        let mut misnamed = sound.clone();
        misnamed.control.names.0[1023] = 1;
        let mut miscounted = sound.clone();
        miscounted.control.totals.live[8][26] = 65535;
        for places in [0, 1, order.len() - 1] {
            for state in [&sound, &damaged, &misnamed, &miscounted] {
                calls_are_refused(state, length, &order[..places], 12);
            }
        }
        // The length and what row, names and totals hold are 13, before the calls'
        // own.
        if length > 0 {
            calls_are_refused(&damaged, length, &order, 13);
        }
        calls_are_refused(&misnamed, length, &order, 13);
        calls_are_refused(&miscounted, length, &order, 13);
        if length != SUPERBLOCKS {
            calls_are_refused(&sound, length, &order, 13);
        }
    }
}

#[test]
fn each_record_of_a_row_is_checked() {
    let (sound, order) = sound();
    for number in 0..SUPERBLOCKS {
        let mut state = sound.clone();
        state.superblocks[number] = ODD;
        state.control.totals = Totals::recount(&state.superblocks);
        calls_are_refused(&state, SUPERBLOCKS, &order, 13);
    }
}

#[test]
fn own_refusals_on_a_row_of_64() {
    let (state, order) = sound();
    let before = row_of(&state, 64);
    let (mut row, mut lent) = (before.clone(), order.clone());
    let control = || state.control.clone();
    let check = |answer: RowAnswer, refusal| {
        assert_eq!((refused(&answer), answer.control), (refusal, control()));
    };
    for (processor, size, refusal) in [
        (0, 0, 2),
        (2, 0, 2),
        (2, 16, 2),
        (0, 2049, 2),
        (2, 65535, 2),
        (1, 4097, 17),
        (1, 65535, 17),
    ] {
        let answer = take_row(control(), &mut row, processor, size, &mut lent);
        check(answer, refusal);
        // A name that is available changes none of these.
        let answer = take_named_row(control(), &mut row, processor, 1023, size, &mut lent);
        check(answer, refusal);
    }
    for (processor, address, refusal) in [
        (0, 8192, 2),
        (1, 8192, 5),
        (1, 4097, 5),
        (1, 1, 6),
        (1, 2048, 7),
    ] {
        let answer = free_row(control(), &mut row, processor, address, &mut lent);
        check(answer, refusal);
    }
    for (processor, name, size, refusal) in [
        (0, 7, 2049, 2),
        (2, 1024, 16, 2),
        (1, 7, 16, 14),
        (1, 7, 4097, 14),
        (1, 1024, 65535, 14),
        (1, 65535, 0, 14),
    ] {
        let answer = take_named_row(control(), &mut row, processor, name, size, &mut lent);
        check(answer, refusal);
    }
    for (processor, name, refusal) in [
        (0, 7, 2),
        (2, 8, 2),
        (1, 8, 15),
        (1, 1023, 15),
        (1, 1024, 15),
        (1, 65535, 15),
    ] {
        let answer = free_named_row(control(), &mut row, processor, name, &mut lent);
        check(answer, refusal);
    }
    assert_eq!((row, lent), (before, order));
}

#[test]
fn names_go_in_and_come_back_by_value() {
    let (state, order) = sound();
    let (mut row, mut lent) = (row_of(&state, 64), order.clone());
    let taken = take_named_row(state.control.clone(), &mut row, 1, 1023, 2048, &mut lent);
    assert_eq!(taken.outcome, Outcome::At(2048));
    assert_eq!(taken.control.names.block_of(7), Some(FIRST_BLOCK));
    assert_eq!(taken.control.names.0[1023], 1);
    // A plain free lets the name of its block go, a free by name its own.
    let freed = free_row(taken.control, &mut row, 1, 0, &mut lent);
    assert_eq!(freed.outcome, Outcome::Moved(0));
    let held: Vec<u16> = freed.control.names.held().map(|(name, _)| name).collect();
    assert_eq!(held, [1023]);
    let freed = free_named_row(freed.control, &mut row, 1, 1023, &mut lent);
    assert_eq!(freed.outcome, Outcome::Moved(0));
    assert_eq!(freed.control.names, Names::NONE);
    assert_eq!((row[0].owner, row[0].live_count()), (1, 0));
}

#[test]
fn totals_go_in_and_come_back_by_value() {
    let (state, order) = sound();
    let (mut row, mut lent) = (row_of(&state, 64), order.clone());
    let usage = |answer: &RowAnswer, class| answer.control.totals.usage(1, class);
    let taken = take_row(state.control.clone(), &mut row, 1, 2048, &mut lent);
    assert_eq!(usage(&taken, 26), usage_of(1, 2));
    let taken = take_named_row(taken.control, &mut row, 1, 0, 16, &mut lent);
    assert_eq!(usage(&taken, 26), usage_of(1, 2));
    assert_eq!(usage(&taken, 0), usage_of(1, 1));
    let freed = free_row(taken.control, &mut row, 1, 4096, &mut lent);
    assert_eq!(usage(&freed, 0), usage_of(1, 0));
    let freed = free_named_row(freed.control, &mut row, 1, 7, &mut lent);
    assert_eq!(usage(&freed, 26), usage_of(1, 1));
    let ready = setup_row(numbers(8, 1, 1, 1, 4), &mut row, &mut lent);
    assert_eq!(ready.control.totals, Totals::NONE);
}

fn usage_of(superblocks: u32, live: u32) -> Usage {
    Usage { superblocks, live }
}

#[test]
fn no_superblock_left_on_a_row() {
    let numbers = numbers(1, 1, 1, 1, 4);
    let (mut row, mut order) = (vec![ODD; 64], vec![7; ORDER_PLACES]);
    let control = setup_row(numbers, &mut row, &mut order).control;
    let taken = take_row(control, &mut row, 1, 2048, &mut order);
    assert_eq!(taken.outcome, Outcome::At(0));
    let before = (row.clone(), order.clone());
    let control = || taken.control.clone();
    for size in [0, 1, 16] {
        for answer in [
            take_row(control(), &mut row, 1, size, &mut order),
            take_named_row(control(), &mut row, 1, 0, size, &mut order),
        ] {
            assert_eq!((refused(&answer), answer.control), (4, control()));
        }
    }
    assert_eq!((row, order), before);
}

#[test]
fn size_0_on_a_row_does_what_1_and_16_do() {
    let (state, order) = sound();
    let taken = [0, 1, 16].map(|size| {
        let (mut row, mut lent) = (row_of(&state, 64), order.clone());
        let answer = take_row(state.control.clone(), &mut row, 1, size, &mut lent);
        (answer, row, lent)
    });
    let (answer, row, _) = &taken[0];
    assert_eq!(answer.outcome, Outcome::At(4096));
    assert_eq!((row[1].owner, row[1].class, row[1].live_count()), (1, 0, 1));
    assert_eq!(taken[1], taken[0]);
    assert_eq!(taken[2], taken[0]);
}

/// The same calls on a state and on a row.
struct Both {
    state: State,
    order: Vec<u16>,
    row: Vec<Superblock>,
    row_order: Vec<u16>,
}

impl Both {
    fn call(&mut self, command: Command) -> Outcome {
        let control = self.state.control.clone();
        let answer = run(&command, &self.state, &mut self.order);
        let on_row = run_row(&command, control, &mut self.row, &mut self.row_order);
        assert_eq!(on_row.outcome, answer.outcome);
        assert_eq!(on_row.control, answer.state.control);
        assert_eq!(self.row, answer.state.superblocks);
        assert_eq!(self.row_order, self.order);
        self.state = answer.state;
        answer.outcome
    }
}

/// Heaps filled until no superblock is left and emptied again, heap 2 by name: on a
/// row as on states.
#[test]
fn calls_on_a_row_are_those_on_a_state() {
    let numbers = numbers(2, 8, 1, 1, 4);
    let mut row = vec![ODD; 64];
    let mut order = vec![7; 9 * ORDER_PLACES];
    setup_row(numbers, &mut row, &mut order.clone());
    let state = setup(numbers, &mut order).state;
    let row_order = order.clone();
    let mut both = Both {
        state,
        order,
        row,
        row_order,
    };
    let mut moved = 0;
    for size in [384, 2048, 16, 384] {
        let mut frees = Vec::new();
        for name in 0.. {
            let (processor, named) = (name as u8 % 2 + 1, name % 2 == 1);
            let take = Command::Take { processor, size };
            let take_named = Command::NamedTake {
                processor,
                name,
                size,
            };
            match both.call(if named { take_named } else { take }) {
                Outcome::At(_) if named => frees.push(Command::NamedFree { processor, name }),
                Outcome::At(address) => frees.push(Command::Free { processor, address }),
                _ => break,
            }
        }
        for free in frees {
            match both.call(free.clone()) {
                Outcome::Moved(count) => moved += count,
                other => panic!("{free:?}: {other:?}"),
            }
        }
        assert_eq!(both.state.control.names, Names::NONE);
    }
    // Each heap keeps one superblock of a class: 8 - 2, 6 - 2, 4 - 2 and 4 - 2 move.
    assert_eq!(moved, 14);
}
