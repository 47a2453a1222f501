//! Setup, take and free on states and storage handed in.

use hoard::{free, free_named, renew, setup, take, take_named};
use hoard::{Answer, Outcome, Refusal, Setup, State, Superblock, Totals};
use hoard::{ORDER_PLACES, SUPERBLOCKS};

fn numbers(processors: u8, superblocks: u8, spare: u8, p: u8, q: u8) -> Setup {
    Setup::from_numbers([processors, superblocks, spare, p, q])
}

/// Gives superblock `number` to a heap with the first `live` blocks live, and puts
/// the totals right.
fn own(state: &mut State, order: &mut [u16], number: usize, owner: u8, class: u8, live: u32) {
    let superblock = &mut state.superblocks[number];
    superblock.owner = owner;
    renew(superblock, class, &mut order[number * ORDER_PLACES..]);
    (0..live).for_each(|block| superblock.mark(block));
    recount(state);
}

/// Puts the totals right for the superblocks as they are.
fn recount(state: &mut State) {
    state.control.totals = Totals::recount(&state.superblocks);
}

/// A state of six superblocks of class 16 with 7, 7, 7, 8, 8, 8 live.
fn on_the_threshold() -> (State, Vec<u16>) {
    let mut state = State::new(numbers(1, 6, 1, 1, 4));
    let mut order = vec![0; 6 * ORDER_PLACES];
    for (number, live) in [7, 7, 7, 8, 8, 8].into_iter().enumerate() {
        own(&mut state, &mut order, number, 1, 16, live);
    }
    (state, order)
}

fn refused(answer: &Answer) -> u8 {
    match answer.outcome {
        Outcome::Refused(refusal) => refusal.number(),
        other => panic!("not refused: {other:?}"),
    }
}

#[test]
fn two_moves_in_one_free() {
    let (state, mut order) = on_the_threshold();
    let answer = free(&state, 1, 3 * 4096 + 2 * 384, &mut order);
    assert_eq!(answer.outcome, Outcome::Moved(2));
    let owners: Vec<u8> = answer.state.superblocks[..6]
        .iter()
        .map(|it| it.owner)
        .collect();
    assert_eq!(owners, [0, 0, 1, 1, 1, 1]);
    assert_eq!(order[3 * ORDER_PLACES + 2], 2);
}

#[test]
fn setup_clears_its_places_and_no_more() {
    let mut order = vec![7; 3 * ORDER_PLACES];
    let answer = setup(numbers(1, 2, 1, 1, 2), &mut order);
    assert_eq!(answer.outcome, Outcome::Ready);
    assert_eq!(answer.state, State::new(numbers(1, 2, 1, 1, 2)));
    assert!(order[..2 * ORDER_PLACES].iter().all(|&place| place == 0));
    assert!(order[2 * ORDER_PLACES..].iter().all(|&place| place == 7));
}

#[test]
fn setup_limits() {
    let lawful = numbers(1, 1, 1, 1, 2);
    let most = numbers(8, 64, 16, 7, 8);
    let mut order = vec![0; SUPERBLOCKS * ORDER_PLACES];
    for asked in [lawful, most] {
        assert_eq!(setup(asked, &mut order).outcome, Outcome::Ready);
    }
    let past = [
        [0, 1, 1, 1, 2],
        [9, 1, 1, 1, 2],
        [1, 0, 1, 1, 2],
        [1, 65, 1, 1, 2],
        [1, 1, 0, 1, 2],
        [1, 1, 17, 1, 2],
        [1, 1, 1, 0, 2],
        [1, 1, 1, 2, 2],
        [1, 1, 1, 0, 0],
        [1, 1, 1, 1, 0],
        [1, 1, 1, 1, 1],
        [1, 1, 1, 1, 9],
        [255; 5],
    ];
    for asked in past {
        let answer = setup(Setup::from_numbers(asked), &mut order);
        assert_eq!(refused(&answer), 1, "{asked:?}");
        assert_eq!(answer.state, State::new(Setup::default()));
    }
}

#[test]
fn refused_setup_changes_no_place() {
    let mut order = vec![7; ORDER_PLACES - 1];
    let before = order.clone();
    assert_eq!(refused(&setup(numbers(1, 1, 1, 1, 2), &mut order)), 12);
    assert_eq!(refused(&setup(numbers(1, 1, 1, 2, 2), &mut order)), 1);
    assert_eq!(order, before);
}

#[test]
fn storage_of_just_n_times_256_places_is_enough() {
    let state = State::new(numbers(1, 2, 1, 1, 2));
    let mut order = vec![9; 2 * ORDER_PLACES];
    assert_eq!(take(&state, 1, 16, &mut order).outcome, Outcome::At(0));
    let mut short = vec![9; 2 * ORDER_PLACES - 1];
    assert_eq!(refused(&take(&state, 1, 16, &mut short)), 12);
    assert_eq!(refused(&free(&state, 1, 0, &mut [])), 12);
}

#[test]
fn renewal_writes_n_places_and_a_take_no_other() {
    let state = State::new(numbers(1, 1, 1, 1, 2));
    let mut order = vec![9; ORDER_PLACES];
    let answer = take(&state, 1, 384, &mut order);
    assert_eq!(answer.outcome, Outcome::At(0));
    assert_eq!(order[..11], [9, 8, 7, 6, 5, 4, 3, 2, 1, 0, 9]);
    let before = order.clone();
    assert_eq!(
        take(&answer.state, 1, 384, &mut order).outcome,
        Outcome::At(384)
    );
    assert_eq!(order, before);
}

/// States of two heaps in which a take of class 0 by processor 1 finds its block
/// in each of the four places, with the address it gets.
fn states_for_class_0() -> [(State, Vec<u16>, u32); 6] {
    let with = |owned: &[(u8, u8, u32)]| {
        let mut state = State::new(numbers(2, 3, 1, 1, 4));
        let mut order = vec![9; 3 * ORDER_PLACES];
        for (number, &(owner, class, live)) in owned.iter().enumerate() {
            own(&mut state, &mut order, number, owner, class, live);
        }
        (state, order)
    };
    let at = |(state, order), address| (state, order, address);
    [
        // Place 4: nothing is owned, or another heap's and a full one.
        at(with(&[]), 0),
        at(with(&[(2, 0, 5), (1, 0, 256)]), 2 * 4096),
        // Place 1: the fuller one of its own two.
        at(with(&[(1, 0, 200), (1, 0, 201)]), 4096 + 201 * 16),
        // Place 2: of the class and partly live, or empty.
        at(with(&[(1, 1, 3), (0, 0, 7)]), 4096 + 7 * 16),
        at(with(&[(0, 26, 0), (0, 0, 0)]), 4096),
        // Place 3: empty and of another class.
        at(with(&[(0, 26, 1), (0, 26, 0)]), 4096),
    ]
}

#[test]
fn size_0_does_what_1_and_16_do() {
    for (state, order, address) in states_for_class_0() {
        let taken = [0, 1, 16].map(|size| {
            let mut order = order.clone();
            let answer = take(&state, 1, size, &mut order);
            (answer, order)
        });
        assert_eq!(taken[0].0.outcome, Outcome::At(address));
        let superblock = &taken[0].0.state.superblocks[address as usize / 4096];
        assert_eq!((superblock.owner, superblock.class), (1, 0));
        assert_eq!(taken[1], taken[0]);
        assert_eq!(taken[2], taken[0]);
    }
}

#[test]
fn sizes_0_1_and_16_share_a_superblock() {
    let mut state = State::new(numbers(1, 2, 1, 1, 2));
    let mut order = vec![9; 2 * ORDER_PLACES];
    for (size, address) in [(0, 0), (1, 16), (16, 32), (0, 48), (17, 4096)] {
        let answer = take(&state, 1, size, &mut order);
        assert_eq!(answer.outcome, Outcome::At(address), "size {size}");
        state = answer.state;
    }
    assert_eq!(state.superblocks[0].class, 0);
    assert_eq!(state.superblocks[0].live, [0b1111, 0, 0, 0]);
    // The block freed last comes first, whichever of the sizes it was taken for.
    for (address, next_size) in [(0, 16), (32, 0), (48, 1)] {
        let freed = free(&state, 1, address, &mut order);
        assert_eq!(freed.outcome, Outcome::Moved(0));
        let answer = take(&freed.state, 1, next_size, &mut order);
        assert_eq!(answer.outcome, Outcome::At(address));
        state.superblocks[0].rank = 1;
        assert_eq!(answer.state, state);
    }
}

/// Checks that a take is refused so and changes nothing.
fn take_is_refused(state: &State, order: &[u16], processor: u8, size: u16, refusal: u8) {
    let mut lent = order.to_vec();
    let answer = take(state, processor, size, &mut lent);
    assert_eq!(refused(&answer), refusal, "take {processor} {size}");
    assert_eq!(answer.state, *state);
    assert_eq!(lent, order);
}

#[test]
fn size_0_with_no_such_processor() {
    for (state, order, _) in states_for_class_0() {
        for processor in [0, 3, 255] {
            take_is_refused(&state, &order, processor, 0, 2);
        }
    }
}

#[test]
fn size_0_with_no_superblock_left() {
    // Held by another class, full, or another heap's.
    for (owner, class, live) in [(1, 26, 1), (1, 26, 0), (1, 0, 256), (2, 0, 1), (0, 26, 1)] {
        let mut state = State::new(numbers(2, 1, 1, 1, 4));
        let mut order = vec![9; ORDER_PLACES];
        own(&mut state, &mut order, 0, owner, class, live);
        take_is_refused(&state, &order, 1, 0, 4);
        // The processor comes first; a long block has a refusal of its own.
        take_is_refused(&state, &order, 0, 0, 2);
        take_is_refused(&state, &order, 3, 0, 2);
        take_is_refused(&state, &order, 1, 2049, 17);
        take_is_refused(&state, &order, 1, 65535, 17);
        take_is_refused(&state, &order, 3, 2049, 2);
    }
}

#[test]
fn setup_numbers_before_storage_before_the_rest() {
    // Each of these takes but the first would have a refusal of its own.
    for (processor, size) in [(1, 0), (0, 0), (1, 65535), (0, 65535)] {
        let (mut state, mut order) = on_the_threshold();
        state.superblocks[0].owner = 2;
        recount(&mut state);
        assert_eq!(refused(&take(&state, processor, size, &mut order)), 13);
        let short = &mut order[1..];
        assert_eq!(refused(&take(&state, processor, size, short)), 12);
        state.control.setup.p = 4;
        assert_eq!(refused(&take(&state, processor, size, short)), 13);
    }
}

#[test]
fn refused_calls_hand_back_the_state_they_were_given() {
    let (mut state, mut order) = on_the_threshold();
    state.superblocks[63] = Superblock {
        owner: 1,
        class: 3,
        live: [u64::MAX; 4],
        rank: 9,
        run_length: 9,
    };
    let before = order.clone();
    for answer in [
        take(&state, 1, 16, &mut order),
        free(&state, 1, 0, &mut order),
        take_named(&state, 1, 0, 16, &mut order),
        free_named(&state, 1, 0, &mut order),
    ] {
        assert_eq!(answer.outcome, Outcome::Refused(Refusal::State));
        assert_eq!(answer.state, state);
    }
    assert_eq!(order, before);
}

/// Checks that one change to a sound state, with right totals for it, makes it fail.
fn fails_after(change: impl Fn(&mut State, &mut Vec<u16>)) {
    let (mut state, mut order) = on_the_threshold();
    state.superblocks[5] = Superblock::UNUSED;
    state.control.setup.spare = 2;
    recount(&mut state);
    assert_eq!(
        take(&state, 1, 16, &mut order).outcome,
        Outcome::At(5 * 4096)
    );
    let (_, mut order) = on_the_threshold();
    change(&mut state, &mut order);
    recount(&mut state);
    assert_eq!(refused(&take(&state, 1, 16, &mut order)), 13);
    assert_eq!(refused(&free(&state, 1, 0, &mut order)), 13);
    assert_eq!(refused(&take_named(&state, 1, 0, 16, &mut order)), 13);
    assert_eq!(refused(&free_named(&state, 1, 0, &mut order)), 13);
}

#[test]
fn each_clause_of_the_state_check() {
    fails_after(|state, _| state.control.setup.q = 9);
    fails_after(|state, _| state.superblocks[5].owner = 2);
    fails_after(|state, _| state.superblocks[0].owner = 253);
    fails_after(|state, _| state.superblocks[0].owner = 254);
    fails_after(|state, _| state.superblocks[5].owner = 254);
    fails_after(|state, _| state.superblocks[0].run_length = 1);
    fails_after(|state, _| state.superblocks[5].run_length = 1);
    fails_after(|state, _| state.superblocks[63].run_length = 255);
    fails_after(|state, _| state.superblocks[0].class = 27);
    fails_after(|state, _| state.superblocks[5].class = 1);
    fails_after(|state, _| state.superblocks[5].mark(200));
    fails_after(|state, _| state.superblocks[0].mark(10));
    fails_after(|state, _| state.superblocks[0].mark(255));
    fails_after(|_, order| order[1] = order[0]);
    fails_after(|_, order| order[1] = 10);
    fails_after(|_, order| order[1] = 65535);
    fails_after(|_, order| order[1] = 0);
    fails_after(|state, order| {
        order.resize(7 * ORDER_PLACES, 0);
        own(state, order, 6, 0, 26, 0);
    });
    fails_after(|state, _| state.control.setup.spare = 1);
    fails_after(|state, order| own(state, order, 5, 0, 26, 2));
    fails_after(|state, _| state.control.names.0[1023] = 16384);
}
