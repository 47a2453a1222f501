//! Drops of many blocks on states and storage handed in.

use hoard::{check_handed_in, drop, drop_row, free, renew, take};
use hoard::{Answer, Outcome, Refusal, Setup, State, Superblock, Totals};
use hoard::{ORDER_PLACES, SUPERBLOCK_BYTES};

/// Gives superblocks from 0 on to heaps, each with an owner, a class and its first so
/// many blocks live.
fn with_owned(setup: [u8; 5], owned: &[(u8, u8, u32)]) -> (State, Vec<u16>) {
    let mut state = State::new(Setup::from_numbers(setup));
    let mut order = vec![9; state.control.setup.order_places()];
    for (number, &(owner, class, live)) in owned.iter().enumerate() {
        let superblock = &mut state.superblocks[number];
        superblock.owner = owner;
        renew(superblock, class, &mut order[number * ORDER_PLACES..]);
        (0..live).for_each(|block| superblock.mark(block));
    }
    state.control.totals = Totals::recount(&state.superblocks);
    check_handed_in(&state, &order).expect("a sound state");
    (state, order)
}

/// Three heaps of two processors and two classes: superblocks 0 and 1 of heap 1 and
/// class 22, 2 of heap 2 and class 26, all full, 3 of heap 0 and class 22 with block 0
/// live. Names 0, 5 and 1023 hold the first blocks of superblocks 0, 2 and 3.
fn three_heaps() -> (State, Vec<u16>) {
    let owned = [(1, 22, 4), (1, 22, 4), (2, 26, 2), (0, 22, 1)];
    let (mut state, order) = with_owned([2, 5, 1, 1, 2], &owned);
    for (name, number) in [(0, 0), (5, 2 * 256), (1023, 3 * 256)] {
        state.control.names.0[name] = number;
    }
    (state, order)
}

fn held(state: &State) -> Vec<u16> {
    state.control.names.held().map(|(name, _)| name).collect()
}

fn owners(state: &State, count: usize) -> Vec<u8> {
    let superblocks = state.superblocks[..count].iter();
    superblocks.map(|superblock| superblock.owner).collect()
}

/// Checks that a drop is refused so, on the state and on a row, and changes nothing.
fn is_refused(state: &State, order: &[u16], processor: u8, addresses: &[u32], refusal: u8) {
    let mut lent = order.to_vec();
    let answer = drop(state, processor, addresses, &mut lent);
    let Outcome::Refused(refused) = answer.outcome else {
        panic!("{addresses:?}: {:?}", answer.outcome);
    };
    assert_eq!(refused.number(), refusal, "{processor} {addresses:?}");
    assert_eq!((&answer.state, &lent[..]), (state, order));

    let mut row = state.superblocks.to_vec();
    let control = state.control.clone();
    let on_row = drop_row(control, &mut row, processor, addresses, &mut lent);
    assert_eq!(on_row.outcome, answer.outcome);
    assert_eq!(on_row.control, state.control);
    assert_eq!((&row[..], &lent[..]), (&state.superblocks[..], order));
}

/// Makes a drop on the state and on a row, which must agree.
fn accepted(state: &State, addresses: &[u32], order: &mut [u16]) -> Answer {
    let mut row = state.superblocks.to_vec();
    let mut row_order = order.to_vec();
    let answer = drop(state, 1, addresses, order);
    let control = state.control.clone();
    let on_row = drop_row(control, &mut row, 1, addresses, &mut row_order);
    assert!(matches!(answer.outcome, Outcome::Moved(_)), "{addresses:?}");
    assert_eq!(on_row.outcome, answer.outcome);
    assert_eq!(on_row.control, answer.state.control);
    assert_eq!(row, answer.state.superblocks);
    assert_eq!(row_order, order);
    check_handed_in(&answer.state, order).expect("an accepted drop yields a sound state");
    answer
}

#[test]
fn refusals_in_their_order() {
    let (state, order) = three_heaps();
    for (processor, addresses, refusal) in [
        (0, &[][..], 2),
        (3, &[], 2),
        (255, &[0, 0], 2),
        (3, &[1, 16384], 2),
        (1, &[], 16),
        (2, &[], 16),
        (1, &[16384], 5),
        (1, &[16385], 5),
        (1, &[20480], 5),
        (1, &[u32::MAX], 5),
        (1, &[1], 6),
        (1, &[8192 + 1024], 6),
        (1, &[13312], 7),
        (1, &[0, 16384], 5),
        (1, &[0, 16384, 1, 13312], 5),
        (1, &[0, 1, 16384, 13312], 6),
        (1, &[13312, 16384, 1], 7),
        (1, &[0, 4096, 8192, 12288, 1], 6),
    ] {
        is_refused(&state, &order, processor, addresses, refusal);
    }
}

#[test]
fn an_address_listed_twice() {
    let (state, order) = three_heaps();
    for address in [0, 1024, 8192, 12288] {
        is_refused(&state, &order, 1, &[address, address], 7);
        is_refused(&state, &order, 1, &[address, 4096, 5120, address], 7);
        // The refusal of the first bad one.
        is_refused(&state, &order, 1, &[address, address, 16384], 7);
        is_refused(&state, &order, 1, &[address, 16384, address], 5);
    }
    let mut all: Vec<u32> = (0..8).map(|block| 1024 * block).collect();
    all.extend(0..8);
    is_refused(&state, &order, 1, &all, 7);
}

#[test]
fn setup_numbers_before_storage_before_the_rest_before_the_processor() {
    for addresses in [&[][..], &[0], &[0, 0], &[u32::MAX]] {
        for processor in [0, 1] {
            let (mut state, order) = three_heaps();
            state.control.names.0[9] = 1 + 3 * 256;
            is_refused(&state, &order, processor, addresses, 13);
            is_refused(&state, &order[1..], processor, addresses, 12);
            state.control.setup.p = 2;
            is_refused(&state, &order[1..], processor, addresses, 13);
        }
    }
}

#[test]
fn rows_that_are_not_64_long() {
    let (state, order) = three_heaps();
    for length in [0, 1, 63, 65] {
        let mut row = state.superblocks.to_vec();
        row.resize(length, Superblock::UNUSED);
        let before = row.clone();
        for (processor, addresses) in [(1, &[0, 4096][..]), (0, &[]), (1, &[])] {
            for (places, refusal) in [
                (order.len(), Refusal::State),
                (order.len() - 1, Refusal::Storage),
            ] {
                let mut lent = order[..places].to_vec();
                let control = state.control.clone();
                let answer = drop_row(control, &mut row, processor, addresses, &mut lent);
                assert_eq!(answer.outcome, Outcome::Refused(refusal), "{length}");
                assert_eq!(answer.control, state.control);
                assert_eq!((&row, &lent[..]), (&before, &order[..places]));
            }
        }
    }
}

#[test]
fn one_address_does_what_the_free_does() {
    let (state, order) = three_heaps();
    for number in 0..6 * SUPERBLOCK_BYTES / 256 {
        for address in [256 * number, 256 * number + 1] {
            let (mut drop_order, mut free_order) = (order.clone(), order.clone());
            let dropped = drop(&state, 2, &[address], &mut drop_order);
            let freed = free(&state, 2, address, &mut free_order);
            assert_eq!((dropped, drop_order), (freed, free_order), "{address}");
        }
    }
}

#[test]
fn marks_order_ranks_names_and_totals() {
    let (state, mut order) = three_heaps();
    let answer = accepted(&state, &[12288, 5120, 8192, 2048, 4096], &mut order);
    assert_eq!(answer.outcome, Outcome::Moved(0));
    let next = &answer.state;
    let marks = next.superblocks[..4].iter().map(|it| it.live[0]);
    assert_eq!(marks.collect::<Vec<_>>(), [0b1011, 0b1100, 0b10, 0]);
    // The last of its addresses ranks a superblock.
    let ranks = next.superblocks[..4].iter().map(|it| it.rank);
    assert_eq!(ranks.collect::<Vec<_>>(), [2, 1, 3, 4]);
    assert_eq!(held(next), [0]);
    assert_eq!(order[0], 2);
    assert_eq!(order[ORDER_PLACES..ORDER_PLACES + 2], [1, 0]);
    assert_eq!(order[2 * ORDER_PLACES], 0);
    assert_eq!(order[3 * ORDER_PLACES..][..4], [3, 2, 1, 0]);
    let totals = Totals::recount(&next.superblocks);
    assert_eq!(next.control.totals, totals);
    assert_eq!(totals.live[1][22], 5);
    assert_eq!(totals.live[0][22], 0);
}

#[test]
fn moves_come_after_all_frees() {
    // One by one the frees pass superblock 1 on, since it is empty when the heap gets
    // over its threshold and superblock 0 is not.
    let (state, order) = with_owned([2, 4, 1, 1, 2], &[(1, 22, 4); 3]);
    let addresses = [4096, 5120, 6144, 7168, 0, 1024, 2048, 3072];
    let mut drop_order = order.clone();
    let dropped = accepted(&state, &addresses, &mut drop_order);
    assert_eq!(dropped.outcome, Outcome::Moved(1));
    assert_eq!(owners(&dropped.state, 3), [0, 1, 1]);

    let mut one_by_one = state;
    let mut free_order = order;
    for address in addresses {
        one_by_one = free(&one_by_one, 1, address, &mut free_order).state;
    }
    assert_eq!(owners(&one_by_one, 3), [1, 0, 1]);
    assert_eq!(free_order, drop_order);
}

#[test]
fn moves_of_every_heap_and_class_touched() {
    let owned = [
        (1, 22, 4),
        (1, 22, 4),
        (2, 26, 2),
        (2, 26, 2),
        (1, 26, 2),
        (1, 26, 2),
    ];
    let (state, mut order) = with_owned([2, 6, 1, 1, 2], &owned);
    // All but one block of each heap and class, the classes in any order.
    let addresses = [
        8192, 0, 16384, 1024, 2048, 12288, 3072, 20480, 4096, 10240, 18432, 5120, 6144,
    ];
    let answer = accepted(&state, &addresses, &mut order);
    assert_eq!(answer.outcome, Outcome::Moved(3));
    assert_eq!(owners(&answer.state, 6), [0, 1, 0, 2, 0, 1]);
}

#[test]
fn blocks_of_heap_0_touch_nothing() {
    let (state, mut order) = with_owned([1, 4, 1, 1, 2], &[(0, 22, 1), (0, 22, 1), (1, 22, 4)]);
    let answer = accepted(&state, &[4096, 0], &mut order);
    assert_eq!(answer.outcome, Outcome::Moved(0));
    assert_eq!(owners(&answer.state, 3), [0, 0, 1]);
    assert_eq!(answer.state.superblocks[0].rank, 1);
    assert_eq!(answer.state.superblocks[1].rank, 2);
}

#[test]
fn more_addresses_than_a_record_can_count() {
    let (state, mut order) = with_owned([1, 64, 1, 1, 8], &[(1, 0, 256); 64]);
    let addresses: Vec<u32> = (0..64 * 256).rev().map(|block| 16 * block).collect();
    let answer = accepted(&state, &addresses, &mut order);
    assert_eq!(answer.outcome, Outcome::Moved(63));
    assert_eq!(answer.state.superblocks[63].owner, 1);
    let ranks = answer.state.superblocks.iter().map(|it| it.rank);
    assert!(ranks.eq(1..=64));
    // Block 0 of each superblock was freed last.
    assert_eq!(
        take(&answer.state, 1, 16, &mut order).outcome,
        Outcome::At(63 * 4096)
    );
}
