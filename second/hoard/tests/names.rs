//! Takes and frees by name on states handed in.

use hoard::{check_handed_in, free, free_named, renew, setup, take, take_named};
use hoard::{Answer, BlockId, Names, Outcome, Refusal, Setup, State, Totals};
use hoard::{NOT_HELD, ORDER_PLACES};

/// Four superblocks, two processors: superblock 0 of class 1 with blocks 0 to 168
/// live, superblock 1 of class 26 with block 1 live, superblock 2 of heap 0 and class
/// 22 with block 3 live.
fn some_live() -> (State, Vec<u16>) {
    let mut state = State::new(Setup::from_numbers([2, 4, 1, 1, 4]));
    let mut order = vec![9; 4 * ORDER_PLACES];
    for (number, owner, class) in [(0, 1, 1), (1, 2, 26), (2, 0, 22)] {
        let superblock = &mut state.superblocks[number];
        superblock.owner = owner;
        renew(superblock, class, &mut order[number * ORDER_PLACES..]);
    }
    (0..169).for_each(|block| state.superblocks[0].mark(block));
    state.superblocks[1].mark(1);
    order[ORDER_PLACES] = 0;
    state.superblocks[2].mark(3);
    order[2 * ORDER_PLACES..2 * ORDER_PLACES + 3].copy_from_slice(&[0, 1, 2]);
    state.control.totals = Totals::recount(&state.superblocks);
    check_handed_in(&state, &order).expect("a sound state");
    (state, order)
}

/// The same with name 0 at superblock 0's block 168, 5 at superblock 1's block 1 and
/// 1023 at superblock 2's block 3.
fn some_named() -> (State, Vec<u16>) {
    let (mut state, order) = some_live();
    for (name, number) in [(0, 168), (5, 256 + 1), (1023, 512 + 3)] {
        state.control.names.0[name] = number;
    }
    (state, order)
}

fn held(state: &State) -> Vec<u16> {
    state.control.names.held().map(|(name, _)| name).collect()
}

/// Checks that a call is refused so and changes nothing.
fn is_refused(refusal: u8, call: impl Fn(&State, &mut [u16]) -> Answer) {
    let (state, order) = some_named();
    let mut lent = order.clone();
    let answer = call(&state, &mut lent);
    match answer.outcome {
        Outcome::Refused(refused) => assert_eq!(refused.number(), refusal),
        other => panic!("not refused: {other:?}"),
    }
    assert_eq!((answer.state, lent), (state, order));
}

#[test]
fn blocks_by_number() {
    for number in 0..NOT_HELD {
        assert_eq!(BlockId::from_number(number).number(), number);
    }
    let last = BlockId {
        superblock: 63,
        block: 255,
    };
    assert_eq!(last.number(), 16383);
}

#[test]
fn setups_hold_no_name() {
    let asked = Setup::from_numbers([2, 4, 1, 1, 4]);
    let mut order = vec![9; 4 * ORDER_PLACES];
    assert_eq!(setup(asked, &mut order).state.control.names, Names::NONE);
    let refused = setup(asked, &mut []);
    assert_eq!(refused.outcome, Outcome::Refused(Refusal::Storage));
    assert_eq!(refused.state.control.names, Names::NONE);
}

#[test]
fn takes_by_name_do_what_plain_ones_do() {
    for (processor, size) in [(1, 24), (1, 1024), (2, 2048), (2, 0), (1, 1280)] {
        let (state, order) = some_named();
        let (mut plain_order, mut named_order) = (order.clone(), order);
        let plain = take(&state, processor, size, &mut plain_order);
        let named = take_named(&state, processor, 1022, size, &mut named_order);
        let Outcome::At(address) = named.outcome else {
            panic!("{:?}", named.outcome);
        };
        let block = named.state.control.names.block_of(1022).unwrap();
        assert_eq!(named.state.address_of(block), address);
        assert_eq!(held(&named.state), [0, 5, 1022, 1023]);
        let mut expected = plain;
        expected.state.control.names.bind(1022, block);
        assert_eq!((named, named_order), (expected, plain_order));
    }
}

#[test]
fn frees_by_name_do_what_plain_ones_do() {
    for (name, address) in [(0, 168 * 24), (5, 4096 + 2048), (1023, 8192 + 3 * 1024)] {
        let (state, order) = some_named();
        let (mut plain_order, mut named_order) = (order.clone(), order);
        let plain = free(&state, 2, address, &mut plain_order);
        let named = free_named(&state, 2, name, &mut named_order);
        assert_eq!(plain.outcome, Outcome::Moved(0));
        assert_eq!(plain.state.control.names.block_of(name), None);
        assert_eq!(held(&plain.state).len(), 2);
        assert_eq!((named, named_order), (plain, plain_order));
    }
}

#[test]
fn a_plain_free_of_another_block_lets_no_name_go() {
    let (state, mut order) = some_named();
    let answer = free(&state, 1, 0, &mut order);
    assert_eq!(answer.outcome, Outcome::Moved(0));
    assert_eq!(answer.state.control.names, state.control.names);
}

#[test]
fn a_name_is_used_again() {
    let (mut state, mut order) = some_named();
    for by_address in [true, false, true] {
        let freed = if by_address {
            free(&state, 1, 168 * 24, &mut order)
        } else {
            free_named(&state, 1, 0, &mut order)
        };
        assert_eq!(freed.outcome, Outcome::Moved(0));
        assert_eq!(held(&freed.state), [5, 1023]);
        let taken = take_named(&freed.state, 1, 0, 17, &mut order);
        assert_eq!(taken.outcome, Outcome::At(168 * 24));
        state.superblocks[0].rank = 1;
        assert_eq!(taken.state, state);
        state = taken.state;
    }
}

#[test]
fn refusals_of_takes_by_name() {
    for (processor, name, size, refusal) in [
        (0, 0, 2049, 2),
        (3, 1024, 16, 2),
        (255, 7, 16, 2),
        (1, 0, 4097, 14),
        (1, 0, 24, 14),
        (2, 1023, 24, 14),
        (1, 1024, 24, 14),
        (1, 1024, 4097, 14),
        (1, 65535, 65535, 14),
        (1, 1, 4097, 17),
        (1, 1022, 65535, 17),
    ] {
        is_refused(refusal, |state, order| {
            take_named(state, processor, name, size, order)
        });
    }
}

#[test]
fn names_come_before_no_superblock_left() {
    let (mut state, order) = some_named();
    state.control.setup.superblocks = 3;
    for (name, refusal) in [
        (0, Refusal::TakenName),
        (1024, Refusal::TakenName),
        (1, Refusal::NoSuperblock),
    ] {
        let mut lent = order.clone();
        let answer = take_named(&state, 1, name, 2048, &mut lent);
        assert_eq!(answer.outcome, Outcome::Refused(refusal));
        assert_eq!((answer.state, &lent), (state.clone(), &order));
    }
}

#[test]
fn refusals_of_frees_by_name() {
    for (processor, name, refusal) in [
        (0, 0, 2),
        (3, 1, 2),
        (3, 65535, 2),
        (1, 1, 15),
        (1, 1022, 15),
        (1, 1024, 15),
        (1, 65535, 15),
    ] {
        is_refused(refusal, |state, order| {
            free_named(state, processor, name, order)
        });
    }
}

/// Whether a state passes its check with a name at a number.
fn passes_with(name: usize, number: u16) -> bool {
    let (mut state, order) = some_live();
    state.control.names.0[name] = number;
    check_handed_in(&state, &order).is_ok()
}

#[test]
fn each_number_of_a_name() {
    let sound = (0..=u16::MAX).filter(|&number| passes_with(500, number));
    let live = (0..169).chain([256 + 1, 512 + 3, NOT_HELD]);
    assert!(sound.eq(live));
}

#[test]
fn each_name_is_checked() {
    for name in 0..1024 {
        assert!(passes_with(name, 168), "{name}");
        assert!(!passes_with(name, 169), "{name}");
    }
}

#[test]
fn no_two_names_at_one_block() {
    let (sound, order) = some_named();
    for (name, other) in [(0, 1023), (0, 1), (1022, 1023), (15, 16), (100, 700)] {
        let mut state = sound.clone();
        state.control.names.0[name] = 3;
        state.control.names.0[other] = 4;
        check_handed_in(&state, &order).expect("two blocks");
        state.control.names.0[other] = 3;
        assert_eq!(check_handed_in(&state, &order), Err(Refusal::State));
    }
}

#[test]
fn storage_before_names_before_the_processor() {
    let (mut state, mut order) = some_named();
    state.control.names.0[9] = 169;
    for processor in [0, 1] {
        let calls = |order: &mut [u16]| {
            [
                take(&state, processor, 24, order).outcome,
                free(&state, processor, 0, order).outcome,
                take_named(&state, processor, 1024, 24, order).outcome,
                free_named(&state, processor, 1024, order).outcome,
            ]
        };
        assert_eq!(calls(&mut order), [Outcome::Refused(Refusal::State); 4]);
        let short = &mut order[1..];
        assert_eq!(calls(short), [Outcome::Refused(Refusal::Storage); 4]);
    }
}
