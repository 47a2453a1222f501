//! The totals of each heap and class: kept by every call, and checked when handed in.

mod made_calls;

use hoard::{check_handed_in, free, free_named, renew, run, setup, take, take_named};
use hoard::{BlockId, Outcome, Refusal, Setup, State, Superblock, Totals, Usage};
use hoard::{CLASSES, GLOBAL_HEAP, HEAPS, ORDER_PLACES, SUPERBLOCKS};
use made_calls::{Calls, Choices};

/// A superblock to build a state with: owner, class and how many of its first
/// blocks are live.
type Owned = (u8, u8, u32);

/// Totals of a heap and class: heap, class, superblocks, live blocks.
type Line = (u8, u8, u32, u32);

/// Two processors and four superblocks, K = 1, p/q = 1/2.
fn state_of(owned: &[Owned]) -> (State, Vec<u16>) {
    let mut state = State::new(Setup::from_numbers([2, 4, 1, 1, 2]));
    let mut order = vec![9; 4 * ORDER_PLACES];
    for (number, &(owner, class, live)) in owned.iter().enumerate() {
        let superblock = &mut state.superblocks[number];
        superblock.owner = owner;
        renew(superblock, class, &mut order[number * ORDER_PLACES..]);
        (0..live).for_each(|block| superblock.mark(block));
    }
    state.control.totals = recount(&state.superblocks);
    check_handed_in(&state, &order).expect("a sound state");
    (state, order)
}

/// The totals, heap by heap and class by class.
fn recount(superblocks: &[Superblock]) -> Totals {
    let mut totals = Totals::NONE;
    for heap in 0..HEAPS {
        for class in 0..CLASSES {
            let of_both = |it: &&Superblock| (it.owner, it.class) == (heap as u8, class as u8);
            let counted = superblocks.iter().filter(of_both);
            totals.live[heap][class] = counted.clone().map(|it| it.live_count() as u16).sum();
            totals.superblocks[heap][class] = counted.count() as u8;
        }
    }
    totals
}

/// The totals that are not 0.
fn shown(totals: &Totals) -> Vec<Line> {
    let pairs = (0..HEAPS as u8).flat_map(|heap| (0..CLASSES as u8).map(move |it| (heap, it)));
    let lines = pairs.map(|(heap, class)| {
        let Usage { superblocks, live } = totals.usage(heap, class);
        (heap, class, superblocks, live)
    });
    lines
        .filter(|&(_, _, superblocks, live)| (superblocks, live) != (0, 0))
        .collect()
}

/// Checks the totals after an accepted take of a size by processor 1, plain and by
/// name.
fn after_take(owned: &[Owned], size: u16, expected: &[Line]) {
    let (state, order) = state_of(owned);
    for answer in [
        take(&state, 1, size, &mut order.clone()),
        take_named(&state, 1, 5, size, &mut order.clone()),
    ] {
        assert!(matches!(answer.outcome, Outcome::At(_)), "{owned:?}");
        assert_eq!(shown(&answer.state.control.totals), expected, "{owned:?}");
    }
}

#[test]
fn takes_from_each_place() {
    // Place 1, with nothing live and partly live.
    after_take(&[(1, 22, 0)], 1024, &[(1, 22, 1, 1)]);
    after_take(
        &[(1, 22, 3), (2, 22, 1)],
        1024,
        &[(1, 22, 1, 4), (2, 22, 1, 1)],
    );
    // Place 2, partly live: its live blocks go with it.
    after_take(
        &[(0, 22, 1), (0, 22, 0)],
        1024,
        &[(0, 22, 1, 0), (1, 22, 1, 2)],
    );
    after_take(&[(0, 0, 127), (1, 0, 256)], 0, &[(1, 0, 2, 384)]);
    // Place 2, with nothing live.
    after_take(
        &[(0, 22, 0), (2, 22, 4)],
        1024,
        &[(1, 22, 1, 1), (2, 22, 1, 4)],
    );
    // Place 3: the class that it had loses it.
    after_take(
        &[(0, 22, 1), (0, 22, 0)],
        16,
        &[(0, 22, 1, 1), (1, 0, 1, 1)],
    );
    after_take(&[(0, 26, 0)], 1, &[(1, 0, 1, 1)]);
    // Place 4.
    after_take(&[], 2048, &[(1, 26, 1, 1)]);
    after_take(&[(1, 26, 2)], 2048, &[(1, 26, 2, 3)]);
}

#[test]
fn frees_with_and_without_moves() {
    let cases: [(&[Owned], &[Line]); 5] = [
        (&[(1, 22, 4)], &[(1, 22, 1, 3)]),
        (&[(0, 22, 1)], &[(0, 22, 1, 0)]),
        // 3 of 8 live: the emptier one passes, live blocks and all.
        (&[(1, 22, 2), (1, 22, 2)], &[(0, 22, 1, 1), (1, 22, 1, 2)]),
        (&[(1, 26, 1), (1, 26, 1)], &[(0, 26, 1, 0), (1, 26, 1, 1)]),
        // Another heap's superblocks of the class stay as they are.
        (
            &[(1, 22, 2), (2, 22, 4), (1, 22, 2), (0, 22, 1)],
            &[(0, 22, 2, 2), (1, 22, 1, 2), (2, 22, 1, 4)],
        ),
    ];
    for (owned, expected) in cases {
        let (mut state, order) = state_of(owned);
        let first = BlockId {
            superblock: 0,
            block: 0,
        };
        state.control.names.bind(1023, first);
        for answer in [
            free(&state, 2, 0, &mut order.clone()),
            free_named(&state, 2, 1023, &mut order.clone()),
        ] {
            assert!(matches!(answer.outcome, Outcome::Moved(_)), "{owned:?}");
            assert_eq!(shown(&answer.state.control.totals), expected, "{owned:?}");
        }
    }
}

#[test]
fn setups_have_totals_of_0() {
    let mut order = vec![9; ORDER_PLACES];
    let accepted = setup(Setup::from_numbers([8, 1, 1, 1, 2]), &mut order);
    assert_eq!(accepted.outcome, Outcome::Ready);
    assert_eq!(accepted.state.control.totals, Totals::NONE);
    for asked in [[8, 2, 1, 1, 2], [9, 1, 1, 1, 2]] {
        let refused = setup(Setup::from_numbers(asked), &mut order);
        assert!(matches!(refused.outcome, Outcome::Refused(_)));
        assert_eq!(refused.state.control.totals, Totals::NONE);
    }
}

#[test]
fn recount_leaves_out_what_no_heap_or_class_has() {
    let (state, _) = state_of(&[(2, 22, 3), (0, 26, 0), (1, 0, 256), (2, 22, 4)]);
    assert_eq!(Totals::recount(&state.superblocks), state.control.totals);
    let odd = |owner, class| Superblock {
        owner,
        class,
        live: [u64::MAX; 4],
        rank: 0,
        run_length: 0,
    };
    let mut superblocks = [odd(9, 0); SUPERBLOCKS];
    superblocks[0] = odd(8, 27);
    superblocks[1] = odd(255, 0);
    superblocks[2] = odd(254, 0);
    assert_eq!(Totals::recount(&superblocks), Totals::NONE);
    let full = Totals::recount(&[odd(8, 0); SUPERBLOCKS]);
    assert_eq!(shown(&full), [(8, 0, 64, 16384)]);
}

/// Checks that a state with these totals is refused by every call, as it is.
fn is_refused(state: &State, order: &[u16]) {
    let mut lent = order.to_vec();
    for answer in [
        take(state, 1, 16, &mut lent),
        free(state, 1, 0, &mut lent),
        take_named(state, 1, 0, 16, &mut lent),
        free_named(state, 1, 0, &mut lent),
        take(state, 0, 2049, &mut lent),
    ] {
        assert_eq!(answer.outcome, Outcome::Refused(Refusal::State));
        assert_eq!(answer.state, *state);
    }
    assert_eq!(lent, order);
    let short = take(state, 1, 16, &mut lent[1..]);
    assert_eq!(short.outcome, Outcome::Refused(Refusal::Storage));
    assert_eq!(short.state, *state);
}

/// A sound state with heaps 0, 1 and 2 in use.
fn in_use() -> (State, Vec<u16>) {
    state_of(&[(1, 22, 3), (0, 22, 1), (2, 26, 2), (1, 0, 200)])
}

#[test]
fn every_total_is_checked() {
    let (sound, order) = in_use();
    for heap in 0..HEAPS {
        for class in 0..CLASSES {
            let right = sound.control.totals.superblocks[heap][class];
            for wrong in (0..=255).filter(|&it| it != right) {
                let mut state = sound.clone();
                state.control.totals.superblocks[heap][class] = wrong;
                assert_eq!(check_handed_in(&state, &order), Err(Refusal::State));
            }
            let right = sound.control.totals.live[heap][class];
            for change in (0..16).map(|bit| 1 << bit).chain([65535, 255, 65280]) {
                let mut state = sound.clone();
                state.control.totals.live[heap][class] = right ^ change;
                assert_eq!(check_handed_in(&state, &order), Err(Refusal::State));
            }
        }
    }
}

/// Checks that a change to the totals of a sound state is refused.
fn fails_after(change: impl Fn(&mut Totals)) {
    let (mut state, order) = in_use();
    let sound = state.clone();
    change(&mut state.control.totals);
    assert_ne!(state, sound);
    is_refused(&state, &order);
}

#[test]
fn damaged_totals() {
    // One more, one less, and past 0.
    fails_after(|totals| totals.superblocks[1][22] += 1);
    fails_after(|totals| totals.live[1][22] += 1);
    fails_after(|totals| totals.superblocks[2][26] -= 1);
    fails_after(|totals| totals.live[2][26] -= 1);
    fails_after(|totals| totals.superblocks[2][0] = 255);
    fails_after(|totals| totals.live[2][0] = 65535);
    // Sums stay right: over heaps, over classes, swapped.
    fails_after(|totals| {
        totals.live[1][22] -= 1;
        totals.live[0][22] += 1;
    });
    fails_after(|totals| {
        totals.superblocks[1][22] -= 1;
        totals.superblocks[1][0] += 1;
    });
    fails_after(|totals| totals.live.swap(0, 1));
    fails_after(|totals| totals.superblocks[1].swap(0, 26));
    // Heap 0, and heaps above P.
    fails_after(|totals| totals.live[0][22] = 0);
    fails_after(|totals| totals.superblocks[0] = [0; CLASSES]);
    fails_after(|totals| totals.superblocks[3][22] = 1);
    fails_after(|totals| totals.live[8][26] = 1);
    // One of the two kinds, or both.
    fails_after(|totals| totals.live = [[0; CLASSES]; HEAPS]);
    fails_after(|totals| totals.superblocks = [[0; CLASSES]; HEAPS]);
    fails_after(|totals| *totals = Totals::NONE);
    // Wide numbers, which no sum may overflow on.
    fails_after(|totals| totals.superblocks = [[255; CLASSES]; HEAPS]);
    fails_after(|totals| totals.live = [[65535; CLASSES]; HEAPS]);
    fails_after(|totals| totals.live[1][0] += 256);
    fails_after(|totals| totals.live[1][22] += 32768);
}

#[test]
fn totals_above_p_fail_where_nothing_is_owned() {
    let (sound, order) = state_of(&[]);
    for heap in 0..HEAPS {
        let mut state = sound.clone();
        state.control.totals.live[heap][0] = 1;
        is_refused(&state, &order);
        let mut state = sound.clone();
        state.control.totals.superblocks[heap][26] = 1;
        is_refused(&state, &order);
    }
}

/// Takes of a few classes and frees, some of them refused.
fn made_calls(seed: u64) -> Calls {
    let choices = Choices {
        sizes: &[0, 16, 200, 1024, 1024, 2048, 2048, 65535],
        names: 40,
        any_processor: true,
        offsets: [0, 0, 0, 0, 0, 0, 8, 16],
    };
    Calls { seed, choices }
}

/// What a call did to owners: from which heap superblocks came, and to which.
fn passes(before: &State, after: &State) -> Vec<(u8, u8)> {
    let pairs = before.superblocks.iter().zip(&after.superblocks);
    let changed = pairs.filter(|(old, new)| old.owner != new.owner);
    changed.map(|(old, new)| (old.owner, new.owner)).collect()
}

#[test]
fn totals_equal_a_recount_after_every_call() {
    let (mut accepted, mut moved, mut from_global) = (0, 0, 0);
    for seed in 0..60 {
        let mut calls = made_calls(seed);
        let processors = [1, 2, 3, 8][seed as usize % 4];
        let numbers = [processors, 4 + seed as u8 % 21, 1, 1, 2];
        let mut order = vec![0; SUPERBLOCKS * ORDER_PLACES];
        let mut state = setup(Setup::from_numbers(numbers), &mut order).state;
        for count in 0..600 {
            let takes = if count / 50 % 2 == 0 { 9 } else { 1 };
            let answer = run(&calls.next(takes, &state), &state, &mut order);
            if let Outcome::Refused(_) = answer.outcome {
                assert_eq!(answer.state, state);
                continue;
            }
            assert_eq!(
                answer.state.control.totals,
                recount(&answer.state.superblocks)
            );
            check_handed_in(&answer.state, &order).expect("a sound state");
            for (old, new) in passes(&state, &answer.state) {
                moved += u32::from(new == GLOBAL_HEAP);
                from_global += u32::from(old == GLOBAL_HEAP);
            }
            accepted += 1;
            state = answer.state;
        }
    }
    assert!(accepted > 10_000, "{accepted}");
    assert!(moved > 300, "{moved}");
    assert!(from_global > 200, "{from_global}");
}
