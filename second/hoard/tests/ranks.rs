//! The ranking of superblocks by their last free: kept by every call, decisive among
//! equally full ones, and checked when handed in.

mod agreement;
mod made_calls;

use agreement::check_agrees;
use hoard::{check_handed_in, free, free_named, renew, run, setup, take, take_named};
use hoard::{Answer, BlockId, Command, Outcome, Refusal, Setup, State, Superblock, Totals};
use hoard::{GLOBAL_HEAP, ORDER_PLACES, SUPERBLOCKS, UNUSED_OWNER};
use made_calls::{Calls, Choices};

/// A superblock to build a state with: owner, class, how many of its first blocks are
/// live, and rank.
type Owned = (u8, u8, u32, u8);

/// Two processors, K = 1, p/q = 1/4, and as many superblocks as are given and one.
fn state_of(owned: &[Owned]) -> (State, Vec<u16>) {
    let count = owned.len() as u8 + 1;
    let (state, order) = unchecked([2, count, 1, 1, 4], owned);
    check_handed_in(&state, &order).expect("a sound state");
    (state, order)
}

/// A state with right totals, whatever its ranks are.
fn unchecked(setup: [u8; 5], owned: &[Owned]) -> (State, Vec<u16>) {
    let mut state = State::new(Setup::from_numbers(setup));
    let mut order = vec![9; SUPERBLOCKS * ORDER_PLACES];
    for (number, &(owner, class, live, rank)) in owned.iter().enumerate() {
        let superblock = &mut state.superblocks[number];
        superblock.owner = owner;
        renew(superblock, class, &mut order[number * ORDER_PLACES..]);
        (0..live).for_each(|block| superblock.mark(block));
        superblock.rank = rank;
    }
    state.control.totals = Totals::recount(&state.superblocks);
    (state, order)
}

fn ranks(state: &State, count: usize) -> Vec<u8> {
    state.superblocks[..count]
        .iter()
        .map(|superblock| superblock.rank)
        .collect()
}

/// A take of a size by processor 1, plain and by name: the superblock it gets and the
/// ranks after it.
fn after_take(owned: &[Owned], size: u16, number: u32, expected: &[u8]) {
    let (state, order) = state_of(owned);
    for answer in [
        take(&state, 1, size, &mut order.clone()),
        take_named(&state, 1, 5, size, &mut order.clone()),
    ] {
        let Outcome::At(address) = answer.outcome else {
            panic!("{owned:?}: {:?}", answer.outcome);
        };
        assert_eq!(address / 4096, number, "{owned:?}");
        assert_eq!(ranks(&answer.state, expected.len()), expected, "{owned:?}");
        check_handed_in(&answer.state, &order_after(&state, size, &order)).expect("sound");
    }
}

/// The order places after a take of a size by processor 1.
fn order_after(state: &State, size: u16, order: &[u16]) -> Vec<u16> {
    let mut order = order.to_vec();
    take(state, 1, size, &mut order);
    order
}

/// A free of block 0 of a superblock by processor 2, plain and by name: the owners
/// and the ranks after it.
fn after_free(owned: &[Owned], number: usize, owners: &[u8], expected: &[u8]) {
    let (mut state, order) = state_of(owned);
    let freed = BlockId {
        superblock: number,
        block: 0,
    };
    state.control.names.bind(1023, freed);
    for answer in [
        free(&state, 2, number as u32 * 4096, &mut order.clone()),
        free_named(&state, 2, 1023, &mut order.clone()),
    ] {
        assert!(matches!(answer.outcome, Outcome::Moved(_)), "{owned:?}");
        let superblocks = &answer.state.superblocks[..owners.len()];
        let found: Vec<u8> = superblocks.iter().map(|it| it.owner).collect();
        assert_eq!(found, owners, "{owned:?}");
        assert_eq!(ranks(&answer.state, expected.len()), expected, "{owned:?}");
    }
}

#[test]
fn equals_in_the_own_heap() {
    // None freed into: the lower number.
    after_take(&[(1, 22, 3, 0), (1, 22, 3, 0)], 1024, 0, &[0, 0]);
    // The one freed into, whatever its number; of several the latest.
    after_take(&[(1, 22, 3, 0), (1, 22, 3, 1)], 1024, 1, &[0, 1]);
    after_take(
        &[(1, 22, 3, 3), (1, 22, 3, 1), (1, 22, 3, 2)],
        1024,
        1,
        &[3, 1, 2],
    );
    after_take(
        &[(1, 22, 3, 0), (1, 22, 3, 2), (1, 22, 3, 1), (1, 22, 3, 0)],
        1024,
        2,
        &[0, 2, 1, 0],
    );
    // More live comes before any rank, and full ones are not offered.
    after_take(&[(1, 22, 2, 1), (1, 22, 3, 0)], 1024, 1, &[1, 0]);
    after_take(&[(1, 22, 4, 1), (1, 22, 3, 2)], 1024, 1, &[1, 2]);
    // Other heaps and classes are ranked too, and not offered.
    after_take(
        &[(2, 22, 3, 1), (1, 21, 3, 2), (1, 22, 3, 4), (1, 22, 3, 3)],
        1024,
        3,
        &[1, 2, 4, 3],
    );
}

#[test]
fn equals_in_heap_0() {
    after_take(&[(0, 22, 2, 0), (0, 22, 2, 0)], 1024, 0, &[0, 0]);
    // With live blocks the rank stays.
    after_take(&[(0, 22, 2, 0), (0, 22, 2, 1)], 1024, 1, &[0, 1]);
    after_take(&[(0, 22, 2, 2), (0, 22, 2, 1)], 1024, 1, &[2, 1]);
    after_take(&[(0, 22, 2, 0), (0, 22, 1, 1)], 1024, 0, &[0, 1]);
    // Empty ones of the class: the latest is renewed, and is not ranked then.
    after_take(&[(0, 22, 0, 2), (0, 22, 0, 1)], 1024, 1, &[1, 0]);
    after_take(&[(0, 22, 0, 0), (0, 22, 0, 1)], 1024, 1, &[0, 0]);
}

#[test]
fn a_renewal_closes_the_gap() {
    // Place 3, by number, whatever the ranks are.
    let empty = [(0, 22, 0, 3), (0, 22, 0, 1), (2, 22, 4, 4), (2, 21, 4, 2)];
    after_take(&empty, 16, 0, &[0, 1, 3, 2]);
    after_take(&[(0, 26, 0, 0), (0, 26, 0, 1)], 16, 0, &[0, 1]);
    // The first and the last of the ranking.
    after_take(&[(0, 22, 0, 1), (2, 22, 4, 2)], 16, 0, &[0, 1]);
    after_take(&[(0, 22, 0, 2), (2, 22, 4, 1)], 16, 0, &[0, 1]);
    // Place 4 has no rank to give up.
    after_take(&[(0, 22, 1, 2), (2, 22, 4, 1)], 16, 2, &[2, 1, 0]);
}

#[test]
fn an_empty_one_of_the_own_heap_keeps_its_rank() {
    after_take(&[(1, 22, 0, 1)], 1024, 0, &[1]);
    after_take(&[(2, 22, 4, 1), (1, 22, 0, 2)], 1024, 1, &[1, 2]);
}

#[test]
fn frees_rank_their_superblock() {
    let full = |rank| (1, 22, 4, rank);
    // Unranked: all the others fall back.
    after_free(
        &[full(1), full(0), full(2), full(0)],
        3,
        &[1; 4],
        &[2, 0, 3, 1],
    );
    // Ranked: those ahead of it do.
    after_free(
        &[full(1), full(4), full(2), full(3)],
        3,
        &[1; 4],
        &[2, 4, 3, 1],
    );
    after_free(&[full(1), full(2)], 0, &[1; 2], &[1, 2]);
    // In any heap, heap 0 too; one ranking for all of them.
    after_free(&[(0, 22, 2, 0), (2, 21, 4, 1)], 0, &[0, 2], &[1, 2]);
    after_free(&[(0, 22, 1, 2), (2, 21, 4, 1)], 0, &[0, 2], &[1, 2]);
}

#[test]
fn moves_go_by_number_and_keep_ranks() {
    // 7 of 12 live: the lower number of two equals moves, though the other is ranked
    // before it or it alone is ranked.
    let fuller = (1, 22, 4, 3);
    let moved = |first, second| [(1, 22, 2, first), (1, 22, 2, second), fuller];
    after_free(&moved(1, 2), 2, &[0, 1, 1], &[2, 3, 1]);
    after_free(&moved(2, 1), 2, &[0, 1, 1], &[3, 2, 1]);
    // The one freed into moves itself.
    after_free(
        &[(1, 22, 4, 1), (1, 22, 3, 2), (1, 22, 1, 0)],
        2,
        &[1, 1, 0],
        &[2, 3, 1],
    );
}

#[test]
fn setups_rank_nothing() {
    let mut order = vec![9; ORDER_PLACES];
    for asked in [[8, 1, 1, 1, 2], [8, 2, 1, 1, 2], [9, 1, 1, 1, 2]] {
        let answer = setup(Setup::from_numbers(asked), &mut order);
        assert_eq!(answer.state.superblocks, [Superblock::UNUSED; SUPERBLOCKS]);
    }
}

#[test]
fn refused_calls_keep_the_ranks() {
    let (state, order) = state_of(&[(1, 22, 3, 2), (0, 22, 1, 1), (2, 26, 1, 0)]);
    let mut lent = order.clone();
    let answers: [Answer; 7] = [
        free(&state, 0, 0, &mut lent),
        free(&state, 1, 3 * 1024, &mut lent),
        free(&state, 1, 4096 + 1, &mut lent),
        free(&state, 1, 4 * 4096, &mut lent),
        free_named(&state, 1, 0, &mut lent),
        take(&state, 3, 16, &mut lent),
        take_named(&state, 1, 1024, 16, &mut lent),
    ];
    for (answer, refusal) in answers.iter().zip([2, 7, 6, 5, 15, 2, 14]) {
        match answer.outcome {
            Outcome::Refused(refused) => assert_eq!(refused.number(), refusal),
            other => panic!("not refused: {other:?}"),
        }
        assert_eq!(answer.state, state);
    }
    assert_eq!(lent, order);
}

/// All 64 superblocks of class 26 in heap 1, half full, ranked in any order.
fn all_ranked() -> (State, Vec<u16>) {
    let owned: Vec<Owned> = (0..64)
        .map(|it: u32| (1, 26, 1, (it * 37 % 64 + 1) as u8))
        .collect();
    unchecked([1, 64, 16, 7, 8], &owned)
}

#[test]
fn all_64_ranked() {
    let (state, order) = all_ranked();
    check_handed_in(&state, &order).expect("a sound state");
    for number in 0..64 {
        let answer = free(&state, 1, number as u32 * 4096, &mut order.clone());
        let old = state.superblocks[number].rank;
        for (at, superblock) in answer.state.superblocks.iter().enumerate() {
            let before = state.superblocks[at].rank;
            let expected = match before {
                _ if at == number => 1,
                ahead if ahead < old => ahead + 1,
                behind => behind,
            };
            assert_eq!(superblock.rank, expected, "{number} {at}");
        }
        let taken = take(&answer.state, 1, 2048, &mut order.clone());
        let latest = state
            .superblocks
            .iter()
            .position(|it| it.rank == 1)
            .unwrap();
        // The one freed into is the emptiest, so that the next latest is taken.
        let second = match latest == number {
            true => state
                .superblocks
                .iter()
                .position(|it| it.rank == 2)
                .unwrap(),
            false => latest,
        };
        assert_eq!(taken.outcome, Outcome::At(second as u32 * 4096 + 2048));
    }
}

/// The ranks of a state by their definition: 1 upwards, each once without a gap, none
/// of them an unused superblock's.
fn are_sound(state: &State) -> bool {
    let ranked = state.superblocks.iter().filter(|it| it.rank != 0);
    let mut found: Vec<usize> = ranked.clone().map(|it| it.rank.into()).collect();
    found.sort();
    found.into_iter().eq(1..=ranked.clone().count())
        && ranked.into_iter().all(|it| it.owner != UNUSED_OWNER)
}

#[test]
fn every_rank_of_every_superblock_is_checked() {
    let few = [(1, 22, 3, 2), (0, 22, 1, 0), (2, 26, 1, 1), (1, 0, 200, 0)];
    for (sound, order) in [state_of(&few), state_of(&[]), all_ranked()] {
        for number in 0..SUPERBLOCKS {
            for rank in 0..=255 {
                let mut state = sound.clone();
                state.superblocks[number].rank = rank;
                check_agrees(&state, &order, are_sound(&state));
                // Two changes: a swap, and one that moves a rank to another superblock.
                state.superblocks[(number + 1) % 4].rank = sound.superblocks[number].rank;
                check_agrees(&state, &order, are_sound(&state));
            }
        }
    }
}

/// Checks that every call refuses a state with these ranks and hands it back as it is.
fn is_refused(given: &[u8]) {
    let owned: Vec<Owned> = [(1, 22, 3), (0, 22, 1), (2, 26, 1), (1, 0, 200)]
        .iter()
        .zip(given)
        .map(|(&(owner, class, live), &rank)| (owner, class, live, rank))
        .collect();
    let (mut state, order) = unchecked([2, 4, 1, 1, 4], &owned);
    for (number, &rank) in given.iter().enumerate() {
        state.superblocks[number].rank = rank;
    }
    let mut lent = order.clone();
    for answer in [
        take(&state, 1, 16, &mut lent),
        free(&state, 1, 0, &mut lent),
        take_named(&state, 1, 0, 16, &mut lent),
        free_named(&state, 1, 0, &mut lent),
        take(&state, 0, 2049, &mut lent),
    ] {
        assert_eq!(
            answer.outcome,
            Outcome::Refused(Refusal::State),
            "{given:?}"
        );
        assert_eq!(answer.state, state);
    }
    assert_eq!(lent, order);
    let short = take(&state, 1, 16, &mut lent[..1023]);
    assert_eq!(short.outcome, Outcome::Refused(Refusal::Storage));
}

#[test]
fn damaged_rankings() {
    // A gap, at the start, inside and at the end.
    is_refused(&[2, 3]);
    is_refused(&[2]);
    is_refused(&[1, 3]);
    is_refused(&[4, 2, 1]);
    // A double, also with the right sum.
    is_refused(&[1, 1]);
    is_refused(&[2, 1, 2]);
    is_refused(&[2, 2, 2]);
    is_refused(&[1, 2, 3, 3]);
    // An unused one, below N or not, that would be the next.
    is_refused(&[1, 2, 3, 4, 5]);
    is_refused(&[0, 0, 0, 0, 1]);
    // Above 64; 64 more or 128 more than the right rank.
    is_refused(&[65]);
    is_refused(&[255]);
    is_refused(&[1, 66]);
    is_refused(&[129, 2]);
    is_refused(&[64]);
}

/// Calls on few classes, so that superblocks are often equally full.
fn made_calls(seed: u64) -> Calls {
    let choices = Choices {
        sizes: &[1024, 1024, 1024, 2048, 640],
        names: 60,
        any_processor: false,
        offsets: [0, 0, 0, 0, 0, 0, 0, 8],
    };
    Calls { seed, choices }
}

/// The superblocks freed into since they were renewed, the latest first.
struct Recency(Vec<usize>);

impl Recency {
    /// Follows an accepted call, by what it changed.
    fn follow(&mut self, before: &State, answer: &Answer) {
        let pairs = before.superblocks.iter().zip(&answer.state.superblocks);
        let changed = pairs.enumerate().filter(|(_, (old, new))| old != new);
        for (number, (old, new)) in changed {
            let freed = new.live_count() < old.live_count();
            let renewed = old.owner != new.owner && new.owner != GLOBAL_HEAP;
            if freed || renewed && old.live_count() == 0 {
                self.0.retain(|&it| it != number);
            }
            if freed {
                self.0.insert(0, number);
            }
        }
    }

    /// The superblock that a heap offers for a class: a stable sort by live blocks of
    /// the list, the unranked behind it by number.
    fn offered(&self, state: &State, heap: u8, class: u8) -> Option<usize> {
        let unranked = (0..SUPERBLOCKS).filter(|number| !self.0.contains(number));
        let all = self.0.iter().copied().chain(unranked);
        let mut offered: Vec<usize> = all
            .filter(|&number| {
                let it = &state.superblocks[number];
                it.owner == heap && it.class == class && it.free_count() > 0
            })
            .collect();
        offered.sort_by_key(|&number| -(state.superblocks[number].live_count() as i32));
        offered.first().copied()
    }

    fn check(&self, state: &State) {
        for (number, superblock) in state.superblocks.iter().enumerate() {
            let at = self.0.iter().position(|&it| it == number);
            let rank = at.map_or(0, |at| at + 1);
            assert_eq!(usize::from(superblock.rank), rank, "superblock {number}");
        }
    }
}

/// The superblock that places 1 and 2 offer a take.
fn offered_to(recency: &Recency, state: &State, command: &Command) -> Option<usize> {
    let (Command::Take { processor, size }
    | Command::NamedTake {
        processor, size, ..
    }) = *command
    else {
        return None;
    };
    let class = hoard::class_of_size(size)?;
    let own = recency.offered(state, processor, class);
    own.or_else(|| recency.offered(state, GLOBAL_HEAP, class))
}

#[test]
fn ranks_follow_the_frees_and_decide_among_equals() {
    let (mut decided, mut renewed, mut most) = (0, 0, 0);
    for seed in 0..60 {
        let mut calls = made_calls(seed);
        let numbers = [
            1 + seed as u8 % 3,
            6 + seed as u8 % 30,
            1,
            1,
            2 + seed as u8 % 3,
        ];
        let mut order = vec![0; SUPERBLOCKS * ORDER_PLACES];
        let mut state = setup(Setup::from_numbers(numbers), &mut order).state;
        let mut recency = Recency(Vec::new());
        for count in 0..600 {
            let takes = if count / 60 % 2 == 0 { 9 } else { 2 };
            let command = calls.next(takes, &state);
            let answer = run(&command, &state, &mut order);
            if let Outcome::Refused(_) = answer.outcome {
                assert_eq!(answer.state, state);
                continue;
            }
            if let Some(number) = offered_to(&recency, &state, &command) {
                let Outcome::At(address) = answer.outcome else {
                    panic!("{command:?}: {:?}", answer.outcome);
                };
                assert_eq!(address / 4096, number as u32, "{command:?}");
                let by_number = Recency(Vec::new());
                decided += u32::from(offered_to(&by_number, &state, &command) != Some(number));
            }
            let ranked = recency.0.len();
            recency.follow(&state, &answer);
            renewed += u32::from(recency.0.len() < ranked);
            most = most.max(ranked);
            recency.check(&answer.state);
            check_handed_in(&answer.state, &order).expect("a sound state");
            state = answer.state;
        }
    }
    assert!(decided > 500, "{decided}");
    assert!(renewed > 200, "{renewed}");
    assert!(most > 25, "{most}");
}
