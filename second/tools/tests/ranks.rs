//! Ranks in generated records and states: equals are common, rankings are right, and
//! each way to be wrong is met.

mod replay;

use std::collections::{BTreeMap, BTreeSet};

use hoard::{check_handed_in, class_of_size, Command, Outcome, State, Superblock};
use hoard::{GLOBAL_HEAP, SUPERBLOCK_BYTES, UNUSED_OWNER};
use tools::call_form::{answer_bytes, read_input, run_call, CallInput};
use tools::make_record::{self, make_record};
use tools::make_state::{make_state, Kind, KINDS};
use tools::rank_faults::RANK_FAULTS;

use replay::{replay, Step};

/// Seeds of each kind of wrong ranks that `compare` takes.
const COMPARED: std::ops::RangeInclusive<u64> = 1..=30;

/// Processor and size of a take, and whether it is by name.
fn take_of(command: &Command) -> Option<(u8, u16, bool)> {
    match *command {
        Command::Take { processor, size } => Some((processor, size, false)),
        Command::NamedTake {
            processor, size, ..
        } => Some((processor, size, true)),
        _ => None,
    }
}

/// The superblocks that a heap may offer for a class, fullest first, the lower number
/// among equals.
fn offered(state: &State, heap: u8, class: u8) -> Vec<usize> {
    let superblocks = state.superblocks.iter().enumerate();
    let of_both = superblocks.filter(|(_, it)| (it.owner, it.class) == (heap, class));
    let with_free = of_both.filter(|(_, it)| it.free_count() > 0);
    let mut numbers: Vec<usize> = with_free.map(|(number, _)| number).collect();
    numbers.sort_by_key(|&number| std::cmp::Reverse(state.superblocks[number].live_count()));
    numbers
}

/// What an accepted take met: its place, and whether the ranking or the number decided
/// among equals there; nothing for a long block.
fn met_by_take(before: &State, command: &Command, address: u32) -> Vec<String> {
    let (processor, size, named) = take_of(command).expect("a take");
    let Some(class) = class_of_size(size) else {
        return Vec::new();
    };
    let number = (address / SUPERBLOCK_BYTES) as usize;
    let taken = &before.superblocks[number];
    let place = match taken.owner {
        UNUSED_OWNER => "place 4",
        GLOBAL_HEAP if taken.class == class => "place 2",
        GLOBAL_HEAP => "place 3",
        _ => "place 1",
    };
    let mut met = Vec::new();
    if matches!(place, "place 1" | "place 2") {
        let heap = if place == "place 1" { processor } else { 0 };
        let first = offered(before, heap, class);
        let live = |number: usize| before.superblocks[number].live_count();
        let equals = first.iter().filter(|&&it| live(it) == live(number)).count();
        met.push(match (first[0] == number, equals) {
            (false, _) => format!("{place} by rank, named {named}"),
            (true, 1) => format!("{place} with no equal"),
            (true, _) if taken.rank > 0 => format!("{place} by rank and number"),
            (true, _) => format!("{place} by number"),
        });
    }
    if taken.rank > 0 && taken.live_count() == 0 {
        met.push(format!("{place} with a ranked empty one"));
    }
    met
}

/// What an accepted free met.
fn met_by_free(step: &Step) -> Vec<String> {
    let after = &step.answer.state.superblocks;
    let pairs: Vec<_> = step.before.superblocks.iter().zip(after).collect();
    let freed_into = |(old, new): &&(&Superblock, &Superblock)| new.live_count() < old.live_count();
    let Some((old, new)) = pairs.iter().find(freed_into) else {
        // A run.
        return Vec::new();
    };
    let mut met = vec![match (old.owner, old.rank) {
        (GLOBAL_HEAP, 0) => "free into heap 0, unranked".to_string(),
        (GLOBAL_HEAP, _) => "free into heap 0, ranked".to_string(),
        (_, 0) => "free, unranked".to_string(),
        (_, 1) => "free, latest".to_string(),
        _ => "free, ranked".to_string(),
    }];
    assert_eq!(new.rank, 1);
    let moved = pairs.iter().filter(|(old, new)| old.owner != new.owner);
    for (_, new) in moved {
        let ranked = if new.rank > 0 { "ranked" } else { "unranked" };
        met.push(format!("move of one {ranked}"));
    }
    met
}

/// Counts what the calls of a record met.
fn count_met(record: &[u8], met: &mut BTreeMap<String, u32>) {
    replay(record, |step| {
        check_handed_in(&step.answer.state, step.order).expect("a sound state");
        let what = match step.answer.outcome {
            Outcome::At(address) => met_by_take(step.before, &step.command, address),
            Outcome::Moved(_) => met_by_free(step),
            _ => vec![],
        };
        for what in what {
            *met.entry(what).or_default() += 1;
        }
    });
}

/// The seeds that `compare` takes make equals common in both places, plain and by
/// name, and meet each way to be ranked and to lose a rank.
#[test]
fn equals_meet_every_rule() {
    let mut met = BTreeMap::new();
    for seed in 1..=80 {
        let record = make_record(make_record::Kind::Equals, seed, 500);
        count_met(&record, &mut met);
    }
    let expected = [
        ("place 1 by rank, named false", 300),
        ("place 1 by rank, named true", 200),
        ("place 1 by rank and number", 300),
        ("place 2 by rank, named false", 30),
        ("place 2 by rank, named true", 20),
        ("place 2 by rank and number", 50),
        ("place 2 by number", 5),
        ("place 1 with a ranked empty one", 100),
        ("place 2 with a ranked empty one", 100),
        ("place 3 with a ranked empty one", 60),
        ("free into heap 0, unranked", 10),
        ("free into heap 0, ranked", 100),
        ("free, unranked", 500),
        ("free, latest", 500),
        ("free, ranked", 1000),
        ("move of one ranked", 300),
        ("move of one unranked", 10),
    ];
    for (what, fewest) in expected {
        let count = *met.get(what).unwrap_or(&0);
        assert!(count >= fewest, "{what}: {count} in {met:?}");
    }
}

fn input_of(kind: Kind, seed: u64) -> CallInput {
    read_input(&make_state(kind, seed)).expect("a call")
}

/// The ranks of a state, sorted, without 0.
fn ranks(state: &State) -> Vec<u8> {
    let ranks = state.superblocks.iter().map(|it| it.rank);
    let mut ranks: Vec<u8> = ranks.filter(|&rank| rank != 0).collect();
    ranks.sort();
    ranks
}

fn is_unused(superblock: &Superblock) -> bool {
    let unranked = Superblock {
        rank: 0,
        ..*superblock
    };
    unranked == Superblock::UNUSED
}

fn has_gap(ranks: &[u8]) -> bool {
    let last = ranks.last().copied().unwrap_or(0);
    (1..last).any(|rank| !ranks.contains(&rank))
}

fn has_double(ranks: &[u8]) -> bool {
    ranks.windows(2).any(|pair| pair[0] == pair[1])
}

fn has_ranked_unused(state: &State) -> bool {
    let mut superblocks = state.superblocks.iter();
    superblocks.any(|it| it.rank > 0 && is_unused(it))
}

fn are_sound(state: &State) -> bool {
    let ranks = ranks(state);
    !has_gap(&ranks) && !has_double(&ranks) && !has_ranked_unused(state)
}

#[test]
fn nothing_but_the_ranks_is_wrong() {
    for kind in RANK_FAULTS {
        for seed in COMPARED {
            let mut input = input_of(kind, seed);
            assert!(!are_sound(&input.state), "{kind:?} {seed}");
            assert!(check_handed_in(&input.state, &input.order).is_err());
            for superblock in &mut input.state.superblocks {
                superblock.rank = 0;
            }
            check_handed_in(&input.state, &input.order).expect("no ranks");
        }
    }
}

/// A clause of the check that is broken is broken alone. Where ranks are right, some
/// states have none, and some have many.
#[test]
fn other_states_have_right_ranks() {
    let any_ranks = [
        Kind::Loose,
        Kind::TwoFaults,
        Kind::ZeroDamaged,
        Kind::DropsDamaged,
        Kind::LongDamaged,
    ];
    for (_, kind) in KINDS {
        if RANK_FAULTS.contains(&kind) || any_ranks.contains(&kind) {
            continue;
        }
        let mut counts = BTreeSet::new();
        for seed in COMPARED {
            // Rows and spoiled bytes are no calls on a state.
            if let Some(input) = read_input(&make_state(kind, seed)) {
                assert!(are_sound(&input.state), "{kind:?} {seed}");
                counts.insert(ranks(&input.state).len());
            }
        }
        let has_state = !matches!(kind, Kind::SetupCall | Kind::StorageEmpty | Kind::Bytes);
        if has_state && !counts.is_empty() {
            assert!(counts.iter().any(|&it| it > 3), "{kind:?}: {counts:?}");
            let none_allowed = ![Kind::RankAll, Kind::RunRank].contains(&kind);
            assert_eq!(counts.contains(&0), none_allowed, "{kind:?}: {counts:?}");
        }
    }
}

#[test]
fn each_damage_is_met_alone() {
    let mut met = BTreeSet::new();
    for kind in RANK_FAULTS {
        for seed in COMPARED {
            let state = input_of(kind, seed).state;
            let ranks = ranks(&state);
            let faults = (
                has_gap(&ranks),
                has_double(&ranks),
                has_ranked_unused(&state),
                ranks.last().is_some_and(|&rank| rank > 64),
            );
            met.insert((format!("{kind:?}"), faults));
            let wanted = match kind {
                Kind::RankTwice => faults.1,
                Kind::RankUnused => faults.2,
                Kind::RankRange => faults.3,
                _ => faults.0 && !faults.1 && !faults.2,
            };
            assert!(wanted, "{kind:?} {seed}: {ranks:?}");
        }
    }
    let alone = [
        ("RankGap", (true, false, false, false)),
        ("RankTwice", (false, true, false, false)),
        ("RankTwice", (true, true, false, false)),
        ("RankUnused", (false, false, true, false)),
        ("RankRange", (true, false, false, true)),
        ("RankOneMore", (true, false, false, false)),
        ("RankOneMore", (true, false, false, true)),
    ];
    for (kind, faults) in alone {
        let wanted = (kind.to_string(), faults);
        assert!(met.contains(&wanted), "{wanted:?} in {met:?}");
    }
}

#[test]
fn damages_stand_at_the_limits() {
    let states = |kind| COMPARED.map(move |seed| input_of(kind, seed).state);
    let all: BTreeSet<u8> = states(Kind::RankRange).flat_map(|it| ranks(&it)).collect();
    assert!(all.contains(&65) && all.contains(&255));
    // Right but for the upper bits.
    let upper_bits = |state: State| {
        let lower = ranks(&state).into_iter().map(|rank| (rank - 1) % 64 + 1);
        let lower: BTreeSet<u8> = lower.collect();
        lower.into_iter().eq(1..=ranks(&state).len() as u8)
    };
    assert!(
        states(Kind::RankRange)
            .filter(|it| upper_bits(it.clone()))
            .count()
            > 3
    );

    for state in states(Kind::RankOneMore) {
        let ranks = ranks(&state);
        let expected = (1..ranks.len() as u8).chain([ranks.len() as u8 + 1]);
        assert!(ranks.into_iter().eq(expected));
    }
    let firsts: BTreeSet<u8> = states(Kind::RankGap).map(|it| ranks(&it)[0]).collect();
    assert_eq!(firsts, BTreeSet::from([1, 2]));

    let mut unused = BTreeSet::new();
    for state in states(Kind::RankUnused) {
        let last = usize::from(state.control.setup.superblocks) - 1;
        let ranked = |number: usize| state.superblocks[number].rank > 0;
        unused.insert(ranked(last));
    }
    assert_eq!(unused.len(), 2, "the last of the setup, and one from N on");
}

#[test]
fn all_64_are_ranked() {
    for seed in COMPARED {
        let input = input_of(Kind::RankAll, seed);
        assert!(ranks(&input.state).into_iter().eq(1..=64));
        check_handed_in(&input.state, &input.order).expect("a sound state");
    }
}

#[test]
fn loose_states_have_right_ranks_or_any() {
    let right = COMPARED.map(|seed| are_sound(&input_of(Kind::Loose, seed).state));
    let right = right.filter(|&it| it).count();
    assert!((10..30).contains(&right), "{right}");
}

/// The seeds that `compare` takes of states with equals: takes in both places that go
/// by the ranking, and renewals that close a gap.
#[test]
fn equal_states_meet_both_places() {
    let mut met: BTreeMap<String, u32> = BTreeMap::new();
    for seed in 1..=200 {
        let input = input_of(Kind::Equals, seed);
        let answer = run_call(&input, &mut input.order.clone());
        let Outcome::At(address) = answer.outcome else {
            continue;
        };
        for what in met_by_take(&input.state, &input.call, address) {
            *met.entry(what).or_default() += 1;
        }
    }
    for (what, fewest) in [
        ("place 1 by rank, named false", 5),
        ("place 1 by rank, named true", 5),
        ("place 2 by rank, named false", 3),
        ("place 2 by rank, named true", 3),
        ("place 1 by number", 5),
        ("place 2 by number", 3),
        ("place 1 with a ranked empty one", 3),
        ("place 2 with a ranked empty one", 3),
    ] {
        let count = *met.get(what).unwrap_or(&0);
        assert!(count >= fewest, "{what}: {count} in {met:?}");
    }
}

#[test]
fn printed_ranks() {
    let mut input = input_of(Kind::RankAll, 1);
    input.call = Command::Take {
        processor: 0,
        size: 0,
    };
    let text = answer_bytes(&tools::call_form::write_input(&input));
    let lines = text.lines().filter(|line| line.starts_with("superblock "));
    let printed: Vec<u8> = lines
        .map(|line| line.split(' ').nth_back(2).unwrap().parse().unwrap())
        .collect();
    let given: Vec<u8> = input.state.superblocks.iter().map(|it| it.rank).collect();
    assert_eq!(printed, given);

    // An unused one is printed if it is ranked.
    let mut input = input_of(Kind::RankUnused, 1);
    input.state.superblocks[63].rank = 255;
    let text = answer_bytes(&tools::call_form::write_input(&input));
    assert!(text.contains("\nsuperblock 63 owner 255 class 0 live 0 0 0 0 rank 255 run 0\n"));
}
