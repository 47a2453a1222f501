//! States handed in: each kind gets the answer it is made for.

mod call_bytes;

use std::collections::BTreeSet;
use std::fs;
use std::path::Path;

use hoard::{Command, State, FREE_BYTE, NAMED_FREE_BYTE, NAMES};
use tools::call_form::{answer_bytes, read_input, run_call, write_input, BAD_INPUT};
use tools::make_state::{make_state, Kind, KINDS, SOUND_KINDS};
use tools::run_faults::RUN_FAULTS;

use call_bytes::on_unused;

const SEEDS: std::ops::Range<u64> = 0..60;

/// The first line of the answer to a state.
fn first_line(kind: Kind, seed: u64) -> String {
    let text = answer_bytes(&make_state(kind, seed));
    text.lines().next().unwrap().to_string()
}

#[test]
fn broken_states_are_refused_with_13() {
    let broken = [
        Kind::SetupNumber,
        Kind::Owner,
        Kind::Class,
        Kind::UnusedClass,
        Kind::UnusedMark,
        Kind::MarkHigh,
        Kind::OrderTwice,
        Kind::OrderRange,
        Kind::OrderMarked,
        Kind::Beyond,
        Kind::MoveRule,
        Kind::GlobalFull,
        Kind::NameFree,
        Kind::NameUnused,
        Kind::NameHigh,
        Kind::NameRange,
        Kind::NameTwice,
        Kind::TotalMore,
        Kind::TotalLess,
        Kind::TotalCancel,
        Kind::TotalAboveP,
        Kind::TotalHeap0,
        Kind::TotalSuperblocksOnly,
        Kind::TotalLiveOnly,
        Kind::TotalWide,
        Kind::TotalStale,
        Kind::RankGap,
        Kind::RankTwice,
        Kind::RankUnused,
        Kind::RankRange,
        Kind::RankOneMore,
    ];
    for kind in broken.into_iter().chain(RUN_FAULTS) {
        for seed in SEEDS {
            assert_eq!(first_line(kind, seed), "refused 13", "{kind:?} {seed}");
        }
    }
}

#[test]
fn sound_states_are_not() {
    for kind in SOUND_KINDS.into_iter().chain([Kind::Drops, Kind::Long]) {
        for seed in SEEDS {
            let line = first_line(kind, seed);
            assert!(
                !["refused 12", "refused 13"].contains(&&line[..]),
                "{kind:?} {seed}"
            );
        }
    }
}

#[test]
fn short_storage_is_refused_with_12() {
    for kind in [Kind::StorageShort, Kind::StorageEmpty] {
        for seed in SEEDS {
            assert_eq!(first_line(kind, seed), "refused 12", "{kind:?} {seed}");
        }
    }
}

/// The states of the first seeds of a kind, as many as `compare` takes of it.
fn states_of(kind: Kind, count: u64) -> impl Iterator<Item = State> {
    let input = move |seed| read_input(&make_state(kind, seed)).expect("a call");
    (1..=count).map(move |seed| input(seed).state)
}

#[test]
fn sound_states_hold_no_name_or_many() {
    for kind in [
        Kind::Replayed,
        Kind::Built,
        Kind::MoveRuleLimit,
        Kind::GlobalLimit,
        Kind::Zero,
    ] {
        let counts = states_of(kind, 17).map(|state| state.control.names.held().count());
        let counts: Vec<usize> = counts.collect();
        assert!(counts.contains(&0), "{kind:?}: {counts:?}");
        assert!(counts.iter().any(|&held| held > 30), "{kind:?}: {counts:?}");
    }
    let mut counts = states_of(Kind::Named, 60).map(|state| state.control.names.held().count());
    assert!(counts.any(|held| held == NAMES));
}

#[test]
fn broken_names_stand_at_the_limits() {
    let numbers = states_of(Kind::NameRange, 30).flat_map(|state| state.control.names.0);
    let numbers: BTreeSet<u16> = numbers.collect();
    assert!(numbers.contains(&16384) && numbers.contains(&65534));

    let pairs: Vec<(u16, u16)> = states_of(Kind::NameTwice, 30)
        .filter_map(|state| names_at_one_block(&state))
        .collect();
    assert_eq!(pairs.len(), 30);
    assert!(pairs.contains(&(0, 1023)));
    assert!(pairs.iter().any(|(name, other)| name + 1 == *other));
    assert!(pairs.iter().any(|(name, other)| name + 1 < *other));
}

/// The first name whose block a later one has too, and that one.
fn names_at_one_block(state: &State) -> Option<(u16, u16)> {
    let held: Vec<_> = state.control.names.held().collect();
    held.iter().enumerate().find_map(|(index, &(name, block))| {
        let other = held[index + 1..].iter().find(|other| other.1 == block)?;
        Some((name, other.0))
    })
}

#[test]
fn kinds_stand_in_their_order() {
    for (index, (_, kind)) in KINDS.into_iter().enumerate() {
        assert_eq!(kind as usize, index, "{kind:?}");
    }
}

/// The seeds that `compare` takes give size 0 every answer it can have. A take of
/// size 1 or 16 has the same, with the same state and order places.
#[test]
fn size_0_is_answered_as_1_and_16() {
    let mut met = BTreeSet::new();
    for kind in [Kind::Zero, Kind::ZeroDamaged] {
        for seed in 1..=120 {
            let mut input = read_input(&make_state(kind, seed)).expect("a call");
            let Command::Take { processor, .. } = input.call else {
                panic!("{:?}", input.call);
            };
            let answers = [0, 1, 16].map(|size| {
                input.call = Command::Take { processor, size };
                let mut order = input.order.clone();
                (run_call(&input, &mut order), order)
            });
            assert_eq!(answers[1], answers[0], "{kind:?} {seed}");
            assert_eq!(answers[2], answers[0], "{kind:?} {seed}");
            let outcome = answers[0].0.outcome.to_string();
            let word = outcome.split(' ').next().unwrap().to_string();
            met.insert(if word == "at" { word } else { outcome });
        }
    }
    let all = ["at", "refused 12", "refused 13", "refused 2", "refused 4"];
    assert_eq!(met, BTreeSet::from(all.map(String::from)));
}

/// Each call in `cases` gives its answer on a state, and on a row of 64 records the
/// same or the one that it has for rows.
#[test]
fn every_call_case_gives_its_answer() {
    let cases = Path::new(env!("CARGO_MANIFEST_DIR")).join("../cases");
    let mut count = 0;
    for entry in fs::read_dir(cases).unwrap() {
        let path = entry.unwrap().path();
        if path.extension().is_none_or(|extension| extension != "call") {
            continue;
        }
        let hex = fs::read_to_string(&path).unwrap();
        let bytes = hex.split_ascii_whitespace();
        let bytes: Vec<u8> = bytes
            .map(|it| u8::from_str_radix(it, 16).unwrap())
            .collect();
        let expected = fs::read_to_string(path.with_extension("answer")).unwrap();
        assert_eq!(answer_bytes(&bytes), expected, "{path:?}");
        let on_row = [&[255, 64], &bytes[..]].concat();
        let expected = fs::read_to_string(path.with_extension("row-answer")).unwrap_or(expected);
        assert_eq!(answer_bytes(&on_row), expected, "{path:?} on a row");
        count += 1;
    }
    assert!(count >= 40);
}

#[test]
fn spoiled_bytes_are_bad_input() {
    for seed in SEEDS {
        assert_eq!(answer_bytes(&make_state(Kind::Bytes, seed)), BAD_INPUT);
    }
    assert_eq!(answer_bytes(&[]), BAD_INPUT);
    assert_eq!(
        answer_bytes(&[0, 1, 1, 1, 1, 2, 255, 255, 255, 255]),
        BAD_INPUT
    );
}

#[test]
fn frees_at_the_threshold_move_up_to_eight() {
    let mut met = BTreeSet::new();
    for seed in 0..2000 {
        let bytes = make_state(Kind::MoveRuleLimit, seed);
        met.insert((bytes[0], first_line(Kind::MoveRuleLimit, seed)));
    }
    for free in [FREE_BYTE, NAMED_FREE_BYTE] {
        for moves in 1..=8 {
            assert!(
                met.contains(&(free, format!("moved {moves}"))),
                "{free} {moves}"
            );
        }
        assert!(!met.contains(&(free, "moved 9".to_string())));
    }
}

#[test]
fn refused_calls_change_nothing() {
    for (_, kind) in KINDS {
        for seed in SEEDS {
            let Some(input) = read_input(&make_state(kind, seed)) else {
                continue;
            };
            let mut order = input.order.clone();
            let answer = run_call(&input, &mut order);
            if let hoard::Outcome::Refused(_) = answer.outcome {
                assert_eq!(order, input.order);
                let setup_call = matches!(input.call, hoard::Command::Setup(_));
                assert!(setup_call || answer.state == input.state);
            }
        }
    }
}

#[test]
fn calls_are_written_as_they_are_read() {
    for (_, kind) in KINDS {
        let bytes = make_state(kind, 3);
        if let Some(input) = read_input(&bytes) {
            assert_eq!(write_input(&input), bytes);
        }
    }
}

#[test]
fn printed_form() {
    let setup = [0, 1, 1, 1, 1, 2];
    let mut bytes = setup.to_vec();
    bytes.extend(256u32.to_le_bytes());
    bytes.extend([0; 510]);
    bytes.extend([5, 1]);
    assert_eq!(
        answer_bytes(&bytes),
        "ready\nsetup 1 1 1 1 2\nplace 255 0\nend\n"
    );
    bytes[5] = 1;
    assert_eq!(answer_bytes(&bytes), "refused 1\nsetup 0 0 0 0 0\nend\n");

    let bytes = on_unused(&[1, 1, 1, 1, 1, 2, 1, 0, 8]);
    let taken = "at 0\nsetup 1 1 1 1 2\nsuperblock 0 owner 1 class 26 live 1 0 0 0 rank 0 run 0\n\
        total heap 1 class 26 superblocks 1 live 1\nplace 0 1\nend\n";
    assert_eq!(answer_bytes(&bytes), taken);
}

#[test]
fn printed_form_of_names() {
    let mut bytes = on_unused(&[4, 1, 1, 1, 1, 2, 1, 0, 4]);
    assert_eq!(answer_bytes(&bytes), "refused 15\nsetup 1 1 1 1 2\nend\n");
    // Held, but at no block: the first name and the last.
    bytes[2313..2315].copy_from_slice(&[0, 0]);
    bytes[4359..4361].copy_from_slice(&[254, 255]);
    let refused = "refused 13\nsetup 1 1 1 1 2\nname 0 superblock 0 block 0\n\
        name 1023 superblock 255 block 254\nend\n";
    assert_eq!(answer_bytes(&bytes), refused);
}

#[test]
fn printed_form_of_totals() {
    let mut bytes = on_unused(&[2, 7, 1, 1, 1, 2, 0, 0, 0, 0, 0]);
    assert_eq!(answer_bytes(&bytes), "refused 2\nsetup 7 1 1 1 2\nend\n");
    // Superblocks of heap 0 and class 0 and of heap 8 and class 26, live blocks of
    // heap 0 and class 1 and of heap 8 and class 26.
    let superblocks = 11 + 64 * 36 + 2048;
    let live = superblocks + 243;
    bytes[superblocks] = 255;
    bytes[superblocks + 242] = 1;
    bytes[live + 2..live + 4].copy_from_slice(&[1, 2]);
    bytes[live + 484..live + 486].copy_from_slice(&[255, 255]);
    let refused = "refused 13\nsetup 7 1 1 1 2\n\
        total heap 0 class 0 superblocks 255 live 0\n\
        total heap 0 class 1 superblocks 0 live 513\n\
        total heap 8 class 26 superblocks 1 live 65535\nend\n";
    assert_eq!(answer_bytes(&bytes), refused);
}

/// Slices of the list of kinds are taken by the number of a kind.
#[test]
fn kinds_are_listed_in_their_order() {
    for (i, &(name, kind)) in KINDS.iter().enumerate() {
        assert_eq!(kind as usize, i, "{name}");
    }
}
