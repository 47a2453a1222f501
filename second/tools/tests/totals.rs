//! Totals of generated states: right ones, and each way to be wrong.

use std::collections::BTreeSet;

use hoard::{check_handed_in, State, Totals, CLASSES, GLOBAL_HEAP, HEAPS};
use tools::call_form::{read_input, CallInput};
use tools::make_state::{make_state, Kind, KINDS};

/// Seeds of each kind of wrong totals that `compare` takes.
const COMPARED: std::ops::RangeInclusive<u64> = 1..=30;

const WRONG: [Kind; 9] = [
    Kind::TotalMore,
    Kind::TotalLess,
    Kind::TotalCancel,
    Kind::TotalAboveP,
    Kind::TotalHeap0,
    Kind::TotalSuperblocksOnly,
    Kind::TotalLiveOnly,
    Kind::TotalWide,
    Kind::TotalStale,
];

/// A total that is wrong, with the right number.
#[derive(Clone, Copy, Debug)]
struct Difference {
    is_live: bool,
    heap: usize,
    class: usize,
    right: i32,
    given: i32,
}

fn differences(state: &State) -> Vec<Difference> {
    let given = &state.control.totals;
    let right = Totals::recount(&state.superblocks);
    let mut found = Vec::new();
    for (heap, class) in (0..HEAPS).flat_map(|heap| (0..CLASSES).map(move |it| (heap, it))) {
        let difference = |is_live, right, given| Difference {
            is_live,
            heap,
            class,
            right,
            given,
        };
        let superblocks = [&right, given].map(|it| it.superblocks[heap][class].into());
        found.push(difference(false, superblocks[0], superblocks[1]));
        let live = [&right, given].map(|it| it.live[heap][class].into());
        found.push(difference(true, live[0], live[1]));
    }
    found.retain(|it| it.right != it.given);
    found
}

fn inputs_of(kind: Kind) -> impl Iterator<Item = CallInput> {
    COMPARED.map(move |seed| read_input(&make_state(kind, seed)).expect("a call"))
}

/// The differences of each state of a kind.
fn all_differences(kind: Kind) -> Vec<(State, Vec<Difference>)> {
    let states = inputs_of(kind).map(|input| input.state);
    states
        .map(|state| (state.clone(), differences(&state)))
        .collect()
}

#[test]
fn nothing_but_the_totals_is_wrong() {
    for kind in WRONG {
        for mut input in inputs_of(kind) {
            assert!(check_handed_in(&input.state, &input.order).is_err());
            input.state.control.totals = Totals::recount(&input.state.superblocks);
            check_handed_in(&input.state, &input.order).expect("right totals");
        }
    }
}

/// A clause of the check that is broken is broken alone: the totals are right for
/// the superblocks as they are.
#[test]
fn other_states_have_right_totals() {
    let any_totals = [
        Kind::Loose,
        Kind::TwoFaults,
        Kind::ZeroDamaged,
        Kind::DropsDamaged,
        Kind::LongDamaged,
        Kind::RunTotal,
    ];
    for (_, kind) in KINDS {
        if WRONG.contains(&kind) || any_totals.contains(&kind) {
            continue;
        }
        for seed in COMPARED {
            // Rows and spoiled bytes are no calls on a state.
            if let Some(input) = read_input(&make_state(kind, seed)) {
                assert_eq!(differences(&input.state).len(), 0, "{kind:?} {seed}");
            }
        }
    }
}

#[test]
fn loose_states_have_right_totals_or_any() {
    let met = all_differences(Kind::Loose);
    assert!(met.iter().any(|(_, wrong)| wrong.is_empty()));
    assert!(met.iter().any(|(_, wrong)| (1..9).contains(&wrong.len())));
    assert!(met.iter().any(|(_, wrong)| wrong.len() > 400));
    let is_zero = |state: &State| state.control.totals == Totals::NONE;
    assert!(met.iter().any(|(state, _)| is_zero(state)));
}

#[test]
fn one_more_or_one_less() {
    let (mut lists, mut past_0) = (BTreeSet::new(), BTreeSet::new());
    for (_, wrong) in all_differences(Kind::TotalMore) {
        assert_eq!(wrong.len(), 1);
        assert_eq!(wrong[0].given, wrong[0].right + 1);
        lists.insert((wrong[0].is_live, wrong[0].right > 0));
    }
    assert_eq!(lists.len(), 4);
    for (_, wrong) in all_differences(Kind::TotalLess) {
        assert_eq!(wrong.len(), 1);
        let widest = if wrong[0].is_live { 65535 } else { 255 };
        let less = if wrong[0].right == 0 {
            widest
        } else {
            wrong[0].right - 1
        };
        assert_eq!(wrong[0].given, less);
        past_0.insert((wrong[0].is_live, wrong[0].right == 0));
    }
    assert_eq!(past_0.len(), 4);
}

#[test]
fn sums_stay_right() {
    let mut met = BTreeSet::new();
    for (_, wrong) in all_differences(Kind::TotalCancel) {
        for is_live in [false, true] {
            let list = wrong.iter().filter(|it| it.is_live == is_live);
            assert_eq!(list.map(|it| it.given - it.right).sum::<i32>(), 0);
        }
        let [one, .., other] = wrong[..] else {
            panic!("{wrong:?}");
        };
        met.insert(match (one.heap == other.heap, one.class == other.class) {
            (true, _) => "one heap",
            (_, true) => "one class",
            _ => "any two",
        });
        met.insert(match (wrong.len(), one.is_live) {
            (2, true) => "live",
            (2, false) => "superblocks",
            _ => "both",
        });
        if (one.right - one.given).abs() > 1 {
            met.insert("by more than one");
        }
    }
    assert_eq!(met.len(), 7, "{met:?}");
}

#[test]
fn heaps_above_p_and_heap_0() {
    let mut met = BTreeSet::new();
    for (state, wrong) in all_differences(Kind::TotalAboveP) {
        let processors = usize::from(state.control.setup.processors);
        let above = wrong.iter().filter(|it| it.heap > processors);
        assert!(above.clone().next().is_some());
        for it in above {
            met.insert(if it.heap == 8 { "last" } else { "before last" });
            met.insert(if it.is_live { "live" } else { "superblocks" });
        }
    }
    assert_eq!(met.len(), 4, "{met:?}");
    let mut in_use = 0;
    for (_, wrong) in all_differences(Kind::TotalHeap0) {
        assert!(wrong.iter().all(|it| it.heap == 0));
        in_use += usize::from(wrong.iter().any(|it| it.right > 0));
    }
    assert!(in_use > 15, "{in_use}");
}

#[test]
fn one_list_alone() {
    for (kind, is_live) in [
        (Kind::TotalSuperblocksOnly, false),
        (Kind::TotalLiveOnly, true),
    ] {
        for (_, wrong) in all_differences(kind) {
            assert!(wrong.iter().all(|it| it.is_live == is_live));
        }
    }
}

#[test]
fn wide_numbers() {
    let mut met = BTreeSet::new();
    for (_, wrong) in all_differences(Kind::TotalWide) {
        for it in &wrong {
            met.insert((it.is_live, it.given));
            if it.is_live && it.right > 0 && (it.given - it.right) % 256 == 0 {
                met.insert((true, 0));
            }
        }
    }
    for number in [(false, 255), (false, 128), (true, 65535), (true, 32768)] {
        assert!(met.contains(&number), "{number:?}");
    }
    assert!(met.contains(&(true, 0)), "wrong in the upper byte alone");
}

/// What a state with stale totals has too many or too few of.
#[test]
fn stale_totals_are_those_of_forgotten_steps() {
    let mut met = BTreeSet::new();
    for (state, wrong) in all_differences(Kind::TotalStale) {
        let global = usize::from(GLOBAL_HEAP);
        for it in &wrong {
            met.insert(match (it.heap == global, it.is_live, it.given < it.right) {
                (true, false, true) => "heap 0 lacks a superblock moved there",
                (true, true, true) => "heap 0 lacks its live blocks",
                (true, false, false) => "heap 0 keeps a superblock taken",
                (true, true, false) => "heap 0 keeps its live blocks",
                (false, false, true) => "a heap lacks a superblock taken",
                (false, true, true) => "a heap lacks live blocks",
                (false, false, false) => "a heap keeps a superblock moved",
                (false, true, false) => "a heap keeps live blocks",
            });
            // Heap 0 kept a superblock of a class that was renewed for another one.
            let renewed = wrong
                .iter()
                .all(|other| other.class != it.class || other.heap == global);
            let is_kept = it.heap == global && !it.is_live && it.given > it.right;
            if is_kept && renewed && wrong.len() > 1 {
                met.insert("renewed for another class");
            }
        }
        assert!(state.superblocks.iter().any(|it| it.owner != 255));
    }
    assert_eq!(met.len(), 9, "{met:?}");
}
