//! Drops in records and on states handed in: the corners they meet, and that a drop does
//! what the frees one by one do, but for the moves, which come after all of them.

mod met;
mod replay;

use std::collections::BTreeSet;

use hoard::{decode, free, key, over_emptiness_threshold, read_command, run, write_command};
use hoard::{Answer, Command, Outcome, Refusal, State, Superblock, Totals};
use hoard::{DROP_BYTE, GLOBAL_HEAP, RUN_OWNER, SIZE_CLASSES, SUPERBLOCK_BYTES};
use tools::call_form::{answer_bytes, read_input, run_call, BAD_INPUT};
use tools::make_record::{make_record, Kind};
use tools::make_state::{make_state, Kind as StateKind};
use tools::row_form::read_row_input;

use met::Met;
use replay::{replay, Step};

/// The heaps and classes of the superblocks at addresses; a run is of none.
fn touched_by(state: &State, addresses: &[u32]) -> BTreeSet<(u8, u8)> {
    let numbers = addresses.iter().map(|it| (it / SUPERBLOCK_BYTES) as usize);
    let superblocks = numbers.map(|number| &state.superblocks[number]);
    let of_heaps = superblocks.filter(|it| it.owner != RUN_OWNER);
    of_heaps.map(|it| (it.owner, it.class)).collect()
}

/// The superblocks that passed from heap to heap, before and after; not those of runs.
fn passed<'a>(
    before: &'a State,
    after: &'a State,
) -> impl Iterator<Item = (&'a Superblock, &'a Superblock)> {
    let pairs = before.superblocks.iter().zip(&after.superblocks);
    pairs.filter(|(old, new)| old.owner != new.owner && old.owner != RUN_OWNER)
}

/// Frees a drop's blocks one by one, up to the first refusal. Returns it, or the state
/// and order places after all.
fn one_by_one(
    state: &State,
    processor: u8,
    addresses: &[u32],
    order: &[u16],
) -> Result<(State, Vec<u16>), Refusal> {
    let (mut state, mut order) = (state.clone(), order.to_vec());
    for &address in addresses {
        let answer = free(&state, processor, address, &mut order);
        if let Outcome::Refused(refusal) = answer.outcome {
            return Err(refusal);
        }
        state = answer.state;
    }
    Ok((state, order))
}

/// Passes superblocks of a heap and class to heap 0 by the move rule, all counted anew
/// each time.
fn follow_move_rule(state: &mut State, heap: u8, class: u8) {
    let of_heap = |state: &State| {
        let superblocks = state.superblocks.iter().enumerate();
        let owned = superblocks.filter(|(_, it)| (it.owner, it.class) == (heap, class));
        let emptiest = owned.min_by_key(|(number, it)| (it.live_count(), *number));
        emptiest.map(|(number, _)| number)
    };
    let is_over = |state: &State| {
        let usage = Totals::recount(&state.superblocks).usage(heap, class);
        let class = &SIZE_CLASSES[usize::from(class)];
        over_emptiness_threshold(&state.control.setup, class, &usage)
    };
    while is_over(state) {
        let emptiest = of_heap(state).expect("a superblock to move");
        state.superblocks[emptiest].owner = GLOBAL_HEAP;
    }
}

/// Checks a drop whose frees one by one are not refused with 2: the same refusal, or the
/// same marks, order places, ranks and names, with owners as the move rule leaves them
/// that is followed at the end.
fn check_drop(
    before: &State,
    (processor, addresses): (u8, &[u32]),
    order: &[u16],
    (answer, order_after): (&Answer, &[u16]),
) {
    let (mut expected, places) = match one_by_one(before, processor, addresses, order) {
        Err(refusal) => {
            assert_eq!(answer.outcome, Outcome::Refused(refusal), "{addresses:?}");
            assert_eq!((&answer.state, order_after), (before, order));
            return;
        }
        Ok(after) => after,
    };
    // A run stays as its free leaves it.
    let pairs = expected.superblocks.iter_mut().zip(&before.superblocks);
    for (superblock, old) in pairs.filter(|(_, old)| old.owner != RUN_OWNER) {
        superblock.owner = old.owner;
    }
    for (heap, class) in touched_by(before, addresses) {
        if heap != GLOBAL_HEAP {
            follow_move_rule(&mut expected, heap, class);
        }
    }
    expected.control.totals = Totals::recount(&expected.superblocks);
    let moves = passed(before, &expected).count();
    assert_eq!(
        answer.outcome,
        Outcome::Moved(moves as u32),
        "{addresses:?}"
    );
    assert_eq!(answer.state, expected, "{addresses:?}");
    assert_eq!(order_after, places);
}

#[test]
fn drops_of_records_do_what_frees_do() {
    let mut checked = 0;
    for kind in [
        Kind::Drops,
        Kind::DropEdges,
        Kind::ManyDrops,
        Kind::Long,
        Kind::LongEdges,
    ] {
        for seed in 1..=20 {
            let mut order_before = vec![0; 16384];
            replay(&make_record(kind, seed, 500), |step| {
                if let Command::Drop {
                    processor,
                    addresses,
                } = &step.command
                {
                    if !addresses.is_empty() {
                        let drop = (*processor, &addresses[..]);
                        let after = (step.answer, step.order);
                        check_drop(step.before, drop, &order_before, after);
                        checked += 1;
                    }
                }
                order_before = step.order.to_vec();
            });
        }
    }
    assert!(checked > 2000, "{checked}");
}

#[test]
fn drops_on_states_do_what_frees_do() {
    let mut counts = BTreeSet::new();
    for seed in 1..=400 {
        let input = read_input(&make_state(StateKind::Drops, seed)).expect("a call");
        let Command::Drop {
            processor,
            addresses,
        } = &input.call
        else {
            panic!("{:?}", input.call);
        };
        let mut order = input.order.clone();
        let answer = run_call(&input, &mut order);
        if let Outcome::Moved(_) = answer.outcome {
            counts.insert(addresses.len());
        }
        if !addresses.is_empty() {
            let drop = (*processor, &addresses[..]);
            check_drop(&input.state, drop, &input.order, (&answer, &order));
        }
    }
    for count in [1, 2, 3, 255, 256, 300, 512] {
        assert!(counts.contains(&count), "{count} of {counts:?}");
    }
}

/// A record with each free by address made a drop of one, and each drop of one a free.
fn frees_and_drops_swapped(record: &[u8]) -> Vec<u8> {
    let mut swapped = Vec::new();
    let mut offset = 0;
    while let Ok((command, next)) = decode(record, offset) {
        let command = match command {
            Command::Free { processor, address } => Command::Drop {
                processor,
                addresses: vec![address],
            },
            Command::Drop {
                processor,
                addresses,
            } if addresses.len() == 1 => Command::Free {
                processor,
                address: addresses[0],
            },
            command => command,
        };
        write_command(&mut swapped, &command);
        offset = next;
    }
    swapped
}

/// The answers of a key: what follows the command's own numbers, and the final lines.
fn answers(key: &[u8]) -> Vec<String> {
    let key = String::from_utf8(key.to_vec()).unwrap();
    let answer = |line: &str| match line.split_once(" moved ") {
        Some((_, moves)) => format!("moved {moves}"),
        None => match line.split_once(" refused ") {
            Some((_, refusal)) => format!("refused {refusal}"),
            None => line.to_string(),
        },
    };
    key.lines().map(answer).collect()
}

#[test]
fn a_drop_of_one_address_prints_what_the_free_does() {
    let mut swapped = 0;
    for kind in [
        Kind::Uniform,
        Kind::Threshold,
        Kind::Small,
        Kind::Edges,
        Kind::Names,
        Kind::Equals,
        Kind::Drops,
        Kind::Long,
    ] {
        for seed in 0..10 {
            let record = make_record(kind, seed, 400);
            let other = frees_and_drops_swapped(&record);
            assert_eq!(answers(&key(&other)), answers(&key(&record)));
            let lines = String::from_utf8(key(&other)).unwrap();
            swapped += lines.matches(" count 1 ").count();
        }
    }
    assert!(swapped > 3000, "{swapped}");
}

/// What drops met along records.
#[derive(Default)]
struct Corners {
    met: Met,
    /// Names that drops let go and that no take has used since.
    let_go: BTreeSet<u16>,
}

impl Corners {
    fn note(&mut self, step: &Step) {
        let outcome = step.answer.outcome;
        match (&step.command, outcome) {
            (
                Command::Drop {
                    processor,
                    addresses,
                },
                Outcome::Refused(refusal),
            ) => self.note_refused(*processor, addresses, refusal),
            (Command::Drop { addresses, .. }, Outcome::Moved(moves)) => {
                self.note_accepted(step, addresses, moves)
            }
            (Command::NamedTake { name, .. }, Outcome::At(_)) if self.let_go.remove(name) => {
                self.met.count("name used again");
            }
            (Command::NamedFree { name, .. }, Outcome::Refused(Refusal::NameNotHeld))
                if self.let_go.contains(name) =>
            {
                self.met.count("15 after a drop");
            }
            _ => {}
        }
    }

    fn note_refused(&mut self, processor: u8, addresses: &[u32], by: Refusal) {
        let place = match by {
            Refusal::Processor if addresses.is_empty() => "2 before 16".to_string(),
            Refusal::Processor if processor == 0 => "2, processor 0".to_string(),
            Refusal::Processor => "2, above P".to_string(),
            Refusal::EmptyDrop => "16".to_string(),
            _ => {
                let number = by.number();
                let listed = |&(at, address): &(usize, &u32)| addresses[..at].contains(address);
                let twice = addresses.iter().enumerate().any(|it| listed(&it));
                match (twice, addresses.len()) {
                    (true, _) => format!("{number}, an address twice"),
                    (false, 1) => format!("{number}, alone"),
                    (false, _) => format!("{number}, of several"),
                }
            }
        };
        self.met.count(place);
    }

    fn note_accepted(&mut self, step: &Step, addresses: &[u32], moves: u32) {
        let (before, after) = (step.before, &step.answer.state);
        let touched = touched_by(before, addresses);
        let heaps: BTreeSet<u8> = touched.iter().map(|it| it.0).collect();
        let classes: BTreeSet<u8> = touched.iter().map(|it| it.1).collect();
        for (what, holds) in [
            ("one address", addresses.len() == 1),
            ("255 addresses", addresses.len() == 255),
            ("three heaps or more", heaps.len() > 2),
            ("three classes or more", classes.len() > 2),
            ("heap 0 alone", heaps == BTreeSet::from([0])),
            ("heap 0 and others", heaps.contains(&0) && heaps.len() > 1),
            (
                "all live blocks",
                after.superblocks.iter().all(|it| it.live_count() == 0),
            ),
            ("moves", moves > 0),
            (
                "more moves than q",
                moves > u32::from(before.control.setup.q),
            ),
            (
                "moves of two heaps and classes",
                moved_from(before, after).len() > 1,
            ),
            (
                "an emptied superblock moves",
                emptied_and_moved(before, after),
            ),
        ] {
            if holds {
                self.met.count(what);
            }
        }
        let held = before.control.names.held();
        let gone = held.filter(|(name, _)| after.control.names.block_of(*name).is_none());
        let gone: Vec<u16> = gone.map(|(name, _)| name).collect();
        if !gone.is_empty() {
            self.met.count("names let go");
        }
        self.let_go.extend(gone);
    }
}

/// The heaps and classes that gave up a superblock.
fn moved_from(before: &State, after: &State) -> BTreeSet<(u8, u8)> {
    passed(before, after)
        .map(|(old, _)| (old.owner, old.class))
        .collect()
}

fn emptied_and_moved(before: &State, after: &State) -> bool {
    passed(before, after).any(|(old, new)| old.live_count() > 0 && new.live_count() == 0)
}

/// Each corner with the fewest times that records must meet it.
const EXPECTED: [(&str, u32); 26] = [
    ("one address", 100),
    ("255 addresses", 5),
    ("three heaps or more", 50),
    ("three classes or more", 100),
    ("heap 0 alone", 20),
    ("heap 0 and others", 50),
    ("all live blocks", 50),
    ("moves", 200),
    ("more moves than q", 30),
    ("moves of two heaps and classes", 40),
    ("an emptied superblock moves", 100),
    ("names let go", 200),
    ("name used again", 100),
    ("15 after a drop", 50),
    ("16", 50),
    ("2 before 16", 20),
    ("2, processor 0", 20),
    ("2, above P", 60),
    ("5, alone", 20),
    ("5, of several", 100),
    ("5, an address twice", 5),
    ("6, alone", 5),
    ("6, of several", 60),
    ("6, an address twice", 5),
    ("7, of several", 200),
    ("7, an address twice", 100),
];

/// The seeds that `compare` takes lead drops to each corner.
#[test]
fn drops_meet_every_corner() {
    let mut met = Met::default();
    for seed in 1..=80 {
        let mut corners = Corners::default();
        replay(&make_record(Kind::Drops, seed, 500), |step| {
            corners.note(step)
        });
        met.add(corners.met);
    }
    met.expect(&EXPECTED);
}

/// The seeds that `compare` takes cut a drop after each of its parts.
#[test]
fn records_are_cut_inside_drops() {
    let mut met = BTreeSet::new();
    for seed in 1..=80 {
        let record = make_record(Kind::DropTruncated, seed, 100);
        let mut offset = 0;
        while let Ok((_, next)) = read_command(&record, offset) {
            offset = next;
        }
        let rest = &record[offset..];
        if rest.first() == Some(&DROP_BYTE) {
            assert!(key(&record).ends_with(format!("stopped 9 at {offset}\n").as_bytes()));
            met.insert(match rest.len() {
                1 | 2 => rest.len(),
                length => 3 + (length - 3) % 4,
            });
        }
    }
    assert_eq!(met, BTreeSet::from([1, 2, 3, 4, 5, 6]));
}

/// Most frees of the records for timing are in drops of 2 to 40.
#[test]
fn many_drops_has_most_frees_in_drops() {
    for seed in 1..=3 {
        let (mut dropped, mut freed, mut sizes) = (0, 0, BTreeSet::new());
        replay(&make_record(Kind::ManyDrops, seed, 4000), |step| {
            match (&step.command, step.answer.outcome) {
                (Command::Drop { addresses, .. }, Outcome::Moved(_)) => {
                    dropped += addresses.len();
                    sizes.insert(addresses.len());
                }
                (Command::Free { .. }, Outcome::Moved(_)) => freed += 1,
                _ => {}
            }
        });
        assert!(dropped > 5 * freed && dropped > 1000, "{dropped} {freed}");
        assert!(
            sizes.iter().all(|size| (1..=41).contains(size)),
            "{sizes:?}"
        );
        assert!(sizes.len() > 25, "{sizes:?}");
    }
}

/// The seeds that `compare` takes meet every answer on states and on rows of 64, and the
/// refusals of other rows at every length.
#[test]
fn drops_meet_every_answer() {
    let mut met = BTreeSet::new();
    let word = |bytes: &[u8]| {
        let text = answer_bytes(bytes);
        let line = text.lines().next().unwrap().to_string();
        line.strip_prefix("moved")
            .map_or(line.clone(), |_| "moved".to_string())
    };
    for seed in 1..=240 {
        for kind in [StateKind::Drops, StateKind::DropsDamaged] {
            met.insert(("state", 64, word(&make_state(kind, seed))));
        }
        let bytes = make_state(StateKind::DropsRow, seed);
        let length = read_row_input(&bytes).expect("a row").length;
        met.insert(("row", length, word(&bytes)));
        assert_eq!(
            answer_bytes(&make_state(StateKind::DropsBytes, seed)),
            BAD_INPUT
        );
    }
    for place in ["state", "row"] {
        for refusal in [2, 5, 6, 7, 12, 13, 16] {
            let refused = format!("refused {refusal}");
            assert!(met.contains(&(place, 64, refused)), "{place} {refusal}");
        }
        assert!(met.contains(&(place, 64, "moved".to_string())), "{place}");
    }
    for length in [0, 1, 63, 65] {
        for refusal in [12, 13] {
            let refused = format!("refused {refusal}");
            assert!(
                met.contains(&("row", length, refused)),
                "{length} {refusal}"
            );
        }
    }
}

#[test]
fn refused_drops_change_nothing() {
    for kind in [Kind::Drops, Kind::DropEdges, Kind::DropGarbage] {
        for seed in 1..=20 {
            let mut order_before = vec![0; 16384];
            replay(&make_record(kind, seed, 300), |step| {
                if let (Command::Drop { .. }, Outcome::Refused(_)) =
                    (&step.command, step.answer.outcome)
                {
                    assert_eq!(step.answer.state, *step.before);
                    assert_eq!(step.order, order_before);
                }
                order_before = step.order.to_vec();
            });
        }
    }
    // On a state that fails its check too.
    for seed in 1..=100 {
        let input = read_input(&make_state(StateKind::DropsDamaged, seed)).expect("a call");
        let mut order = input.order.clone();
        let answer = run(&input.call, &input.state, &mut order);
        if let Outcome::Refused(_) = answer.outcome {
            assert_eq!((answer.state, order), (input.state, input.order));
        }
    }
}
