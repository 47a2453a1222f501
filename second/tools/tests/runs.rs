//! Long blocks in generated records and states: the corners they meet, that states with
//! wrong runs are wrong in nothing else, and that earlier kinds have stayed as they were.

mod met;
mod replay;

use std::collections::BTreeSet;

use hoard::{check_handed_in, may_join_run, run_length_of_size, runs, take};
use hoard::{Command, Names, Outcome, Refusal, State, Superblock, Totals};
use hoard::{GLOBAL_HEAP, LONGEST_RUN, NOT_HELD, RUN_OWNER, SUPERBLOCK_BYTES, UNUSED_OWNER};
use tools::call_form::{answer_bytes, read_input, run_call, CallInput};
use tools::long_blocks::{gaps, largest_of_run, smallest_of_run, starts_of_runs, LIMIT_SIZES};
use tools::make_record::{self, make_record, Kind as RecordKind};
use tools::make_state::{make_state, Kind, KINDS};
use tools::row_form::read_row_input;
use tools::run_faults::RUN_FAULTS;

use met::Met;
use replay::{replay, Step};

/// Seeds of each kind of wrong runs that `compare` takes.
const COMPARED: std::ops::RangeInclusive<u64> = 1..=60;

#[test]
fn sizes_of_runs() {
    for length in 1..=LONGEST_RUN {
        for size in [smallest_of_run(length), largest_of_run(length)] {
            assert_eq!(run_length_of_size(size), length);
        }
        let next = largest_of_run(length).checked_add(1);
        let expected = (length < LONGEST_RUN).then(|| smallest_of_run(length + 1));
        assert_eq!(next, expected);
    }
    assert_eq!(smallest_of_run(1), 2049);
}

/// What calls of long blocks met along records, and how each name that held a run was
/// let go last.
#[derive(Default)]
struct Corners {
    met: Met,
    let_go: BTreeSet<u16>,
}

impl Corners {
    fn count_all(&mut self, list: &[(&str, bool)]) {
        for (what, holds) in list {
            if *holds {
                self.met.count(*what);
            }
        }
    }

    fn note(&mut self, step: &Step) {
        let outcome = step.answer.outcome;
        match &step.command {
            Command::Take { size, .. } if *size > 2048 => self.note_take(step, *size, outcome),
            Command::NamedTake { size, name, .. } => {
                let is_again = self.let_go.contains(name) && matches!(outcome, Outcome::At(_));
                self.count_all(&[("a run's name used again", is_again)]);
                if is_again {
                    self.let_go.remove(name);
                }
                if *size > 2048 {
                    self.note_take(step, *size, outcome);
                    self.count_all(&[
                        ("named", matches!(outcome, Outcome::At(_))),
                        ("14", outcome == Outcome::Refused(Refusal::TakenName)),
                        ("14 before 17", is_14_before_17(step)),
                    ]);
                }
            }
            Command::NamedFree { name, .. } => {
                let was_let_go = self.let_go.contains(name);
                let is_refused = outcome == Outcome::Refused(Refusal::NameNotHeld);
                self.count_all(&[("15 for a run's name", was_let_go && is_refused)]);
            }
            Command::Free { address, .. } => self.note_free(step.before, *address, outcome),
            Command::Drop { addresses, .. } => self.note_drop(step.before, addresses, outcome),
            _ => {}
        }
        self.note_freed(step);
    }

    fn note_take(&mut self, step: &Step, size: u16, outcome: Outcome) {
        let length = usize::from(run_length_of_size(size));
        let gaps = gaps(step.before);
        match outcome {
            Outcome::At(address) => {
                self.met.count(format!("size {}", near_limit(size)));
                let first = (address / SUPERBLOCK_BYTES) as usize;
                self.note_taken(step.before, first, length);
                self.count_all(&[("a gap just fits", gaps.contains(&length))]);
            }
            Outcome::Refused(Refusal::NoRun) => self.count_all(&[
                ("17", true),
                ("17, one too short", gaps.contains(&(length - 1))),
                ("17, no gap", gaps.is_empty()),
                ("17, enough in parts", gaps.iter().sum::<usize>() >= length),
                ("17 while a small size is served", serves_small(step)),
            ]),
            _ => {}
        }
    }

    /// A run taken where these superblocks were before.
    fn note_taken(&mut self, before: &State, first: usize, length: usize) {
        let count = usize::from(before.control.setup.superblocks);
        let taken = &before.superblocks[first..first + length];
        let global = taken.iter().filter(|it| it.owner == GLOBAL_HEAP);
        let classes: BTreeSet<u8> = global.clone().map(|it| it.class).collect();
        let ranked = global.filter(|it| it.rank > 0).count();
        let below = before.superblocks[..first].iter();
        self.met.count(format!("length {length}"));
        self.count_all(&[
            ("taken", true),
            ("at the end of the setup", first + length == count),
            ("at the end of the table", first + length == 64),
            ("with one of heap 0", classes.len() == 1),
            ("with two classes of heap 0", classes.len() > 1),
            ("with ranked ones", ranked > 0),
            (
                "behind a gap that is too short",
                below.clone().any(may_join_run),
            ),
            (
                "behind an empty one of a processor",
                below
                    .clone()
                    .any(|it| is_processor(it) && it.live_count() == 0),
            ),
            (
                "behind one of heap 0 that is not empty",
                below
                    .clone()
                    .any(|it| it.owner == GLOBAL_HEAP && it.live_count() > 0),
            ),
        ]);
    }

    fn note_free(&mut self, before: &State, address: u32, outcome: Outcome) {
        let is_start = starts_of_runs(before).contains(&address);
        let in_run = owner_at(before, address) == Some(RUN_OWNER);
        self.count_all(&[
            ("freed by start", is_start && outcome == Outcome::Moved(0)),
            (
                "6 inside a run",
                in_run && outcome == Outcome::Refused(Refusal::MisalignedAddress),
            ),
        ]);
        assert!(!in_run || outcome != Outcome::Refused(Refusal::NotLive));
    }

    fn note_drop(&mut self, before: &State, addresses: &[u32], outcome: Outcome) {
        let starts = starts_of_runs(before);
        let listed = addresses.iter().filter(|it| starts.contains(it)).count();
        if listed == 0 {
            return;
        }
        match outcome {
            Outcome::Moved(moves) => self.count_all(&[
                ("dropped", true),
                ("dropped, several", listed > 1),
                ("dropped with blocks", listed < addresses.len()),
                ("dropped with a move", moves > 0),
            ]),
            Outcome::Refused(refusal) => {
                let number = refusal.number();
                if let Some(bad) = first_bad_of_run(before, addresses) {
                    self.met.count(format!("drop refused {number}, {bad}"));
                }
            }
            _ => {}
        }
    }

    /// Names of runs that the call let go.
    fn note_freed(&mut self, step: &Step) {
        let before = step.before.control.names.held();
        for (name, block) in before {
            let was_run = step.before.superblocks[block.superblock].owner == RUN_OWNER;
            if was_run && step.answer.state.control.names.block_of(name).is_none() {
                let way = match step.command {
                    Command::NamedFree { .. } => "by name",
                    Command::Drop { .. } => "by a drop",
                    _ => "by address",
                };
                self.met.count(format!("name let go {way}"));
                self.let_go.insert(name);
            }
        }
    }
}

fn is_processor(superblock: &Superblock) -> bool {
    ![GLOBAL_HEAP, UNUSED_OWNER, RUN_OWNER].contains(&superblock.owner)
}

fn owner_at(state: &State, address: u32) -> Option<u8> {
    let number = (address / SUPERBLOCK_BYTES) as usize;
    let count = usize::from(state.control.setup.superblocks);
    state.superblocks[..count].get(number).map(|it| it.owner)
}

/// A size at a limit of runs as it is, any other as 0.
fn near_limit(size: u16) -> u16 {
    if LIMIT_SIZES.contains(&size) {
        size
    } else {
        0
    }
}

fn is_14_before_17(step: &Step) -> bool {
    let Command::NamedTake {
        processor, size, ..
    } = step.command
    else {
        return false;
    };
    step.answer.outcome == Outcome::Refused(Refusal::TakenName)
        && take(step.before, processor, size, &mut step.order.to_vec()).outcome
            == Outcome::Refused(Refusal::NoRun)
}

/// Whether a take of 16 or 2048 bytes is served where a long one was not.
fn serves_small(step: &Step) -> bool {
    [16, 2048].into_iter().any(|size| {
        let answer = take(step.before, 1, size, &mut step.order.to_vec());
        matches!(answer.outcome, Outcome::At(_))
    })
}

/// What the first bad address of a drop is, where it is of a run: its start again, or an
/// address inside it, with its start listed before, behind or not at all.
fn first_bad_of_run(state: &State, addresses: &[u32]) -> Option<&'static str> {
    let all: Vec<(usize, u8)> = runs(&state.superblocks).collect();
    let run_at = |address: u32| {
        let number = (address / SUPERBLOCK_BYTES) as usize;
        let mut found = all.iter();
        found.find(|(first, length)| (*first..first + usize::from(*length)).contains(&number))
    };
    for (at, &address) in addresses.iter().enumerate() {
        let Some(&(first, _)) = run_at(address) else {
            continue;
        };
        let start = first as u32 * SUPERBLOCK_BYTES;
        let before = addresses[..at].contains(&start);
        let behind = addresses[at + 1..].contains(&start);
        match (address == start, before, behind) {
            (true, true, _) => return Some("start twice"),
            (true, false, _) => {}
            (false, true, _) => return Some("inside after its start"),
            (false, false, true) => return Some("inside before its start"),
            (false, false, false) => return Some("inside alone"),
        }
    }
    None
}

/// Each corner with the fewest times that records must meet it.
const EXPECTED: [(&str, u32); 50] = [
    ("taken", 1500),
    ("named", 400),
    ("size 2049", 60),
    ("size 4095", 60),
    ("size 4096", 60),
    ("size 4097", 40),
    ("size 8192", 40),
    ("size 8193", 40),
    ("size 61440", 10),
    ("size 61441", 10),
    ("size 65535", 10),
    ("size 0", 300),
    ("length 1", 200),
    ("length 2", 150),
    ("length 3", 100),
    ("length 4", 10),
    ("length 8", 10),
    ("length 15", 10),
    ("length 16", 30),
    ("a gap just fits", 200),
    ("at the end of the setup", 80),
    ("at the end of the table", 10),
    ("with one of heap 0", 300),
    ("with two classes of heap 0", 60),
    ("with ranked ones", 300),
    ("behind a gap that is too short", 150),
    ("behind an empty one of a processor", 300),
    ("behind one of heap 0 that is not empty", 40),
    ("17", 1000),
    ("17, one too short", 200),
    ("17, no gap", 300),
    ("17, enough in parts", 100),
    ("17 while a small size is served", 400),
    ("14", 60),
    ("14 before 17", 20),
    ("freed by start", 400),
    ("6 inside a run", 200),
    ("dropped", 200),
    ("dropped, several", 60),
    ("dropped with blocks", 100),
    ("dropped with a move", 20),
    ("drop refused 5, start twice", 20),
    ("drop refused 5, inside after its start", 20),
    ("drop refused 6, inside before its start", 20),
    ("drop refused 6, inside alone", 5),
    ("name let go by name", 100),
    ("name let go by address", 60),
    ("name let go by a drop", 60),
    ("a run's name used again", 150),
    ("15 for a run's name", 10),
];

/// The seeds that `compare` takes lead long blocks to each corner.
#[test]
fn long_blocks_meet_every_corner() {
    let mut met = Met::default();
    for seed in 1..=120 {
        let mut corners = Corners::default();
        let record = make_record(RecordKind::Long, seed, 400);
        replay(&record, |step| corners.note(step));
        met.add(corners.met);
    }
    met.expect(&EXPECTED);
}

/// Records for timing have long calls throughout, most of them accepted.
#[test]
fn many_long_has_long_blocks_throughout() {
    for seed in 1..=3 {
        let (mut taken, mut freed, mut refused, mut small) = (0, 0, 0, 0);
        let record = make_record(RecordKind::ManyLong, seed, 9000);
        assert!(record.len() > 40_000 && record.len() <= 60_000);
        replay(&record, |step| match (&step.command, step.answer.outcome) {
            (Command::Take { size, .. }, Outcome::At(_)) if *size > 2048 => taken += 1,
            (Command::Take { size, .. }, Outcome::Refused(_)) if *size > 2048 => refused += 1,
            (Command::Free { address, .. }, Outcome::Moved(_)) => {
                freed += u32::from(starts_of_runs(step.before).contains(address));
            }
            (_, Outcome::At(_)) => small += 1,
            _ => {}
        });
        assert!(taken > 300 && freed > 300, "{seed}: {taken} {freed}");
        assert!(small > 3000, "{seed}: {small}");
        assert!(refused < 2 * taken, "{seed}: {refused}");
    }
}

/// What a hash of many bytes is.
fn hash_of(records: impl Iterator<Item = Vec<u8>>) -> u64 {
    let bytes = records.flatten();
    bytes.fold(0xcbf2_9ce4_8422_2325, |hash, byte| {
        (hash ^ u64::from(byte)).wrapping_mul(0x0100_0000_01b3)
    })
}

/// The kinds before long blocks are made as if their sizes were refused: a change of
/// their bytes would be a change of what they are for.
#[test]
fn earlier_kinds_stay_the_same() {
    let earlier = make_record::KINDS[..RecordKind::Long as usize].iter();
    let records = earlier.flat_map(|&(_, kind)| (1..=5).map(move |it| make_record(kind, it, 300)));
    assert_eq!(hash_of(records), 0x483e_b690_545a_4b55);
}

fn input_of(kind: Kind, seed: u64) -> CallInput {
    read_input(&make_state(kind, seed)).expect("a call")
}

/// Makes wrong runs right, whatever is wrong with them: superblocks of no run carry no
/// length, those of runs have no mark, rank or class, and each stretch of them is runs.
fn repair(state: &mut State) {
    let count = usize::from(state.control.setup.superblocks);
    for superblock in &mut state.superblocks[count..] {
        if superblock.owner == RUN_OWNER {
            *superblock = Superblock::UNUSED;
        }
    }
    for superblock in &mut state.superblocks {
        superblock.run_length = 0;
        if superblock.owner == RUN_OWNER {
            *superblock = Superblock::first_of_run(1);
        }
    }
    close_ranks(state);
    let firsts: BTreeSet<u16> = runs(&state.superblocks)
        .map(|(first, _)| first as u16 * 256)
        .collect();
    for number in &mut state.control.names.0 {
        let superblock = usize::from(*number) / 256;
        let in_run = superblock < 64 && state.superblocks[superblock].owner == RUN_OWNER;
        if in_run && !firsts.contains(number) {
            *number = NOT_HELD;
        }
    }
    state.control.totals = Totals::recount(&state.superblocks);
}

/// Puts the ranks that are there in a row without a gap.
fn close_ranks(state: &mut State) {
    let mut ranked: Vec<usize> = (0..64).collect();
    ranked.retain(|&number| state.superblocks[number].rank > 0);
    ranked.sort_by_key(|&number| state.superblocks[number].rank);
    for (rank, number) in (1..).zip(ranked) {
        state.superblocks[number].rank = rank;
    }
}

#[test]
fn nothing_but_the_runs_is_wrong() {
    for kind in RUN_FAULTS {
        for seed in COMPARED {
            let mut input = input_of(kind, seed);
            assert!(check_handed_in(&input.state, &input.order).is_err());
            repair(&mut input.state);
            check_handed_in(&input.state, &input.order)
                .unwrap_or_else(|_| panic!("{kind:?} {seed}"));
        }
    }
}

/// The superblocks of owner 254 that are in no run, or in several, and what the lengths
/// say of them.
struct Shape {
    /// Whether the lengths of superblocks of owner 254 name each of these once.
    is_whole: bool,
    longest: u8,
    past_n: bool,
    stray_heap: bool,
    stray_unused: bool,
}

fn shape_of(state: &State) -> Shape {
    let count = usize::from(state.control.setup.superblocks);
    let all: Vec<(usize, u8)> = runs(&state.superblocks).collect();
    let of_owner =
        |owner: u8| move |&(first, _): &(usize, u8)| state.superblocks[first].owner == owner;
    let proper: Vec<_> = all.iter().copied().filter(of_owner(RUN_OWNER)).collect();
    let named = proper
        .iter()
        .flat_map(|&(first, length)| first..first + usize::from(length));
    let mut numbers: Vec<usize> = named.collect();
    numbers.sort();
    let owned = (0..64).filter(|&it| state.superblocks[it].owner == RUN_OWNER);
    Shape {
        is_whole: numbers.into_iter().eq(owned),
        longest: proper.iter().map(|it| it.1).max().unwrap_or(0),
        past_n: proper.iter().any(|it| it.0 + usize::from(it.1) > count),
        stray_heap: all.iter().any(|it| is_heap(&state.superblocks[it.0])),
        stray_unused: all.iter().any(of_owner(UNUSED_OWNER)),
    }
}

fn is_heap(superblock: &Superblock) -> bool {
    ![UNUSED_OWNER, RUN_OWNER].contains(&superblock.owner)
}

#[test]
fn each_fault_of_lengths_is_met_alone() {
    for kind in RUN_FAULTS {
        for seed in COMPARED {
            let state = input_of(kind, seed).state;
            let shape = shape_of(&state);
            let wrong = [
                !shape.is_whole,
                shape.longest > LONGEST_RUN,
                shape.past_n,
                shape.stray_heap,
                shape.stray_unused,
            ];
            let expected = match kind {
                Kind::RunLength0 | Kind::RunOverlapping | Kind::RunShort => 0,
                Kind::RunLength17 => 1,
                Kind::RunPastN => 2,
                Kind::RunLengthInHeap => 3,
                Kind::RunLengthUnused => 4,
                // Wide lengths reach past N too.
                Kind::RunInnerLength | Kind::RunLong => {
                    assert!(wrong[0] && !wrong[3] && !wrong[4], "{kind:?} {seed}");
                    continue;
                }
                _ => {
                    assert_eq!(wrong, [false; 5], "{kind:?} {seed}");
                    continue;
                }
            };
            for (at, &holds) in wrong.iter().enumerate() {
                // Past the last superblock a run cannot be whole.
                if (kind, at) != (Kind::RunPastN, 0) {
                    assert_eq!(holds, at == expected, "{kind:?} {seed} {at}");
                }
            }
        }
    }
}

#[test]
fn faults_stand_at_the_limits() {
    let states = |kind| COMPARED.map(move |seed| input_of(kind, seed).state);
    let lengths: BTreeSet<u8> = states(Kind::RunLength17)
        .map(|it| shape_of(&it).longest)
        .collect();
    assert!(
        lengths.contains(&17) && lengths.contains(&64),
        "{lengths:?}"
    );

    let mut past = BTreeSet::new();
    for state in states(Kind::RunPastN) {
        let count = usize::from(state.control.setup.superblocks);
        let (first, length) = runs(&state.superblocks).last().expect("a run");
        let end = first + usize::from(length);
        past.insert(match (count, first < count) {
            (64, _) if end == 65 => "one past the table",
            (64, _) => "past the table",
            (_, true) if end == count + 1 => "one past N",
            (_, true) => "past N",
            (_, false) => "from N on",
        });
    }
    assert_eq!(past.len(), 5, "{past:?}");

    // In the first superblock of a run and in the others.
    for kind in [Kind::RunMark, Kind::RunRank, Kind::RunClass] {
        let mut met = BTreeSet::new();
        for state in states(kind) {
            let is_wrong = |it: &&Superblock| (it.live_count(), it.rank, it.class) != (0, 0, 0);
            let of_runs = state.superblocks.iter().filter(|it| it.owner == RUN_OWNER);
            let wrong: Vec<_> = of_runs.filter(is_wrong).collect();
            assert_eq!(wrong.len(), 1, "{kind:?}");
            met.insert(wrong[0].begins_run());
        }
        assert_eq!(met.len(), 2, "{kind:?}");
    }

    let mut named = BTreeSet::new();
    for state in states(Kind::RunNameInner) {
        for (_, block) in state.control.names.held() {
            let superblock = &state.superblocks[block.superblock];
            if superblock.owner == RUN_OWNER {
                named.insert((superblock.begins_run(), block.block.min(2)));
            }
        }
    }
    for wanted in [(true, 1), (true, 2), (false, 0), (false, 1), (false, 2)] {
        assert!(named.contains(&wanted), "{wanted:?} in {named:?}");
    }
    let unused: BTreeSet<bool> = states(Kind::RunLengthUnused)
        .map(|state| {
            let (number, _) = runs(&state.superblocks)
                .find(|it| state.superblocks[it.0].owner == UNUSED_OWNER)
                .expect("a stray length");
            number < usize::from(state.control.setup.superblocks)
        })
        .collect();
    assert_eq!(unused.len(), 2, "below N, and from N on");
}

/// The first word of an answer, with the number of a refusal.
fn word(bytes: &[u8]) -> String {
    let text = answer_bytes(bytes);
    let line = text.lines().next().unwrap();
    let word = line.split(' ').next().unwrap();
    if word == "refused" { line } else { word }.to_string()
}

/// The seeds that `compare` takes meet every answer on states and on rows of 64, and the
/// refusals of other rows at every length.
#[test]
fn long_calls_meet_every_answer() {
    let mut met = BTreeSet::new();
    for seed in 1..=240 {
        met.insert(("state", 64, word(&make_state(Kind::Long, seed))));
        met.insert(("damaged", 64, word(&make_state(Kind::LongDamaged, seed))));
        let bytes = make_state(Kind::LongRow, seed);
        let length = read_row_input(&bytes).expect("a row").length;
        met.insert(("row", length, word(&bytes)));
    }
    let mut expected = Vec::new();
    for place in ["state", "row"] {
        for answer in ["at", "moved"] {
            expected.push((place, 64, answer.to_string()));
        }
        for refusal in [2, 4, 5, 6, 14, 15, 17] {
            expected.push((place, 64, format!("refused {refusal}")));
        }
    }
    for length in [0, 1, 63, 64, 65] {
        for refusal in [12, 13] {
            expected.push(("row", length, format!("refused {refusal}")));
        }
    }
    for answer in ["at", "moved", "refused 13", "refused 17"] {
        expected.push(("damaged", 64, answer.to_string()));
    }
    for wanted in expected {
        assert!(met.contains(&wanted), "{wanted:?} in {met:?}");
    }
}

/// Sound states with runs have what no record leads to: unused superblocks between empty
/// ones of heap 0, which places 3 and 4 would have taken in their order.
#[test]
fn long_states_have_every_neighbour() {
    let mut met = BTreeSet::new();
    for seed in 1..=240 {
        let input = input_of(Kind::Long, seed);
        check_handed_in(&input.state, &input.order).expect("a sound state");
        let count = usize::from(input.state.control.setup.superblocks);
        for pair in input.state.superblocks[..count].windows(2) {
            met.insert((sort_of(&pair[0]), sort_of(&pair[1])));
        }
        let names = &input.state.control.names;
        let of_runs = |state: &State, names: &Names| {
            names
                .held()
                .filter(|held| state.superblocks[held.1.superblock].owner == RUN_OWNER)
                .count()
        };
        met.insert(match of_runs(&input.state, names) {
            0 => ("no name", "of a run"),
            1 => ("a name", "of a run"),
            _ => ("names", "of runs"),
        });
    }
    let sorts = ["unused", "run", "empty", "global", "processor"];
    for pair in sorts.iter().flat_map(|&it| sorts.map(|other| (it, other))) {
        assert!(met.contains(&pair), "{pair:?} in {met:?}");
    }
    assert_eq!(met.len(), 25 + 3, "{met:?}");
}

fn sort_of(superblock: &Superblock) -> &'static str {
    match superblock.owner {
        UNUSED_OWNER => "unused",
        RUN_OWNER => "run",
        GLOBAL_HEAP if superblock.live_count() == 0 => "empty",
        GLOBAL_HEAP => "global",
        _ => "processor",
    }
}

/// The earlier kinds that are loose or damaged have owners of 254 and lengths at times.
#[test]
fn earlier_damaged_states_have_runs_at_times() {
    for kind in [Kind::Loose, Kind::ZeroDamaged, Kind::DropsDamaged] {
        let states = (1..=240).filter_map(|seed| read_input(&make_state(kind, seed)));
        let has_run = |input: &CallInput| {
            let mut superblocks = input.state.superblocks.iter();
            superblocks.any(|it| it.owner == RUN_OWNER || it.run_length > 0)
        };
        let count = states.filter(has_run).count();
        assert!((20..120).contains(&count), "{kind:?}: {count}");
    }
    let rows = (1..=240).filter_map(|seed| read_row_input(&make_state(Kind::RowDamaged, seed)));
    let with_length = rows.filter(|it| {
        it.input
            .state
            .superblocks
            .iter()
            .any(|it| it.run_length > 0)
    });
    assert!(with_length.count() > 5);
}

/// Accepted calls on states with runs leave sound ones, whose runs do not share a
/// superblock with a heap.
#[test]
fn accepted_calls_leave_sound_states() {
    for (_, kind) in KINDS {
        for seed in 1..=40 {
            let Some(input) = read_input(&make_state(kind, seed)) else {
                continue;
            };
            let mut order = input.order.clone();
            let answer = run_call(&input, &mut order);
            if matches!(answer.outcome, Outcome::At(_) | Outcome::Moved(_)) {
                check_handed_in(&answer.state, &order).expect("a sound state");
            }
        }
    }
}
