//! Random records: what they are like, and what holds along each of them.

mod replay;

use std::collections::{BTreeMap, HashMap};

use hoard::{check_handed_in, class_of_size, decode, write_command, Answer, Command, Outcome};
use hoard::{run_length_of_size, runs, Refusal, State, Totals};
use hoard::{GLOBAL_HEAP, RUN_OWNER, SIZE_CLASSES, SUPERBLOCK_BYTES, UNUSED_OWNER};
use tools::make_record::{make_record, Kind, KINDS};

use replay::replay;

#[test]
fn the_same_seed_gives_the_same_record() {
    for (_, kind) in KINDS {
        assert_eq!(make_record(kind, 5, 100), make_record(kind, 5, 100));
        assert_ne!(make_record(kind, 5, 100), make_record(kind, 6, 100));
    }
}

/// Figures of several versions are taken with this record: docs/PERFORMANCE.md.
#[test]
fn the_record_of_the_figures_stays_the_same() {
    let record = make_record(Kind::Many, 1, 9000);
    let hash = record
        .iter()
        .fold(0xcbf2_9ce4_8422_2325_u64, |hash, &byte| {
            (hash ^ u64::from(byte)).wrapping_mul(0x0100_0000_01b3)
        });
    assert_eq!((record.len(), hash), (40032, 0xb57f_5a1b_a2ce_fec1));
}

#[test]
fn long_records_have_60000_bytes() {
    for kind in [Kind::Longest, Kind::DropLongest] {
        for seed in 0..3 {
            let record = make_record(kind, seed, 0);
            assert_eq!(record.len(), 60000);
            assert!(hoard::key(&record).ends_with(b"\nend\n"));
        }
    }
}

#[test]
fn other_records_stay_within_60000_bytes() {
    for kind in [
        Kind::Uniform,
        Kind::Threshold,
        Kind::Edges,
        Kind::Zero,
        Kind::Names,
        Kind::Equals,
        Kind::Drops,
        Kind::DropEdges,
        Kind::ManyDrops,
        Kind::Long,
        Kind::LongEdges,
        Kind::ManyLong,
    ] {
        let length = make_record(kind, 1, 20_000).len();
        assert!((59_990..=60_000).contains(&length), "{length}");
    }
}

/// The keys of forty records, one after the other.
fn key_of(kind: Kind, length: usize) -> String {
    let keys = (0..40).map(|seed| hoard::key(&make_record(kind, seed, length)));
    keys.map(|key| String::from_utf8(key).unwrap()).collect()
}

#[test]
fn kinds_do_what_they_are_for() {
    let threshold = key_of(Kind::Threshold, 600);
    assert!(threshold.matches(" moved 1").count() > 300);
    for moves in 2..=4 {
        assert!(
            threshold.contains(&format!(" moved {moves}\n")),
            "{moves} moves"
        );
    }
    let two_by_name = |line: &&str| line.contains(" name ") && line.ends_with(" moved 2");
    assert!(threshold.lines().filter(two_by_name).count() > 5);
    assert!(key_of(Kind::Small, 100).matches(" refused 4\n").count() > 100);
    let many = key_of(Kind::Many, 800);
    (0..27).for_each(|class| assert!(many.contains(&format!("heap 8 class {class} "))));
    let edges = key_of(Kind::Edges, 200);
    for refusal in [2, 4, 5, 6, 7, 17] {
        assert!(
            edges.contains(&format!(" refused {refusal}\n")),
            "refusal {refusal}"
        );
    }
    assert!(edges.contains("stopped 1 at 0\n"));
    let broken = key_of(Kind::Truncated, 60) + &key_of(Kind::Garbage, 60);
    for refusal in [8, 9, 10] {
        assert!(
            broken.contains(&format!("stopped {refusal} at ")),
            "refusal {refusal}"
        );
    }
}

#[test]
fn zero_has_the_sizes_beside_it_and_at_the_other_limit() {
    let key = key_of(Kind::Zero, 600);
    for size in [0, 1, 16, 17, 2048] {
        let taken = key.matches(&format!(" {size} at ")).count();
        assert!(taken > 100, "size {size}: {taken}");
    }
    for size in [2049, 65535] {
        let taken = key.matches(&format!(" {size} at ")).count();
        let refused = key.matches(&format!(" {size} refused 17\n")).count();
        assert!(taken > 10 && refused > 30, "size {size}: {taken} {refused}");
    }
}

/// Live blocks and held names by address, counted from the calls and their answers
/// alone.
struct Ledger {
    sizes: HashMap<u32, u16>,
    names: HashMap<u16, u32>,
    live: [u64; 27],
    most: [u64; 27],
}

impl Ledger {
    fn note(&mut self, command: &Command, outcome: &Outcome) {
        match (command, *outcome) {
            (&Command::Take { size, .. }, Outcome::At(address)) => self.take(size, address),
            (&Command::NamedTake { name, size, .. }, Outcome::At(address)) => {
                assert!(name < 1024, "bound {name}");
                assert!(self.names.insert(name, address).is_none(), "bound twice");
                self.take(size, address);
            }
            (&Command::Free { address, .. }, Outcome::Moved(_)) => self.free(address),
            (Command::NamedFree { name, .. }, Outcome::Moved(_)) => self.free(self.names[name]),
            (Command::Drop { addresses, .. }, Outcome::Moved(_)) => {
                addresses.iter().for_each(|&address| self.free(address));
            }
            (Command::NamedTake { name, .. }, Outcome::Refused(Refusal::TakenName)) => {
                assert!(*name > 1023 || self.names.contains_key(name));
            }
            (Command::NamedFree { name, .. }, Outcome::Refused(Refusal::NameNotHeld)) => {
                assert!(!self.names.contains_key(name));
            }
            _ => {}
        }
    }

    fn take(&mut self, size: u16, address: u32) {
        assert!(self.sizes.insert(address, size).is_none(), "taken twice");
        if let Some(class) = class_of_size(size).map(usize::from) {
            self.live[class] += 1;
            self.most[class] = self.most[class].max(self.live[class]);
        }
    }

    fn free(&mut self, address: u32) {
        let size = self.sizes.remove(&address).expect("freed while live");
        if let Some(class) = class_of_size(size).map(usize::from) {
            self.live[class] -= 1;
        }
        self.names.retain(|_, held| *held != address);
    }

    /// The state holds the names that the calls bound and did not free.
    fn check_names(&self, state: &State) {
        let held = state.control.names.held();
        let held = held.map(|(name, block)| (name, state.address_of(block)));
        assert_eq!(held.collect::<HashMap<_, _>>(), self.names);
    }

    /// The totals are a recount; over all heaps their live blocks are those that the
    /// calls left live.
    fn check_totals(&self, state: &State) {
        let totals = &state.control.totals;
        assert_eq!(*totals, Totals::recount(&state.superblocks));
        for (class, &live) in self.live.iter().enumerate() {
            let of_heaps = totals.live.iter().map(|heap| u64::from(heap[class]));
            assert_eq!(of_heaps.sum::<u64>(), live);
        }
    }

    /// The runs are those of the long blocks that the calls left live.
    fn check_runs(&self, state: &State) {
        let long = self.sizes.iter().filter(|(_, &size)| size > 2048);
        let expected = long.map(|(&address, &size)| (address, run_length_of_size(size)));
        let found = runs(&state.superblocks);
        let found = found.map(|(first, length)| (first as u32 * SUPERBLOCK_BYTES, length));
        let found: HashMap<_, _> = found.collect();
        assert_eq!(found, expected.collect());
        let of_runs = state.superblocks.iter().filter(|it| it.owner == RUN_OWNER);
        let lengths = found.values().map(|&length| usize::from(length));
        assert_eq!(of_runs.count(), lengths.sum());
    }

    /// (q - p) n A is at most q M + (q - p) P K n, for each class. A counts only
    /// superblocks with a class, those of heaps.
    fn check_bound(&self, state: &State) {
        let [processors, _, spare, p, q] = state.control.setup.numbers().map(u64::from);
        for (class, size_class) in SIZE_CLASSES.iter().enumerate() {
            let n = u64::from(size_class.blocks);
            let owned = |it: &&hoard::Superblock| {
                ![UNUSED_OWNER, RUN_OWNER].contains(&it.owner) && usize::from(it.class) == class
            };
            let superblocks = state.superblocks.iter().filter(owned).count() as u64;
            let bound = q * self.most[class] + (q - p) * processors * spare * n;
            assert!((q - p) * n * superblocks <= bound);
        }
    }
}

fn owners_changed(before: &State, after: &State) -> u32 {
    let pairs = before.superblocks.iter().zip(&after.superblocks);
    pairs.filter(|(old, new)| old.owner != new.owner).count() as u32
}

/// The superblocks that joined a run or left one.
fn runs_changed(before: &State, after: &State) -> u32 {
    let pairs = before.superblocks.iter().zip(&after.superblocks);
    let changed = pairs.filter(|(old, new)| old.owner != new.owner);
    let of_runs = changed.filter(|(old, new)| [old.owner, new.owner].contains(&RUN_OWNER));
    of_runs.count() as u32
}

/// Runs a record and checks the bound, the moves, the names, the totals and the state
/// after each call.
fn check_run(record: &[u8]) {
    let mut ledger = Ledger {
        sizes: HashMap::new(),
        names: HashMap::new(),
        live: [0; 27],
        most: [0; 27],
    };
    replay(record, |step| {
        let Answer { outcome, state } = step.answer;
        let of_runs = runs_changed(step.before, state);
        let changed = owners_changed(step.before, state) - of_runs;
        match *outcome {
            Outcome::Moved(moves) => {
                // Only those that pass between heaps.
                assert_eq!(moves, changed);
                let addresses = match &step.command {
                    Command::Drop { addresses, .. } => addresses.len() as u32,
                    _ => 1,
                };
                assert!(moves <= addresses * u32::from(state.control.setup.q));
            }
            Outcome::At(_) => match step.command {
                Command::Take { size, .. } | Command::NamedTake { size, .. } if size > 2048 => {
                    assert_eq!((changed, of_runs), (0, run_length_of_size(size).into()));
                }
                _ => assert!(changed <= 1 && of_runs == 0),
            },
            _ => assert_eq!((changed, of_runs), (0, 0)),
        }
        ledger.note(&step.command, outcome);
        ledger.check_bound(state);
        ledger.check_names(state);
        ledger.check_totals(state);
        ledger.check_runs(state);
        check_handed_in(state, step.order).expect("an accepted call yields a sound state");
    });
}

#[test]
fn bound_moves_and_state_hold_after_every_call() {
    for kind in [
        Kind::Uniform,
        Kind::Threshold,
        Kind::Small,
        Kind::Many,
        Kind::Zero,
        Kind::Names,
        Kind::ManyNamed,
        Kind::Equals,
        Kind::Drops,
        Kind::ManyDrops,
        Kind::Long,
        Kind::ManyLong,
    ] {
        for seed in 100..110 {
            check_run(&make_record(kind, seed, 500));
        }
    }
}

/// What a take of size 0 met: the place that offered its superblock, or a refusal.
fn met_by_take(state: &State, outcome: &Outcome) -> String {
    let &Outcome::At(address) = outcome else {
        return outcome.to_string();
    };
    let superblock = &state.superblocks[(address / SUPERBLOCK_BYTES) as usize];
    let place = match (superblock.owner, superblock.class) {
        (UNUSED_OWNER, _) => "place 4",
        (GLOBAL_HEAP, 0) if superblock.live_count() == 0 => "place 2, renewed",
        (GLOBAL_HEAP, 0) => "place 2",
        (GLOBAL_HEAP, _) => "place 3",
        _ => "place 1",
    };
    place.to_string()
}

/// Counts what takes of size 0 and frees of class 0 met along a record.
fn count_met(record: &[u8], met: &mut BTreeMap<String, u32>) {
    replay(record, |step| {
        let what = match (&step.command, step.answer.outcome) {
            (Command::Take { size: 0, .. }, outcome) => Some(met_by_take(step.before, &outcome)),
            (&Command::Free { address, .. }, moved @ Outcome::Moved(1..)) => {
                let number = (address / SUPERBLOCK_BYTES) as usize;
                (step.before.superblocks[number].class == 0).then(|| moved.to_string())
            }
            _ => None,
        };
        if let Some(what) = what {
            *met.entry(what).or_default() += 1;
        }
    });
}

/// The seeds that `compare` takes lead size 0 to each place and refusal it can meet.
#[test]
fn zero_meets_every_place() {
    let mut met = BTreeMap::new();
    for seed in 1..=120 {
        count_met(&make_record(Kind::Zero, seed, 1000), &mut met);
    }
    let expected = [
        ("place 1", 5000),
        ("place 2", 20),
        ("place 2, renewed", 8),
        ("place 3", 10),
        ("place 4", 20),
        ("moved 1", 60),
        ("refused 2", 300),
        ("refused 4", 1000),
    ];
    for (what, fewest) in expected {
        let count = met.remove(what).unwrap_or_default();
        assert!(count >= fewest, "{what}: {count}");
    }
    assert!(met.is_empty(), "{met:?}");
}

/// A record with another size wherever it has 0.
fn replace_zero(record: &[u8], by: u16) -> Vec<u8> {
    let mut replaced = Vec::new();
    let mut offset = 0;
    while let Ok((mut command, next)) = decode(record, offset) {
        if let Command::Take { size, .. } | Command::NamedTake { size, .. } = &mut command {
            if *size == 0 {
                *size = by;
            }
        }
        write_command(&mut replaced, &command);
        offset = next;
    }
    replaced
}

/// A key with another size wherever a take has 0.
fn replace_zero_in_key(key: &str, by: u16) -> String {
    let replace = |line: &str| match line.split(' ').collect::<Vec<_>>()[..] {
        ["take", processor, "0", answer, number] => {
            format!("take {processor} {by} {answer} {number}\n")
        }
        ["take", processor, "name", name, "0", answer, number] => {
            format!("take {processor} name {name} {by} {answer} {number}\n")
        }
        _ => format!("{line}\n"),
    };
    key.lines().map(replace).collect()
}

#[test]
fn size_0_is_answered_as_1_and_16() {
    let mut taken = 0;
    for kind in [
        Kind::Uniform,
        Kind::Small,
        Kind::Many,
        Kind::Zero,
        Kind::Names,
    ] {
        for seed in 0..10 {
            let record = make_record(kind, seed, 600);
            let key = String::from_utf8(hoard::key(&record)).unwrap();
            taken += key.matches(" 0 at ").count();
            for size in [1, 16] {
                let other = String::from_utf8(hoard::key(&replace_zero(&record, size))).unwrap();
                assert_eq!(other, replace_zero_in_key(&key, size));
            }
        }
    }
    assert!(taken > 1000, "{taken}");
}
