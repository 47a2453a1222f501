//! Records with calls by name: the corners they meet, and that a call by name does
//! what the plain one does.

mod replay;

use std::collections::{BTreeMap, HashMap};

use hoard::{take, write_command, Command, Outcome, Refusal, State};
use hoard::{GLOBAL_HEAP, NAMED_FREE_BYTE, NAMED_TAKE_BYTE};
use tools::make_record::{make_record, Kind};

use replay::{replay, Step};

/// What calls by name met, and how each name was used last.
#[derive(Default)]
struct Corners {
    met: BTreeMap<String, u32>,
    last_use: HashMap<u16, &'static str>,
}

impl Corners {
    fn count(&mut self, what: impl Into<String>) {
        *self.met.entry(what.into()).or_default() += 1;
    }

    fn note(&mut self, step: &Step) {
        let (state, outcome) = (step.before, step.answer.outcome);
        match step.command {
            Command::NamedTake { name, .. } => self.note_take(name, state, outcome),
            Command::NamedFree { name, .. } => self.note_free(name, state, outcome),
            Command::Free { address, .. } => self.note_plain_free(address, state, outcome),
            _ => {}
        }
        if outcome == Outcome::Refused(Refusal::TakenName) {
            self.note_later_refusal(step);
        }
        if named_block_passed(state, &step.answer.state) {
            self.count("named block passed to heap 0");
        }
    }

    fn note_take(&mut self, name: u16, state: &State, outcome: Outcome) {
        let is_available = state.control.names.is_available(name);
        match outcome {
            Outcome::At(_) => {
                self.count(format!("take, {}", self.use_before(name)));
                if [0, 1022, 1023].contains(&name) {
                    self.count(format!("take of {name}"));
                }
                self.last_use.insert(name, "held");
            }
            Outcome::Refused(Refusal::Processor) if !is_available => self.count("2 before 14"),
            Outcome::Refused(Refusal::TakenName) => {
                self.count(if name > 1023 { "14, high" } else { "14, held" });
            }
            Outcome::Refused(Refusal::NoRun) => {
                self.last_use.insert(name, "take refused 17");
                self.count("take refused 17");
            }
            Outcome::Refused(Refusal::NoSuperblock) => {
                self.last_use.insert(name, "take refused 4");
                self.count("take refused 4");
            }
            _ => self.count("take refused 2"),
        }
    }

    /// What the plain take would have met where the name came first. The refused
    /// take left the order places as they were.
    fn note_later_refusal(&mut self, step: &Step) {
        if let Command::NamedTake {
            processor, size, ..
        } = step.command
        {
            let plain = take(step.before, processor, size, &mut step.order.to_vec());
            if let Outcome::Refused(later) = plain.outcome {
                self.count(format!("14 before {}", later.number()));
            }
        }
    }

    fn note_free(&mut self, name: u16, state: &State, outcome: Outcome) {
        let held = state.control.names.block_of(name);
        match (outcome, held) {
            (Outcome::Moved(moves), Some(block)) => {
                self.count(if moves == 0 {
                    "free moved 0"
                } else {
                    "free with a move"
                });
                if state.superblocks[block.superblock].owner == GLOBAL_HEAP {
                    self.count("free in heap 0");
                }
                self.last_use.insert(name, "freed by name");
            }
            (Outcome::Refused(Refusal::NameNotHeld), _) if name > 1023 => self.count("15, high"),
            (Outcome::Refused(Refusal::NameNotHeld), _) => {
                self.count(format!("15, {}", self.use_before(name)));
            }
            (_, None) => self.count("2 before 15"),
            _ => self.count("free refused 2"),
        }
    }

    fn note_plain_free(&mut self, address: u32, state: &State, outcome: Outcome) {
        let mut held = state.control.names.held();
        let named = held.find(|&(_, block)| state.address_of(block) == address);
        if let (Outcome::Moved(_), Some((name, _))) = (outcome, named) {
            self.count("free by address");
            self.last_use.insert(name, "freed by address");
        }
    }

    fn use_before(&self, name: u16) -> &'static str {
        self.last_use.get(&name).unwrap_or(&"unused")
    }
}

/// Whether a superblock with a named block became heap 0's.
fn named_block_passed(before: &State, after: &State) -> bool {
    after.control.names.held().any(|(_, block)| {
        before.superblocks[block.superblock].owner != GLOBAL_HEAP
            && after.superblocks[block.superblock].owner == GLOBAL_HEAP
    })
}

/// Each corner with the fewest times that records must meet it.
const EXPECTED: [(&str, u32); 28] = [
    ("take, unused", 2000),
    ("take, freed by name", 1000),
    ("take, freed by address", 300),
    ("take, take refused 17", 30),
    ("take, take refused 4", 150),
    ("take of 0", 500),
    ("take of 1022", 50),
    ("take of 1023", 50),
    ("take refused 2", 200),
    ("take refused 17", 100),
    ("take refused 4", 1000),
    ("14, held", 1000),
    ("14, high", 300),
    ("2 before 14", 60),
    ("14 before 17", 20),
    ("14 before 4", 150),
    ("free moved 0", 2000),
    ("free with a move", 100),
    ("free in heap 0", 40),
    ("free by address", 600),
    ("free refused 2", 100),
    ("15, unused", 600),
    ("15, freed by name", 500),
    ("15, freed by address", 120),
    ("15, take refused 17", 40),
    ("15, take refused 4", 300),
    ("15, high", 120),
    ("2 before 15", 150),
];

/// The seeds that `compare` takes lead names to each corner.
#[test]
fn names_meet_every_corner() {
    let mut met: BTreeMap<String, u32> = BTreeMap::new();
    for seed in 1..=60 {
        let mut corners = Corners::default();
        let record = make_record(Kind::Names, seed, 400);
        replay(&record, |step| corners.note(step));
        for (what, count) in corners.met {
            *met.entry(what).or_default() += count;
        }
    }
    let passed = met.remove("named block passed to heap 0").unwrap_or(0);
    assert!(passed >= 100, "named block passed to heap 0: {passed}");
    for (what, fewest) in EXPECTED {
        let count = met.remove(what).unwrap_or(0);
        assert!(count >= fewest, "{what}: {count}");
    }
    assert!(met.is_empty(), "{met:?}");
}

/// Most calls are by name, and more than 300 names are held most of the time.
#[test]
fn many_named_holds_many_names() {
    for seed in 1..=5 {
        let (mut many_held, mut by_name, mut calls) = (0, 0, 0);
        let record = make_record(Kind::ManyNamed, seed, 3000);
        replay(&record, |step| {
            let held = step.answer.state.control.names.held().count();
            many_held += usize::from(held > 300);
            calls += 1;
            by_name += usize::from(matches!(
                step.command.byte(),
                NAMED_TAKE_BYTE | NAMED_FREE_BYTE
            ));
        });
        assert!(many_held * 10 > calls * 6, "{seed}: {many_held} of {calls}");
        assert!(by_name * 10 > calls * 8, "{seed}: {by_name} of {calls}");
    }
}

/// A record with each call by name made plain, and its key up to the final lines.
/// Calls that names alone refuse are left out.
fn made_plain(record: &[u8]) -> (Vec<u8>, String) {
    let mut plain = Vec::new();
    let mut key = String::new();
    replay(record, |step| {
        let outcome = step.answer.outcome;
        let command = match (&step.command, outcome) {
            (_, Outcome::Refused(Refusal::TakenName | Refusal::NameNotHeld)) => return,
            (
                &Command::NamedTake {
                    processor, size, ..
                },
                _,
            ) => Command::Take { processor, size },
            (&Command::NamedFree { processor, name }, _) => {
                let held = step.before.control.names.block_of(name);
                // The processor is refused whatever the address.
                let address = held.map_or(0, |block| step.before.address_of(block));
                Command::Free { processor, address }
            }
            (command, _) => command.clone(),
        };
        write_command(&mut plain, &command);
        key += &match outcome {
            Outcome::Ready => format!("{command}\n"),
            _ => format!("{command} {outcome}\n"),
        };
    });
    (plain, key)
}

#[test]
fn calls_by_name_do_what_plain_ones_do() {
    for kind in [
        Kind::Uniform,
        Kind::Small,
        Kind::Threshold,
        Kind::Names,
        Kind::ManyNamed,
        Kind::Long,
    ] {
        for seed in 0..10 {
            let record = make_record(kind, seed, 500);
            let key = String::from_utf8(hoard::key(&record)).unwrap();
            let (plain, mut expected) = made_plain(&record);
            let is_last = |line: &&str| {
                ["heap ", "run ", "end"]
                    .iter()
                    .any(|word| line.starts_with(word))
            };
            for line in key.lines().filter(is_last) {
                expected += &format!("{line}\n");
            }
            assert_eq!(String::from_utf8(hoard::key(&plain)).unwrap(), expected);
        }
    }
}
