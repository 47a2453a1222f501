//! Calls on lent rows: their form, and what the two kinds of rows meet.

mod call_bytes;

use std::collections::BTreeSet;

use hoard::{Command, Control, Outcome, Setup, Superblock};
use tools::call_form::{answer_bytes, run_call, BAD_INPUT};
use tools::make_state::{make_state, Kind};
use tools::row_form::{read_row_input, run_row_call, write_row_input, FILLER};

use call_bytes::on_unused;

const KINDS: [Kind; 2] = [Kind::Row, Kind::RowDamaged];
const SEEDS: std::ops::Range<u64> = 0..400;
/// Seeds of each kind that `compare` takes.
const COMPARED: std::ops::RangeInclusive<u64> = 1..=240;

/// A setup within limits on a row, with 256 places of which the last is 5.
fn setup_bytes(length: u8) -> Vec<u8> {
    let mut bytes = vec![255, length, 0, 1, 1, 1, 1, 2];
    bytes.extend(256u32.to_le_bytes());
    bytes.extend([0; 510]);
    bytes.extend([5, 0]);
    bytes
}

/// A take of 2048 bytes from unused superblocks on a row.
fn take_bytes(length: u8) -> Vec<u8> {
    on_unused(&[255, length, 1, 1, 1, 1, 1, 2, 1, 0, 8])
}

fn filler_lines(numbers: std::ops::Range<u8>) -> String {
    let line = |number| format!("superblock {number} owner 9 class 9 live 9 9 9 9 rank 9 run 9\n");
    numbers.map(line).collect()
}

#[test]
fn printed_form_of_a_setup() {
    assert_eq!(
        answer_bytes(&setup_bytes(64)),
        "ready\nsetup 1 1 1 1 2\nplace 255 0\nend\n"
    );
    for length in [0, 1, 63, 65] {
        let lines = filler_lines(0..length);
        assert_eq!(
            answer_bytes(&setup_bytes(length)),
            format!("refused 13\nsetup 0 0 0 0 0\n{lines}end\n")
        );
    }
    let mut out_of_limits = setup_bytes(2);
    out_of_limits[3] = 0;
    let lines = filler_lines(0..2);
    assert_eq!(
        answer_bytes(&out_of_limits),
        format!("refused 1\nsetup 0 0 0 0 0\n{lines}end\n")
    );
}

#[test]
fn printed_form_of_a_take() {
    assert_eq!(
        answer_bytes(&take_bytes(64)),
        "at 0\nsetup 1 1 1 1 2\nsuperblock 0 owner 1 class 26 live 1 0 0 0 rank 0 run 0\n\
            total heap 1 class 26 superblocks 1 live 1\nplace 0 1\nend\n"
    );
    for length in [0, 1, 63] {
        assert_eq!(
            answer_bytes(&take_bytes(length)),
            "refused 13\nsetup 1 1 1 1 2\nend\n"
        );
    }
    let lines = filler_lines(64..65);
    assert_eq!(
        answer_bytes(&take_bytes(65)),
        format!("refused 13\nsetup 1 1 1 1 2\n{lines}end\n")
    );
}

#[test]
fn bad_input() {
    for length in [66, 128, 255] {
        assert_eq!(answer_bytes(&setup_bytes(length)), BAD_INPUT);
        assert_eq!(answer_bytes(&take_bytes(length)), BAD_INPUT);
    }
    for bytes in [setup_bytes(64), take_bytes(64)] {
        for length in [0, 1, 2, 3, 7, 8, 11, bytes.len() - 1] {
            assert_eq!(answer_bytes(&bytes[..length]), BAD_INPUT, "{length}");
        }
        assert_eq!(answer_bytes(&[&bytes[..], &[0]].concat()), BAD_INPUT);
        assert_eq!(answer_bytes(&[&[255, 64], &bytes[..]].concat()), BAD_INPUT);
    }
}

#[test]
fn rows_are_written_as_they_are_read() {
    for kind in KINDS {
        for seed in SEEDS {
            let bytes = make_state(kind, seed);
            if let Some(input) = read_row_input(&bytes) {
                assert_eq!(write_row_input(&input), bytes);
            } else {
                assert_eq!(kind, Kind::RowDamaged);
                assert_eq!(answer_bytes(&bytes), BAD_INPUT);
            }
        }
    }
}

/// A row of 64 answers as the state does; one of another length is refused with
/// the first of 1 or 13, 12, 13. A refused call changes nothing.
#[test]
fn rows_against_states() {
    for (kind, seed) in KINDS
        .into_iter()
        .flat_map(|kind| SEEDS.map(move |it| (kind, it)))
    {
        let Some(lent) = read_row_input(&make_state(kind, seed)) else {
            continue;
        };
        let input = &lent.input;
        let before = lent.row();
        let (mut row, mut row_order) = (before.clone(), input.order.clone());
        let on_row = run_row_call(input, &mut row, &mut row_order);
        let mut order = input.order.clone();
        let answer = run_call(input, &mut order);
        if lent.length == 64 {
            assert_eq!(on_row.outcome, answer.outcome);
            assert_eq!(on_row.control, answer.state.control);
            assert_eq!(row_order, order);
        } else {
            let setup = &input.state.control.setup;
            let lawful = hoard::setup_within_limits(setup);
            let is_setup = matches!(input.call, Command::Setup(_));
            let refusal = match (lawful, is_setup) {
                (false, true) => hoard::Refusal::Setup,
                (false, false) => hoard::Refusal::State,
                _ if input.order.len() < setup.order_places() => hoard::Refusal::Storage,
                _ => hoard::Refusal::State,
            };
            assert_eq!(on_row.outcome, Outcome::Refused(refusal));
        }
        match (on_row.outcome, &input.call) {
            (Outcome::Refused(_), call) => {
                assert_eq!((row, &row_order), (before, &input.order));
                let handed_back = match call {
                    Command::Setup(_) => Control::new(Setup::default()),
                    _ => input.state.control.clone(),
                };
                assert_eq!(on_row.control, handed_back);
            }
            (Outcome::Ready, _) => assert_eq!(row, [Superblock::UNUSED; 64]),
            _ => assert_eq!(row, answer.state.superblocks),
        }
    }
}

/// The seeds that `compare` takes meet each refusal of 1, 12 and 13 at each wrong
/// length, for setups and for the other calls, and accepted calls of each sort.
#[test]
fn every_order_of_refusals_is_met() {
    let mut met = BTreeSet::new();
    for kind in KINDS {
        for seed in COMPARED {
            let bytes = make_state(kind, seed);
            let text = answer_bytes(&bytes);
            let outcome = text.lines().next().unwrap();
            let word = outcome.split(' ').next().unwrap().to_string();
            match read_row_input(&bytes) {
                Some(lent) if word == "refused" => {
                    let is_setup = matches!(lent.input.call, Command::Setup(_));
                    met.insert(format!("{} {is_setup} {outcome}", lent.length));
                }
                _ => {
                    met.insert(word);
                }
            }
        }
    }
    for word in ["ready", "at", "moved", "bad"] {
        assert!(met.contains(word), "{word}");
    }
    for length in [0, 1, 63, 65] {
        for rest in [
            "true refused 1",
            "true refused 12",
            "true refused 13",
            "false refused 12",
            "false refused 13",
        ] {
            assert!(met.contains(&format!("{length} {rest}")), "{length} {rest}");
        }
    }
    for rest in ["true refused 1", "true refused 12", "false refused 13"] {
        assert!(met.contains(&format!("64 {rest}")), "64 {rest}");
    }
}

/// The answers to some calls, among the seeds that `compare` takes.
fn answers_to(selected: impl Fn(&Command) -> bool) -> BTreeSet<String> {
    let mut met = BTreeSet::new();
    for kind in KINDS {
        for seed in COMPARED {
            let bytes = make_state(kind, seed);
            if read_row_input(&bytes).is_some_and(|lent| selected(&lent.input.call)) {
                let text = answer_bytes(&bytes);
                let outcome = text.lines().next().unwrap();
                let is_refused = outcome.starts_with("refused");
                let word = outcome.split(' ').next().unwrap();
                met.insert(if is_refused { outcome } else { word }.to_string());
            }
        }
    }
    met
}

#[test]
fn size_0_meets_every_answer() {
    let met = answers_to(|call| matches!(call, Command::Take { size: 0, .. }));
    let all = ["at", "refused 12", "refused 13", "refused 2", "refused 4"];
    assert_eq!(met, BTreeSet::from(all.map(String::from)));
}

#[test]
fn takes_by_name_meet_every_answer() {
    let met = answers_to(|call| matches!(call, Command::NamedTake { .. }));
    let refused = [2, 4, 12, 13, 14, 17].map(|number| format!("refused {number}"));
    let all = ["at".to_string()].into_iter().chain(refused);
    assert_eq!(met, all.collect());
}

#[test]
fn frees_by_name_meet_every_answer() {
    let met = answers_to(|call| matches!(call, Command::NamedFree { .. }));
    let refused = [2, 12, 13, 15].map(|number| format!("refused {number}"));
    let all = ["moved".to_string()].into_iter().chain(refused);
    assert_eq!(met, all.collect());
}

#[test]
fn the_row_lent() {
    let setup = read_row_input(&setup_bytes(65)).unwrap();
    assert_eq!(setup.row(), vec![FILLER; 65]);
    let mut take = read_row_input(&take_bytes(65)).unwrap();
    assert_eq!(take.row()[..64], [Superblock::UNUSED; 64]);
    assert_eq!(take.row()[64], FILLER);
    take.length = 1;
    assert_eq!(take.row(), [Superblock::UNUSED]);
}
