//! The whole case, the edges and the stops: each record in `cases` gives its key.

use std::fs;
use std::path::{Path, PathBuf};

fn cases() -> PathBuf {
    Path::new(env!("CARGO_MANIFEST_DIR")).join("../cases")
}

fn record_of(hex: &str) -> Vec<u8> {
    hex.split_ascii_whitespace()
        .map(|byte| u8::from_str_radix(byte, 16).expect("two hex digits"))
        .collect()
}

fn check_case(name: &str) {
    let hex = fs::read_to_string(cases().join(format!("{name}.hex"))).unwrap();
    let expected = fs::read_to_string(cases().join(format!("{name}.key"))).unwrap();
    let key = String::from_utf8(hoard::key(&record_of(&hex))).unwrap();
    assert_eq!(key, expected, "case {name}");
}

#[test]
fn whole_case_to_the_byte() {
    check_case("whole-case");
}

#[test]
fn every_case_gives_its_key() {
    let mut names = Vec::new();
    for entry in fs::read_dir(cases()).unwrap() {
        let path = entry.unwrap().path();
        if path.extension().is_some_and(|extension| extension == "hex") {
            names.push(path.file_stem().unwrap().to_string_lossy().into_owned());
        }
    }
    assert!(names.len() >= 20);
    names.iter().for_each(|name| check_case(name));
}

#[test]
fn records_are_read_up_to_60000_bytes() {
    let mut record = record_of("00 01 01 01 01 02");
    while record.len() < 60000 - 6 {
        record.extend([1, 1, 16, 0]);
    }
    record.extend([2, 1, 0, 0, 0, 0]);
    assert_eq!(record.len(), 60000);
    let key = String::from_utf8(hoard::key(&record)).unwrap();
    assert!(key.ends_with("free 1 0 moved 0\nheap 1 class 0 superblocks 1 live 255\nend\n"));

    record.push(0);
    assert_eq!(hoard::key(&record), b"stopped 11 at 0\n");
    assert_eq!(hoard::key(&vec![255; 100_000]), b"stopped 11 at 0\n");
}

#[test]
fn a_record_truncated_at_any_byte_stops_there_or_ends() {
    let hex = fs::read_to_string(cases().join("whole-case.hex")).unwrap();
    let record = record_of(&hex);
    for end in 0..record.len() {
        let key = String::from_utf8(hoard::key(&record[..end])).unwrap();
        let starts = [0, 6, 10, 14, 18, 24, 30, 36, 40];
        let last = match starts.iter().rev().find(|&&start| start <= end) {
            Some(0) if end == 0 => "stopped 10 at 0\n".to_string(),
            Some(&start) if start == end => "end\n".to_string(),
            Some(start) => format!("stopped 9 at {start}\n"),
            None => unreachable!(),
        };
        assert!(key.ends_with(&last), "truncated at {end}: {key}");
    }
}
