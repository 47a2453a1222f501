//! Papers turned into records and back.

use tools::make_record::{make_record, Kind};
use tools::paper::{to_record, to_text};

const WHOLE_CASE: &str = "setup 1 2 1 1 4\ntake 1 2048\ntake 1 2048\ntake 1 2048\nfree 1 0\n\
    free 1 0\nfree 1 2048\ntake 1 16\ntake 1 2049\n";

fn error_of(text: &str) -> String {
    to_record(text.as_bytes()).unwrap_err().to_string()
}

#[test]
fn whole_case_both_ways() {
    let record = to_record(WHOLE_CASE.as_bytes()).unwrap();
    assert_eq!(record[..10], [0, 1, 2, 1, 1, 4, 1, 1, 0, 8]);
    assert_eq!(record.len(), 44);
    assert_eq!(to_text(&record).unwrap(), WHOLE_CASE);
}

#[test]
fn size_0_both_ways() {
    let text = "setup 1 2 1 1 4\ntake 1 0\ntake 255 0\nfree 1 0\n";
    let record = to_record(text.as_bytes()).unwrap();
    assert_eq!(record[6..14], [1, 1, 0, 0, 1, 255, 0, 0]);
    assert_eq!(to_text(&record).unwrap(), text);
    let key = "setup 1 2 1 1 4\ntake 1 0 at 0\ntake 255 0 refused 2\nfree 1 0 moved 0\n\
        heap 1 class 0 superblocks 1 live 0\nend\n";
    assert_eq!(hoard::key(&record), key.as_bytes());
}

#[test]
fn names_both_ways() {
    let text = "setup 1 2 1 1 4\ntake 1 name 5 2048\nfree 1 name 5\n\
        take 255 name 65535 65535\nfree 0 name 1024\n";
    let record = to_record(text.as_bytes()).unwrap();
    assert_eq!(record[6..16], [3, 1, 5, 0, 0, 8, 4, 1, 5, 0]);
    assert_eq!(record[16..], [3, 255, 255, 255, 255, 255, 4, 0, 0, 4]);
    assert_eq!(to_text(&record).unwrap(), text);
    let key = "setup 1 2 1 1 4\ntake 1 name 5 2048 at 0\nfree 1 name 5 moved 0\n\
        take 255 name 65535 65535 refused 2\nfree 0 name 1024 refused 2\n\
        heap 1 class 26 superblocks 1 live 0\nend\n";
    assert_eq!(hoard::key(&record), key.as_bytes());
}

#[test]
fn drops_both_ways() {
    let text = "setup 1 2 1 1 4\ntake 1 2048\ntake 1 16\ndrop 1 0 4096\ndrop 1\n\
        drop 255 4294967295\n";
    let record = to_record(text.as_bytes()).unwrap();
    assert_eq!(record[14..25], [5, 1, 2, 0, 0, 0, 0, 0, 16, 0, 0]);
    assert_eq!(record[25..], [5, 1, 0, 5, 255, 1, 255, 255, 255, 255]);
    assert_eq!(to_text(&record).unwrap(), text);
    let key = "setup 1 2 1 1 4\ntake 1 2048 at 0\ntake 1 16 at 4096\ndrop 1 count 2 moved 0\n\
        drop 1 count 0 refused 16\ndrop 255 count 1 refused 2\n\
        heap 1 class 0 superblocks 1 live 0\nheap 1 class 26 superblocks 1 live 0\nend\n";
    assert_eq!(hoard::key(&record), key.as_bytes());

    let most = format!("drop 1{}\n", " 16".repeat(255));
    let record = to_record(most.as_bytes()).unwrap();
    assert_eq!((record[2], record.len()), (255, 3 + 4 * 255));
    assert_eq!(to_text(&record).unwrap(), most);
}

#[test]
fn blank_lines_comments_and_spaces_are_skipped() {
    let text = "# a paper\n\n  setup  1 2 1\t1 4 \r\n   \n# take 1 1\ntake 1 0";
    assert_eq!(
        to_record(text.as_bytes()).unwrap(),
        [0, 1, 2, 1, 1, 4, 1, 1, 0, 0]
    );
    assert_eq!(to_record(b"").unwrap(), []);
}

#[test]
fn refusals_can_be_set() {
    let text = "free 255 4294967295\nsetup 0 255 0 9 0\ntake 0 65535\nsetup 1 1 1 1 2\n";
    let record = to_record(text.as_bytes()).unwrap();
    assert_eq!(to_text(&record).unwrap(), text);
}

#[test]
fn errors_name_the_line() {
    let unknown = "line 3: unknown command \"takes\" (setup, take, free or drop)";
    assert_eq!(error_of("\n# x\ntakes 1 2"), unknown);
    let too_few = "line 1: take has 2 numbers (processor size), here are 1";
    assert_eq!(error_of("take 1"), too_few);
    let too_many = "line 1: setup has 5 numbers (P N K p q), here are 6";
    assert_eq!(error_of("setup 1 2 1 1 4 5"), too_many);
    let answered = "line 1: take has 2 numbers (processor size), here are 4";
    assert_eq!(error_of("take 1 2048 at 0"), answered);
    let no_size = "line 1: take by name has 3 numbers (processor name size), here are 2";
    assert_eq!(error_of("take 1 name 5"), no_size);
    let no_name = "line 1: free by name has 2 numbers (processor name), here are 1";
    assert_eq!(error_of("free 1 name"), no_name);
    let no_processor = "line 1: drop has a processor and its addresses, here are 0 numbers";
    assert_eq!(error_of("drop"), no_processor);
    let binary = to_record(b"take 1 1\n\xff\xfe").unwrap_err();
    assert_eq!(binary.to_string(), "line 2: not plain text");
}

#[test]
fn errors_name_the_number() {
    let processor = "line 2: processor 256 is out of range (0 to 255)";
    assert_eq!(error_of("\ntake 256 1"), processor);
    let size = "line 1: size 65536 is out of range (0 to 65535)";
    assert_eq!(error_of("take 1 65536"), size);
    let address = "line 1: address 4294967296 is out of range (0 to 4294967295)";
    assert_eq!(error_of("free 1 4294967296"), address);
    let name = "line 1: name 65536 is out of range (0 to 65535)";
    assert_eq!(error_of("take 1 name 65536 16"), name);
    assert_eq!(error_of("free 1 name 65536"), name);
    assert_eq!(error_of("drop 1 0 4294967296"), address);
    let dropped = "line 1: processor 256 is out of range (0 to 255)";
    assert_eq!(error_of("drop 256"), dropped);
    let many = "line 2: count 256 is out of range (0 to 255)";
    assert_eq!(error_of(&format!("\ndrop 1{}", " 0".repeat(256))), many);
    let counted = "line 1: address \"count\" is not a decimal number";
    assert_eq!(error_of("drop 1 count 3"), counted);
    let huge = "line 1: address 99999999999999999999 is out of range (0 to 4294967295)";
    assert_eq!(error_of("free 1 99999999999999999999"), huge);
    let minus = "line 1: q \"-4\" is not a decimal number";
    assert_eq!(error_of("setup 1 2 1 1 -4"), minus);
    let plus = "line 1: processor \"+1\" is not a decimal number";
    assert_eq!(error_of("take +1 16"), plus);
}

#[test]
fn errors_name_the_byte() {
    let error_of = |record: &[u8]| to_text(record).unwrap_err().to_string();
    assert_eq!(
        error_of(&[1, 1, 16, 0, 6]),
        "byte 4: unknown command byte 06"
    );
    assert_eq!(
        error_of(&[0, 1, 2]),
        "byte 0: the record ends inside this command"
    );
    for cut in [
        &[2][..],
        &[3, 1, 5, 0, 0],
        &[4, 1, 5],
        &[5],
        &[5, 1],
        &[5, 1, 1, 0, 0, 0],
        &[5, 1, 2, 0, 0, 0, 0],
    ] {
        assert_eq!(
            error_of(&[&[1, 1, 16, 0], cut].concat()),
            "byte 4: the record ends inside this command"
        );
    }
    assert_eq!(to_text(&[]).unwrap(), "");
}

#[test]
fn sound_records_come_back_as_they_were() {
    for kind in [
        Kind::Uniform,
        Kind::Threshold,
        Kind::Small,
        Kind::Many,
        Kind::Edges,
        Kind::Zero,
        Kind::Names,
        Kind::ManyNamed,
        Kind::Drops,
        Kind::DropEdges,
        Kind::ManyDrops,
        Kind::Long,
        Kind::LongEdges,
        Kind::ManyLong,
    ] {
        for seed in 0..5 {
            let record = make_record(kind, seed, 200);
            let text = to_text(&record).unwrap();
            assert_eq!(to_record(text.as_bytes()).unwrap(), record);
        }
    }
}
