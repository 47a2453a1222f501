//! Times second-key and, if named, another key program on the same record:
//! `bench [PROGRAM]`. Both run as child processes, best of five.

use std::fs::File;
use std::io;
use std::path::{Path, PathBuf};
use std::process::{Command, ExitCode, Stdio};
use std::time::{Duration, Instant};

use hoard::{check_handed_in, decode, Setup, State, ORDER_PLACES, SIZE_CLASSES, SUPERBLOCKS};
use tools::make_record::size_of_class;
use tools::run::Run;
use tools::xorshift::Xorshift;

const RUNS: usize = 5;
const LENGTHS: [usize; 4] = [0, 1000, 3000, 9000];
/// Calls that are refused right after the state check.
const REFUSED: usize = 4000;

fn main() -> ExitCode {
    let program = std::env::args().nth(1).map(PathBuf::from);
    match bench(program.as_deref()) {
        Ok(()) => ExitCode::SUCCESS,
        Err(error) => {
            eprintln!("bench: {error}");
            ExitCode::FAILURE
        }
    }
}

fn bench(program: Option<&Path>) -> io::Result<()> {
    let second_key = std::env::current_exe()?.with_file_name("second-key");
    let longest = crowded_run(LENGTHS[LENGTHS.len() - 1]);
    print_record(&longest);
    print_in_process(&longest);
    println!();
    println!("Child processes, best of {RUNS} (time; time per call; per call above 0 calls):");
    let second = time_lengths(&second_key)?;
    print_check_alone(&second_key)?;
    let Some(program) = program else {
        return Ok(());
    };
    check_same_key(&second_key, program, &longest.record)?;
    let other = time_lengths(program)?;
    print_check_alone(program)?;
    print_ratios(program, &second, &other);
    Ok(())
}

/// A record of so many calls at N = 64 and P = 8. Every processor has a superblock
/// of each of the eight smallest classes; about half of all blocks get live. A
/// shorter record is the beginning of a longer one.
fn crowded_run(calls: usize) -> Run {
    let random = &mut Xorshift::new(0xBE, 1);
    let mut run = Run::new(Setup::from_numbers([8, 64, 1, 1, 4]));
    let most_blocks = SIZE_CLASSES[0].blocks;
    while run.calls < calls {
        let (processor, class) = if run.calls < SUPERBLOCKS {
            (run.calls as u8 % 8 + 1, run.calls as u8 / 8)
        } else {
            let heap_and_class = (random.byte_between(1, 8), random.byte_between(0, 7));
            // Classes of more blocks come in more often.
            if random.below(most_blocks) >= SIZE_CLASSES[usize::from(heap_and_class.1)].blocks {
                continue;
            }
            heap_and_class
        };
        let takes = if run.calls < 4500 { 90 } else { 52 };
        match run.any_live(random) {
            Some(address) if run.calls >= SUPERBLOCKS && !random.chance(takes, 100) => {
                run.free(processor, address)
            }
            _ => run.take(processor, size_of_class(random, class)),
        };
    }
    run
}

fn print_record(run: &Run) {
    let owned = run.state.superblocks.iter().filter(|it| it.owner != 255);
    let blocks: u32 = owned.clone().map(|it| it.size_class().blocks).sum();
    println!(
        "Record: {} calls, {} bytes; at its end {} superblocks owned, {} of {} blocks live.",
        run.calls,
        run.record.len(),
        owned.count(),
        run.live.len(),
        blocks
    );
}

/// The best of some runs.
fn best_of(mut once: impl FnMut() -> io::Result<Duration>) -> io::Result<Duration> {
    let mut best = once()?;
    for _ in 1..RUNS {
        best = best.min(once()?);
    }
    Ok(best)
}

fn micros_per_call(time: Duration, calls: usize) -> f64 {
    time.as_secs_f64() * 1e6 / calls as f64
}

/// Times the key and the state checks of its calls inside this process.
fn print_in_process(run: &Run) {
    let key = (0..RUNS).map(|_| {
        let start = Instant::now();
        std::hint::black_box(hoard::key(std::hint::black_box(&run.record)));
        start.elapsed()
    });
    let key = key.min().unwrap_or_default();
    let checks = (0..RUNS).map(|_| time_of_checks(&run.record));
    let checks = checks.min().unwrap_or_default();
    println!(
        "In this process: key {:.3} us per call, of it the state check alone {:.3} us.",
        micros_per_call(key, run.calls),
        micros_per_call(checks, run.calls)
    );
}

/// The time of the state check alone, over every state of a record.
fn time_of_checks(record: &[u8]) -> Duration {
    let mut order = vec![0; SUPERBLOCKS * ORDER_PLACES];
    let mut state = State::new(Setup::default());
    let mut total = Duration::ZERO;
    let mut offset = 0;
    while let Ok((command, next_offset)) = decode(record, offset) {
        let start = Instant::now();
        let checked = check_handed_in(std::hint::black_box(&state), &order);
        if std::hint::black_box(checked).is_ok() {
            total += start.elapsed();
        }
        let answer = hoard::run(&command, &state, &mut order);
        state = answer.state;
        offset = next_offset;
    }
    total
}

/// A record in a file, removed at the end.
struct RecordFile(PathBuf);

impl RecordFile {
    fn new(record: &[u8]) -> io::Result<RecordFile> {
        let name = format!("bench-{}.record", std::process::id());
        let path = std::env::temp_dir().join(name);
        std::fs::write(&path, record)?;
        Ok(RecordFile(path))
    }
}

impl Drop for RecordFile {
    fn drop(&mut self) {
        let _ = std::fs::remove_file(&self.0);
    }
}

/// Times a program on the record at each length and prints the times.
fn time_lengths(program: &Path) -> io::Result<Vec<Duration>> {
    println!("{}", program.display());
    let mut times: Vec<Duration> = Vec::new();
    for calls in LENGTHS {
        let file = RecordFile::new(&crowded_run(calls).record)?;
        let time = best_of(|| time_child(program, &file.0))?;
        let start = *times.first().unwrap_or(&time);
        times.push(time);
        let millis = time.as_secs_f64() * 1e3;
        if calls == 0 {
            println!("  {calls:5} calls {millis:10.2} ms");
        } else {
            println!(
                "  {calls:5} calls {millis:10.2} ms {:10.3} us {:10.3} us",
                micros_per_call(time, calls),
                micros_per_call(time.saturating_sub(start), calls)
            );
        }
    }
    Ok(times)
}

/// The state check alone, in the child process: takes for processor 0, which are
/// refused right after it, added to the record's first 3000 calls.
fn print_check_alone(program: &Path) -> io::Result<()> {
    let mut record = crowded_run(3000).record;
    let file = RecordFile::new(&record)?;
    let without = best_of(|| time_child(program, &file.0))?;
    for _ in 0..REFUSED {
        record.extend_from_slice(&[1, 0, 16, 0]);
    }
    let file = RecordFile::new(&record)?;
    let with = best_of(|| time_child(program, &file.0))?;
    println!(
        "  the check alone, after 3000 calls: {:.3} us",
        micros_per_call(with.saturating_sub(without), REFUSED)
    );
    Ok(())
}

/// The time from start to end of a child process that reads the record.
fn time_child(program: &Path, record: &Path) -> io::Result<Duration> {
    let input = File::open(record)?;
    let start = Instant::now();
    let status = Command::new(program)
        .stdin(Stdio::from(input))
        .stdout(Stdio::null())
        .status()?;
    let time = start.elapsed();
    if !status.success() {
        let message = format!("{} ended with {status}", program.display());
        return Err(io::Error::other(message));
    }
    Ok(time)
}

/// Makes sure that both programs give the same key.
fn check_same_key(second_key: &Path, program: &Path, record: &[u8]) -> io::Result<()> {
    let file = RecordFile::new(record)?;
    let key_of = |program: &Path| -> io::Result<Vec<u8>> {
        let input = Stdio::from(File::open(&file.0)?);
        Ok(Command::new(program).stdin(input).output()?.stdout)
    };
    if key_of(second_key)? != key_of(program)? {
        let message = format!("{} prints another key", program.display());
        return Err(io::Error::other(message));
    }
    Ok(())
}

fn print_ratios(program: &Path, second: &[Duration], other: &[Duration]) {
    println!();
    println!(
        "Time of {} for 1 of second-key (whole; above 0 calls):",
        program.display()
    );
    let above_start =
        |times: &[Duration], at: usize| times[at].saturating_sub(times[0]).as_secs_f64().max(1e-9);
    for (at, calls) in LENGTHS.into_iter().enumerate().skip(1) {
        println!(
            "  {calls:5} calls {:8.2} {:8.2}",
            other[at].as_secs_f64() / second[at].as_secs_f64(),
            above_start(other, at) / above_start(second, at)
        );
    }
}
