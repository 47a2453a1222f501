//! One call with the state and storage it is given, as bytes, and its answer as
//! text. docs/FORMATS.md describes both.

use std::fmt::Write;

use hoard::{
    Answer, BlockId, Bytes, Command, Control, Outcome, Setup, State, Superblock, Totals, Usage,
    CLASSES, DROP_BYTE, HEAPS, SETUP_BYTE,
};

use crate::row_form::{answer_row_input, read_row_input, ROW_BYTE};

/// A call, the state handed in (for a setup the numbers asked for, no more) and
/// the order storage lent.
#[derive(Clone, Debug, PartialEq, Eq)]
pub struct CallInput {
    pub call: Command,
    pub state: State,
    pub order: Vec<u16>,
}

/// The most order places of a call.
pub const MOST_PLACES: usize = 17000;

/// The most addresses of a drop.
pub const MOST_ADDRESSES: usize = 512;

/// What is printed for input that is no call.
pub const BAD_INPUT: &str = "bad input\n";

/// The output for the bytes of a call, on a state or on a lent row.
pub fn answer_bytes(bytes: &[u8]) -> String {
    let answer = match bytes {
        [ROW_BYTE, ..] => read_row_input(bytes).map(|input| answer_row_input(&input)),
        _ => read_input(bytes).map(|input| answer_input(&input)),
    };
    answer.unwrap_or_else(|| BAD_INPUT.to_string())
}

/// Runs the call and prints its answer.
pub fn answer_input(input: &CallInput) -> String {
    let mut order = input.order.clone();
    let Answer { outcome, state } = run_call(input, &mut order);
    let State {
        control,
        superblocks,
    } = &state;
    print_answer(&outcome, control, superblocks, &input.order, &order)
}

/// Runs the call on the storage given.
pub fn run_call(input: &CallInput, order: &mut [u16]) -> Answer {
    hoard::run(&input.call, &input.state, order)
}

/// The lines of an answer: outcome, setup, superblocks that are not as a new setup has
/// them, held names, totals, changed places.
pub(crate) fn print_answer(
    outcome: &Outcome,
    control: &Control,
    superblocks: &[Superblock],
    before: &[u16],
    after: &[u16],
) -> String {
    let mut text = format!("{outcome}\nsetup {}\n", control.setup);
    for (number, superblock) in superblocks.iter().enumerate() {
        if *superblock == Superblock::UNUSED {
            continue;
        }
        let Superblock {
            owner,
            class,
            live: [w0, w1, w2, w3],
            rank,
            run_length,
        } = superblock;
        writeln!(
            text,
            "superblock {number} owner {owner} class {class} live {w0} {w1} {w2} {w3} \
                rank {rank} run {run_length}"
        )
        .expect("writing to a string does not fail");
    }
    for (name, BlockId { superblock, block }) in control.names.held() {
        text += &format!("name {name} superblock {superblock} block {block}\n");
    }
    print_totals(&mut text, &control.totals);
    for (place, (old, new)) in before.iter().zip(after).enumerate() {
        if old != new {
            text += &format!("place {place} {new}\n");
        }
    }
    text + "end\n"
}

/// Prints a line for each heap and class with a total that is not 0, whether or not
/// the setup has such a heap.
fn print_totals(text: &mut String, totals: &Totals) {
    for heap in 0..HEAPS as u8 {
        for class in 0..CLASSES as u8 {
            let Usage { superblocks, live } = totals.usage(heap, class);
            if superblocks > 0 || live > 0 {
                *text += &format!(
                    "total heap {heap} class {class} superblocks {superblocks} live {live}\n"
                );
            }
        }
    }
}

/// The call in `bytes`, if they are one call and nothing more.
pub fn read_input(bytes: &[u8]) -> Option<CallInput> {
    let mut bytes = Bytes(bytes);
    let [kind] = bytes.read()?;
    let (call, state) = match kind {
        SETUP_BYTE => read_setup(&mut bytes)?,
        _ => read_call_on_state(kind, &mut bytes)?,
    };
    let places = u32::from_le_bytes(bytes.read()?);
    if places as usize > MOST_PLACES {
        return None;
    }
    let order = read_places(bytes.0, places)?;
    Some(CallInput { call, state, order })
}

/// A setup, which is handed no state.
fn read_setup(bytes: &mut Bytes) -> Option<(Command, State)> {
    let asked = Setup::from_numbers(bytes.read()?);
    Some((Command::Setup(asked), State::new(asked)))
}

/// Another call, whose numbers stand between the setup numbers of the state and
/// the rest of it.
fn read_call_on_state(kind: u8, bytes: &mut Bytes) -> Option<(Command, State)> {
    let mut state = State::new(Setup::from_numbers(bytes.read()?));
    let call = match kind {
        DROP_BYTE => read_drop(bytes)?,
        _ => Command::read_numbers(kind, bytes)?,
    };
    for superblock in &mut state.superblocks {
        *superblock = read_superblock(bytes)?;
    }
    for number in &mut state.control.names.0 {
        *number = u16::from_le_bytes(bytes.read()?);
    }
    state.control.totals = read_totals(bytes)?;
    Some((call, state))
}

/// A drop, whose addresses are counted in two bytes: it may have more than one of a
/// record.
fn read_drop(bytes: &mut Bytes) -> Option<Command> {
    let [processor] = bytes.read()?;
    let count = usize::from(u16::from_le_bytes(bytes.read()?));
    if count > MOST_ADDRESSES {
        return None;
    }
    let addresses = bytes.read_addresses(count)?;
    Some(Command::Drop {
        processor,
        addresses,
    })
}

/// The totals, heaps then classes: all of superblocks, then all of live blocks.
fn read_totals(bytes: &mut Bytes) -> Option<Totals> {
    let mut totals = Totals::NONE;
    for superblocks in totals.superblocks.as_flattened_mut() {
        [*superblocks] = bytes.read()?;
    }
    for live in totals.live.as_flattened_mut() {
        *live = u16::from_le_bytes(bytes.read()?);
    }
    Some(totals)
}

fn read_superblock(bytes: &mut Bytes) -> Option<Superblock> {
    let [owner, class] = bytes.read()?;
    let mut live = [0; 4];
    for marks in &mut live {
        *marks = u64::from_le_bytes(bytes.read()?);
    }
    let [rank, run_length] = bytes.read()?;
    Some(Superblock {
        owner,
        class,
        live,
        rank,
        run_length,
    })
}

/// The order places, if the bytes are just as many.
fn read_places(bytes: &[u8], places: u32) -> Option<Vec<u16>> {
    if bytes.len() as u64 != 2 * u64::from(places) {
        return None;
    }
    let pairs = bytes.chunks_exact(2);
    Some(
        pairs
            .map(|pair| u16::from_le_bytes([pair[0], pair[1]]))
            .collect(),
    )
}

/// The bytes of a call.
pub fn write_input(input: &CallInput) -> Vec<u8> {
    let CallInput { call, state, order } = input;
    let mut bytes = vec![call.byte()];
    if let Command::Setup(_) = call {
        call.write_numbers(&mut bytes);
    } else {
        bytes.extend(state.control.setup.numbers());
        write_call(&mut bytes, call);
        write_superblocks(&mut bytes, &state.superblocks);
        write_numbers(&mut bytes, &state.control.names.0);
        bytes.extend(state.control.totals.superblocks.as_flattened());
        write_numbers(&mut bytes, state.control.totals.live.as_flattened());
    }
    bytes.extend((order.len() as u32).to_le_bytes());
    write_numbers(&mut bytes, order);
    bytes
}

/// The numbers of a call on a state, with two bytes to count the addresses of a drop.
fn write_call(bytes: &mut Vec<u8>, call: &Command) {
    let Command::Drop {
        processor,
        addresses,
    } = call
    else {
        return call.write_numbers(bytes);
    };
    bytes.push(*processor);
    bytes.extend((addresses.len() as u16).to_le_bytes());
    bytes.extend(addresses.iter().flat_map(|address| address.to_le_bytes()));
}

fn write_superblocks(bytes: &mut Vec<u8>, superblocks: &[Superblock]) {
    for superblock in superblocks {
        bytes.extend([superblock.owner, superblock.class]);
        bytes.extend(superblock.live.iter().flat_map(|marks| marks.to_le_bytes()));
        bytes.extend([superblock.rank, superblock.run_length]);
    }
}

/// Writes names, totals of live blocks or order places.
fn write_numbers(bytes: &mut Vec<u8>, numbers: &[u16]) {
    bytes.extend(numbers.iter().flat_map(|number| number.to_le_bytes()));
}
