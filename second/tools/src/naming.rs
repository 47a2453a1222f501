//! Names for generated calls: held, available and at the limits.

use hoard::{Command, Names, State, NAMES};

use crate::xorshift::Xorshift;

/// Names at and past the limits.
const EDGE_NAMES: [u16; 8] = [0, 1, 1022, 1023, 1024, 1025, 32768, 65535];

/// A name at or past the limits, held or not.
pub fn edge_name(random: &mut Xorshift) -> u16 {
    random.pick(&EDGE_NAMES)
}

/// Any held name.
pub fn held_name(random: &mut Xorshift, names: &Names) -> Option<u16> {
    let held: Vec<u16> = names.held().map(|(name, _)| name).collect();
    (!held.is_empty()).then(|| random.pick(&held))
}

/// A name that can be bound: in half of all cases the lowest, so that names come
/// back soon, else any.
pub fn available_name(random: &mut Xorshift, names: &Names) -> Option<u16> {
    let count = NAMES as u16;
    let start = match random.below(2) {
        0 => 0,
        _ => random.below(count.into()) as u16,
    };
    let mut from_start = (start..count).chain(0..start);
    from_start.find(|&name| names.is_available(name))
}

/// A name for a take: mostly available, of `whole` cases one at a limit and two held.
pub fn name_to_bind(random: &mut Xorshift, names: &Names, whole: u32) -> u16 {
    let name = match random.below(whole) {
        0 => None,
        1 | 2 => held_name(random, names),
        _ => available_name(random, names),
    };
    name.unwrap_or_else(|| edge_name(random))
}

/// A name for a free: mostly held, at times available or at a limit.
pub fn name_to_free(random: &mut Xorshift, names: &Names) -> u16 {
    let name = match random.below(12) {
        0 => None,
        1 | 2 => available_name(random, names),
        _ => held_name(random, names).or_else(|| available_name(random, names)),
    };
    name.unwrap_or_else(|| edge_name(random))
}

/// The name that holds the live block at an address.
pub fn name_of_address(state: &State, address: u32) -> Option<u16> {
    let mut held = state.control.names.held();
    held.find(|&(_, block)| state.address_of(block) == address)
        .map(|(name, _)| name)
}

/// A free of the live block at an address, by its name in `named` of 100 cases if
/// it has one.
pub fn free_of_live(
    random: &mut Xorshift,
    state: &State,
    processor: u8,
    address: u32,
    named: u32,
) -> Command {
    match name_of_address(state, address) {
        Some(name) if random.chance(named, 100) => Command::NamedFree { processor, name },
        _ => Command::Free { processor, address },
    }
}
