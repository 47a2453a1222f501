//! The check of a state beside its definition.

use hoard::{check_handed_in, Refusal, State};

/// Checks that a state passes if it is sound, and is refused if not.
pub fn check_agrees(state: &State, order: &[u16], is_sound: bool) {
    let expected = match is_sound {
        true => Ok(()),
        false => Err(Refusal::State),
    };
    assert_eq!(check_handed_in(state, order), expected);
}
