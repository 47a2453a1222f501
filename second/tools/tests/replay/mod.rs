//! A record run call by call.

use hoard::{decode, run, Answer, Command, Setup, State, ORDER_PLACES, SUPERBLOCKS};

/// One call of a record, with the state before it, its answer and the order places
/// after it.
pub struct Step<'a> {
    pub command: Command,
    pub before: &'a State,
    pub answer: &'a Answer,
    pub order: &'a [u16],
}

/// Runs a record up to its end or stop and shows each call.
pub fn replay(record: &[u8], mut show: impl FnMut(&Step)) {
    let mut order = vec![0; SUPERBLOCKS * ORDER_PLACES];
    let mut state = State::new(Setup::default());
    let mut offset = 0;
    while let Ok((command, next)) = decode(record, offset) {
        let answer = run(&command, &state, &mut order);
        show(&Step {
            command,
            before: &state,
            answer: &answer,
            order: &order,
        });
        state = answer.state;
        offset = next;
    }
}
