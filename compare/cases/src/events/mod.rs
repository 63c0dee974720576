//! Each sentence of 'What each event does', with each of its cases.

mod answers;
mod bytes;
mod delay;
mod filter;
mod ids;
mod one_step;
mod orders;
mod peer;
mod responder;
mod sent;
mod state;
mod sync;

use crate::cast::*;
use crate::script::Script;
use crate::Case;

pub fn all() -> Vec<Case> {
    [
        sync::all(),
        one_step::all(),
        delay::all(),
        orders::all(),
        peer::all(),
        ids::all(),
        responder::all(),
        answers::all(),
        sent::all(),
        bytes::all(),
        filter::all(),
        state::all(),
    ]
    .concat()
}

/// A walk from a fresh port through every state but Slave, and whether each step
/// resets the filter.
const ROUND: [(NewState, bool); 4] = [
    (NewState::Listening, false),
    (NewState::Master, false),
    (NewState::Passive, false),
    (NewState::Faulty, true),
];

/// An end-to-end port without asymmetry, just set to Slave.
fn slave() -> Script {
    let mut s = Script::new(end_to_end(0));
    s.slave(MASTER).nothing();
    s
}
