//! Likely slips of an implementation, each in a log where the slip changes the answer.

mod measured;
mod order;
mod sent;
mod times;

use crate::Case;

pub fn all() -> Vec<Case> {
    [measured::all(), times::all(), order::all(), sent::all()].concat()
}
