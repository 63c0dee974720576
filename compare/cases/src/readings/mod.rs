//! One case or more for each reading of 01 that a log can tell apart. Reading 7 is
//! about where the program reads and writes, so no log shows it.

mod answers;
mod draws;
mod log;
mod port;
mod refusals;

use crate::Case;

pub fn all() -> Vec<Case> {
    [
        log::all(),
        refusals::all(),
        answers::all(),
        port::all(),
        draws::all(),
    ]
    .concat()
}
