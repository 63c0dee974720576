//! Each row of the table of answers that a log can reach, at its edge and just inside.
//! Row 1 is about the caller's buffer, which a log does not hold.

mod delays;
mod differences;
mod foreign;
mod header;
mod limits;
mod long;
mod sent;
mod times;

use crate::Case;

pub fn all() -> Vec<Case> {
    [
        limits::all(),
        header::all(),
        long::all(),
        foreign::all(),
        times::all(),
        differences::all(),
        delays::all(),
        sent::all(),
    ]
    .concat()
}
