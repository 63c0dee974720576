//! A PTP port that works on one event at a time, and a reader for its event log.
//!
//! The rules are those of document 01; readings are numbered as in docs/DECISIONS.md. The
//! crate exists to be compared with other implementations, so it favours the plainest code that is still
//! fast: one record, one call per event, no allocation while a log is read.
//!
//! * [`Port::handle`] takes an event and gives the answer; `port` holds the order of
//!   the table of numbers, `slave`, `peer` and `master` what each event does.
//! * [`log`] reads a log piece by piece, [`run`] is the body of the two programs.

mod fit;
pub mod log;
mod master;
mod out;
mod peer;
mod port;
mod reply;
pub mod run;
mod slave;
mod text;
mod time;
// A record without a heap holds the slave's part in place.
#[allow(clippy::large_enum_variant)]
mod types;
mod wire;

pub use types::*;
