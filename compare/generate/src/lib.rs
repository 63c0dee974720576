//! Event logs for comparing implementations of document 01, and a report of the
//! rules that they reach.
//!
//! * `build` and `message` write logs and messages, right or wrong; `random` and
//!   `values` supply numbers.
//! * `stage` plays a log on the port as it grows; `walk` and `moves` are the random runs.
//! * `tour`, `orders`, `timers`, `fields`, `guards`, `limits`, `extremes`, `wraps`,
//!   `exhaustive`, `window` and `damage` are written: the same for every seed and size,
//!   but for the flipped bytes of `damage`. They alone reach every row of the report.
//! * `day` is one long log for measuring speed, and no part of a comparison.
//! * `coverage` reads finished logs and counts.

pub mod build;
pub mod coverage;
pub mod damage;
mod damage_inner;
pub mod day;
pub mod domain;
pub mod exhaustive;
pub mod extremes;
pub mod extremes_peer;
pub mod extremes_sent;
pub mod fields;
pub mod guards;
pub mod limits;
pub mod message;
mod moves;
pub mod orders;
pub mod owned;
pub mod random;
pub mod stage;
pub mod timers;
pub mod tour;
mod tour_moves;
pub mod values;
pub mod walk;
pub mod window;
pub mod wraps;
