//! Event logs made by hand, each with every line that `trace` must write for it.
//!
//! The answers were worked out from document 01 and its readings, not by running an
//! implementation: a mistake in one shows as a difference from what stands here.

mod cast;
mod events;
mod examples;
mod log_format;
mod readings;
mod record;
mod rust;
mod script;
mod slips;
mod step;
mod table;
#[cfg(test)]
mod tests;

#[derive(Clone, Debug, PartialEq, Eq)]
pub struct Case {
    /// In kebab case, and no other case's.
    pub name: &'static str,
    /// What it pins down, and what a wrong program would answer.
    pub about: &'static str,
    /// Inside 01's differential domain: a good log whose answers are all 0, 4, 5 or 6,
    /// without a stated length above the table's and without types 11 to 13.
    pub domain: bool,
    pub log: Vec<u8>,
    /// The whole output of `trace`, without the newlines.
    pub lines: Vec<String>,
}

/// Every case but those of `wrap`, by the part of 01 that it belongs to.
pub fn groups() -> [(&'static str, Vec<Case>); 7] {
    [
        ("examples", examples::all()),
        ("slips", slips::all()),
        ("readings", readings::all()),
        ("table", table::all()),
        ("events", events::all()),
        ("log", log_format::all()),
        ("differences", rust::all()),
    ]
}

/// Every case but those of `wrap`.
pub fn all() -> Vec<Case> {
    groups().into_iter().flat_map(|(_, cases)| cases).collect()
}

/// Example I, apart from the others because each log holds 65,537 timers.
pub fn wrap() -> Vec<Case> {
    examples::wrap()
}
