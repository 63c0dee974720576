//! Stand-in written for these comparisons: statime's own file was not supplied.
//! The clock is the host's: the port only hands it on to the filter.

pub trait Clock {}
