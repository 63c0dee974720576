//! Stand-in written for these comparisons: statime's own file was not supplied.
pub struct OverlayClock;
