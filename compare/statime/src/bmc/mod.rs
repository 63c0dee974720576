//! Stand-in written for these comparisons: statime's own file was not supplied.
pub mod acceptable_master;
pub(crate) mod bmca;
