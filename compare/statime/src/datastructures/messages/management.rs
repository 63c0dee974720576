//! Stand-in written for these comparisons: statime's own file was not supplied.

#[derive(Debug, Clone, Copy, PartialEq, Eq)]
pub(crate) struct ManagementMessage;

crate::datastructures::common::left_out!(ManagementMessage);
