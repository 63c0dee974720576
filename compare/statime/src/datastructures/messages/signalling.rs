//! Stand-in written for these comparisons: statime's own file was not supplied.

#[derive(Debug, Clone, Copy, PartialEq, Eq)]
pub(crate) struct SignalingMessage;

crate::datastructures::common::left_out!(SignalingMessage);
