//! Stand-in written for these comparisons: statime's own file was not supplied.

crate::datastructures::common::body!(DelayReqMessage, 10, origin_timestamp);
