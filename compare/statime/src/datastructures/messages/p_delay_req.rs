//! Stand-in written for these comparisons: statime's own file was not supplied.

crate::datastructures::common::body!(PDelayReqMessage, 20, origin_timestamp);
