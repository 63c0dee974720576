//! Stand-in written for these comparisons: statime's own file was not supplied.

crate::datastructures::common::body!(FollowUpMessage, 10, precise_origin_timestamp);
