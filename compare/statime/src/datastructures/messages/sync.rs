//! Stand-in written for these comparisons: statime's own file was not supplied.

crate::datastructures::common::body!(SyncMessage, 10, origin_timestamp);
