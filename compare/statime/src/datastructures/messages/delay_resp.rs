//! Stand-in written for these comparisons: statime's own file was not supplied.

crate::datastructures::common::body!(
    DelayRespMessage,
    20,
    receive_timestamp,
    requesting_port_identity
);
