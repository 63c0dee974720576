//! Stand-in written for these comparisons: statime's own file was not supplied.

crate::datastructures::common::body!(
    PDelayRespMessage,
    20,
    request_receive_timestamp,
    requesting_port_identity
);
