//! Stand-in written for these comparisons: statime's own file was not supplied.

crate::datastructures::common::body!(
    PDelayRespFollowUpMessage,
    20,
    response_origin_timestamp,
    requesting_port_identity
);
