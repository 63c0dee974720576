//! Stand-in written for these comparisons: statime's own file was not supplied.
//! Only what `Port::port_ds` names; no comparison reads it.

use crate::datastructures::common::{PortIdentity, TimeInterval};

pub enum PortState {
    Faulty,
    Listening,
    Master,
    Passive,
    Slave,
}

pub enum DelayMechanism {
    E2E {
        log_min_delay_req_interval: i8,
    },
    P2P {
        log_min_p_delay_req_interval: i8,
        mean_link_delay: TimeInterval,
    },
}

pub struct PortDS {
    pub port_identity: PortIdentity,
    pub port_state: PortState,
    pub log_announce_interval: i8,
    pub announce_receipt_timeout: u8,
    pub log_sync_interval: i8,
    pub delay_mechanism: DelayMechanism,
    pub version_number: u8,
    pub minor_version_number: u8,
    pub delay_asymmetry: TimeInterval,
    pub master_only: bool,
}
