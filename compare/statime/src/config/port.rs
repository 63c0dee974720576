//! Stand-in written for these comparisons: statime's own file was not supplied.
//! The fields are those that `port/mod.rs` fills in.

use rand::Rng;

use crate::time::{Duration, Interval};

#[derive(Debug, Clone, Copy)]
pub enum DelayMechanism {
    E2E { interval: Interval },
    P2P { interval: Interval },
}

#[derive(Debug, Clone, Copy)]
pub enum PtpMinorVersion {
    Zero = 0,
    One = 1,
}

impl From<PtpMinorVersion> for u8 {
    fn from(version: PtpMinorVersion) -> u8 {
        version as u8
    }
}

#[derive(Debug, Clone, Copy)]
pub struct PortConfig<A> {
    pub acceptable_master_list: A,
    pub delay_mechanism: DelayMechanism,
    pub announce_interval: Interval,
    pub announce_receipt_timeout: u8,
    pub sync_interval: Interval,
    pub master_only: bool,
    pub delay_asymmetry: Duration,
    pub minor_ptp_version: PtpMinorVersion,
}

impl<A> PortConfig<A> {
    /// The announce receipt timer is left out of the comparisons.
    pub(crate) fn announce_duration(&self, _rng: &mut impl Rng) -> core::time::Duration {
        core::time::Duration::ZERO
    }

    pub(crate) fn min_delay_req_interval(&self) -> Interval {
        match self.delay_mechanism {
            DelayMechanism::E2E { interval } | DelayMechanism::P2P { interval } => interval,
        }
    }
}
