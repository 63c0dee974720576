//! Stand-in written for these comparisons: statime's own file was not supplied.
//! The members that the supplied files read.

use arrayvec::ArrayVec;

use super::{
    common::{ClockIdentity, ClockQuality, LeapIndicator, PortIdentity, TimeSource},
    messages::SdoId,
};

#[derive(Debug, Default)]
pub(crate) struct InternalDefaultDS {
    pub(crate) clock_identity: ClockIdentity,
    pub(crate) domain_number: u8,
    pub(crate) sdo_id: SdoId,
    pub(crate) slave_only: bool,
}

#[derive(Debug, Default)]
pub(crate) struct InternalCurrentDS {
    pub(crate) steps_removed: u16,
}

#[derive(Debug, Default)]
pub(crate) struct InternalParentDS {
    pub(crate) parent_port_identity: PortIdentity,
    pub(crate) grandmaster_identity: ClockIdentity,
    pub(crate) grandmaster_clock_quality: ClockQuality,
    pub(crate) grandmaster_priority_1: u8,
    pub(crate) grandmaster_priority_2: u8,
}

#[derive(Debug, Default)]
pub(crate) struct PathTraceDS {
    pub(crate) enable: bool,
    pub(crate) list: ArrayVec<ClockIdentity, 16>,
}

#[derive(Debug, Default)]
pub struct TimePropertiesDS {
    pub(crate) current_utc_offset: Option<i16>,
    pub(crate) leap_indicator: LeapIndicator,
    pub(crate) time_traceable: bool,
    pub(crate) frequency_traceable: bool,
    pub(crate) ptp_timescale: bool,
    pub(crate) time_source: TimeSource,
}
