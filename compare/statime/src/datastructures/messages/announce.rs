//! Stand-in written for these comparisons: statime's own file was not supplied.

use super::Header;
use crate::datastructures::common::{ClockIdentity, ClockQuality, TimeSource, WireTimestamp};

#[derive(Debug, Clone, Copy, PartialEq, Eq)]
pub(crate) struct AnnounceMessage {
    pub(crate) header: Header,
    pub(crate) origin_timestamp: WireTimestamp,
    pub(crate) current_utc_offset: i16,
    pub(crate) grandmaster_priority_1: u8,
    pub(crate) grandmaster_clock_quality: ClockQuality,
    pub(crate) grandmaster_priority_2: u8,
    pub(crate) grandmaster_identity: ClockIdentity,
    pub(crate) steps_removed: u16,
    pub(crate) time_source: TimeSource,
}

crate::datastructures::common::left_out!(AnnounceMessage, Header);
