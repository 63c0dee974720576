//! Not statime's: written for these comparisons, for the driver.
//! What the driver sees of a port's insides: all of the record that document 01 has.

use crate::time::{Duration, Time};

/// Why `parse_and_filter` gave a message no further, asked of the supplied functions.
#[derive(Debug, Clone, Copy, PartialEq, Eq)]
pub enum Filtered {
    Passed,
    Incompatible,
    Unparsed,
    Foreign,
}

/// The handle of a sent event message, with its insides open.
#[derive(Debug, Clone, Copy, PartialEq, Eq)]
pub enum OpenContext {
    Sync(u16),
    DelayReq(u16),
    PDelayReq(u16),
    PDelayResp(u16, [u8; 10]),
}

#[derive(Debug, Clone, Copy, PartialEq, Eq)]
pub enum OpenState {
    Listening,
    Master,
    Passive,
    Faulty,
    Slave([u8; 10]),
}

/// An exchange of a slave: id, send time, receive time.
pub type OpenExchange = Option<(u16, Option<Time>, Option<Time>)>;

#[derive(Debug, Clone, Copy, PartialEq, Eq)]
pub enum OpenPeer {
    Empty,
    Measuring(u16, Option<[u8; 10]>, [Option<Time>; 4]),
    Measured(u16, [u8; 10]),
}

#[derive(Debug, Clone, Copy, PartialEq, Eq)]
pub struct OpenPort {
    pub state: OpenState,
    pub sync: OpenExchange,
    pub delay: OpenExchange,
    pub raw: Option<Duration>,
    pub peer: OpenPeer,
    pub mean: Option<Duration>,
    pub ids: [u16; 3],
}
