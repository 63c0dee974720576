//! The port record, its events and its answers, as document 01 names them.
//!
//! Times are `u128`, durations `i128`, both in units of 2^-32 ns. The types can hold
//! what document 01 calls unfit or out of limits, so that it can be refused.

/// Eight bytes of clock, two of port.
pub type Identity = [u8; 10];

#[derive(Clone, Copy, Debug, PartialEq, Eq)]
pub enum Mechanism {
    EndToEnd,
    Peer,
}

#[derive(Clone, Copy, Debug, PartialEq, Eq)]
pub struct Config {
    pub identity: Identity,
    pub sdo: u16,
    pub domain: u8,
    pub minor: u8,
    pub mechanism: Mechanism,
    pub delay_interval: i8,
    pub sync_interval: i8,
    pub asymmetry: i128,
}

/// A sync or a delay exchange.
#[derive(Clone, Copy, Debug, PartialEq, Eq)]
pub struct Exchange {
    pub id: u16,
    pub send: Option<u128>,
    pub receive: Option<u128>,
}

#[derive(Clone, Copy, Debug, PartialEq, Eq)]
pub struct Slave {
    pub master: Identity,
    pub sync: Option<Exchange>,
    pub delay: Option<Exchange>,
    /// The last raw sync offset.
    pub raw: Option<i128>,
}

#[derive(Clone, Copy, Debug, PartialEq, Eq)]
pub enum State {
    Listening,
    Master,
    Passive,
    Faulty,
    Slave(Slave),
}

#[derive(Clone, Copy, Debug, PartialEq, Eq)]
pub struct PeerTimes {
    pub request_send: Option<u128>,
    pub request_receive: Option<u128>,
    pub response_send: Option<u128>,
    pub response_receive: Option<u128>,
}

#[derive(Clone, Copy, Debug, PartialEq, Eq)]
pub enum Peer {
    Empty,
    Measuring {
        id: u16,
        responder: Option<Identity>,
        times: PeerTimes,
    },
    Measured {
        id: u16,
        responder: Identity,
    },
}

/// The record. The three ids are those that the next message of each kind takes.
#[derive(Clone, Copy, Debug, PartialEq, Eq)]
pub struct Port {
    pub config: Config,
    pub state: State,
    pub peer: Peer,
    pub mean: Option<i128>,
    pub sync_id: u16,
    pub delay_id: u16,
    pub peer_id: u16,
}

/// What a send stamp belongs to.
#[derive(Clone, Copy, Debug, PartialEq, Eq)]
pub enum Context {
    Sync(u16),
    DelayReq(u16),
    PDelayReq(u16),
    PDelayResp(u16, Identity),
}

#[derive(Clone, Copy, Debug, PartialEq, Eq)]
pub enum NewState {
    Listening,
    Master,
    Passive,
    Faulty,
    Slave(Identity),
}

#[derive(Clone, Copy, Debug, PartialEq, Eq)]
pub enum Event<'a> {
    /// A message on the event entry, with its receive time.
    Event {
        time: u128,
        message: &'a [u8],
    },
    /// A message on the general entry.
    General {
        message: &'a [u8],
    },
    Stamp {
        time: u128,
        context: Context,
    },
    SyncTimer,
    DelayTimer {
        draw: u64,
    },
    Filter {
        mean: Option<i128>,
        next: Option<u64>,
    },
    SetState(NewState),
}

#[derive(Clone, Copy, Debug, PartialEq, Eq)]
pub enum Kind {
    Sync,
    Delay,
    Peer,
}

#[derive(Clone, Copy, Debug, PartialEq, Eq)]
pub struct Measurement {
    pub kind: Kind,
    /// Raw sync offset, raw delay offset, or the halved peer delay.
    pub value: i128,
    pub event_time: u128,
    pub offset: Option<i128>,
    pub delay: Option<i128>,
}

#[derive(Clone, Copy, Debug, PartialEq, Eq)]
pub enum Action {
    SyncTimer { ns: u64 },
    DelayTimer { ns: u64 },
    FilterTimer { ns: u64 },
    SendEvent { context: Context, link: bool },
    SendGeneral { link: bool },
}

#[derive(Clone, Copy, Debug, PartialEq, Eq)]
pub struct Answer {
    /// A number of document 01's table.
    pub number: u8,
    pub measurement: Option<Measurement>,
    /// Bytes of the packet buffer that are to be sent.
    pub length: usize,
    pub actions: [Option<Action>; 2],
    pub reset: bool,
}
