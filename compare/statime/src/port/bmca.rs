//! Stand-in written for these comparisons: statime's own file was not supplied.
//! Announces are left out. The rest is what the driver needs of the port's insides: a
//! module below `port` can see them, and the supplied files stay as they are.

use rand::Rng;

use super::{
    actions::TimestampContextInner,
    state::{PortState, SlaveState},
    PeerDelayState, Port, PortActionIterator, Running, TimestampContext,
};
use crate::{
    bmc::acceptable_master::AcceptableMasterList,
    datastructures::{
        common::PortIdentity,
        messages::{AnnounceMessage, Message},
    },
    filters::Filter,
    observability::open::{Filtered, OpenContext, OpenExchange, OpenPeer, OpenPort, OpenState},
    ptp_instance::PtpInstanceStateMutex,
    time::Duration,
    Clock,
};

impl TimestampContext {
    pub fn open(&self) -> OpenContext {
        match self.inner {
            TimestampContextInner::Sync { id } => OpenContext::Sync(id),
            TimestampContextInner::DelayReq { id } => OpenContext::DelayReq(id),
            TimestampContextInner::PDelayReq { id } => OpenContext::PDelayReq(id),
            TimestampContextInner::PDelayResp {
                id,
                requestor_identity,
            } => OpenContext::PDelayResp(id, requestor_identity.to_bytes()),
        }
    }

    pub fn of(open: OpenContext) -> TimestampContext {
        TimestampContext {
            inner: match open {
                OpenContext::Sync(id) => TimestampContextInner::Sync { id },
                OpenContext::DelayReq(id) => TimestampContextInner::DelayReq { id },
                OpenContext::PDelayReq(id) => TimestampContextInner::PDelayReq { id },
                OpenContext::PDelayResp(id, identity) => TimestampContextInner::PDelayResp {
                    id,
                    requestor_identity: PortIdentity::from_bytes(identity),
                },
            },
        }
    }
}

impl<'a, A: AcceptableMasterList, C: Clock, F: Filter, R: Rng, S: PtpInstanceStateMutex>
    Port<'a, Running, A, R, C, F, S>
{
    pub(super) fn handle_announce<'b>(
        &'b mut self,
        _message: &Message<'b>,
        _announce: AnnounceMessage,
    ) -> PortActionIterator<'b> {
        panic!("outside the domain: announce")
    }

    pub fn filtered(&mut self, data: &[u8]) -> Filtered {
        if !super::is_message_buffer_compatible(data) {
            Filtered::Incompatible
        } else if Message::deserialize(data).is_err() {
            Filtered::Unparsed
        } else if self.parse_and_filter(data).is_break() {
            Filtered::Foreign
        } else {
            Filtered::Passed
        }
    }

    /// The host's event: by the one function of the supplied files that sets a state.
    pub fn force_state(&mut self, state: OpenState) {
        self.set_forced_port_state(match state {
            OpenState::Listening => PortState::Listening,
            OpenState::Master => PortState::Master,
            OpenState::Passive => PortState::Passive,
            OpenState::Faulty => PortState::Faulty,
            OpenState::Slave(master) => {
                PortState::Slave(SlaveState::new(PortIdentity::from_bytes(master)))
            }
        })
    }

    pub fn open(&self) -> OpenPort {
        let (state, sync, delay, raw) = open_state(&self.port_state);
        let next = |ids: &super::SequenceIdGenerator| ids.clone().generate();
        OpenPort {
            state,
            sync,
            delay,
            raw,
            peer: open_peer(&self.peer_delay_state),
            mean: self.mean_delay,
            ids: [
                &self.sync_seq_ids,
                &self.delay_seq_ids,
                &self.pdelay_seq_ids,
            ]
            .map(next),
        }
    }
}

fn open_state(state: &PortState) -> (OpenState, OpenExchange, OpenExchange, Option<Duration>) {
    use super::state::{DelayState, SyncState};
    let name = match state {
        PortState::Listening => OpenState::Listening,
        PortState::Master => OpenState::Master,
        PortState::Passive => OpenState::Passive,
        PortState::Faulty => OpenState::Faulty,
        PortState::Slave(slave) => OpenState::Slave(slave.remote_master.to_bytes()),
    };
    let PortState::Slave(slave) = state else {
        return (name, None, None, None);
    };
    let sync = match slave.sync_state {
        SyncState::Empty => None,
        SyncState::Measuring {
            id,
            send_time,
            recv_time,
        } => Some((id, send_time, recv_time)),
    };
    let delay = match slave.delay_state {
        DelayState::Empty => None,
        DelayState::Measuring {
            id,
            send_time,
            recv_time,
        } => Some((id, send_time, recv_time)),
    };
    (name, sync, delay, slave.last_raw_sync_offset)
}

fn open_peer(peer: &PeerDelayState) -> OpenPeer {
    match *peer {
        PeerDelayState::Empty => OpenPeer::Empty,
        PeerDelayState::Measuring {
            id,
            responder_identity,
            request_send_time,
            request_recv_time,
            response_send_time,
            response_recv_time,
        } => OpenPeer::Measuring(
            id,
            responder_identity.map(PortIdentity::to_bytes),
            [
                request_send_time,
                request_recv_time,
                response_send_time,
                response_recv_time,
            ],
        ),
        PeerDelayState::PostMeasurement {
            id,
            responder_identity,
        } => OpenPeer::Measured(id, responder_identity.to_bytes()),
    }
}
