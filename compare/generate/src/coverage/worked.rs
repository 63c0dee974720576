//! Which sums an event has worked out: the guards and steps of 01, 'What each event
//! does' and 'The measurement', as far as numbers come of them.

use super::decode::Seen;
use super::sums::{Quantity::*, Sums};
use plain::{Context, Event, Peer, PeerTimes, Port, Slave, State};

/// The slave's part of the record if the message comes from its master.
pub fn guarded<'a>(before: &'a Port, seen: &Seen) -> Option<&'a Slave> {
    match &before.state {
        State::Slave(slave) if slave.master == seen.source => Some(slave),
        _ => None,
    }
}

/// The times of the peer exchange if the message answers it and is no second responder's.
pub fn measuring<'a>(before: &'a Port, seen: &Seen) -> Option<&'a PeerTimes> {
    match &before.peer {
        Peer::Measuring {
            id,
            responder,
            times,
        } if *id == seen.id
            && seen.requester == before.config.identity
            && responder.is_none_or(|responder| responder == seen.source) =>
        {
            Some(times)
        }
        _ => None,
    }
}

impl Sums {
    pub(super) fn event(
        &mut self,
        before: &Port,
        event: &Event,
        seen: Option<&Seen>,
    ) -> Option<i128> {
        match (event, seen) {
            (Event::Stamp { time, context }, _) => self.stamp(before, *time, context),
            (Event::Event { time, .. }, Some(seen)) => match seen.kind {
                0 => self.sync(before, *time as i128, seen),
                1 if before.state == State::Master => {
                    self.seconds(DelayRespSeconds, *time)?;
                    self.correction(DelayRespCorrection, seen.correction, *time)
                }
                2 => {
                    self.seconds(PeerRespSeconds, *time)?;
                    self.correction(PeerRespCorrection, seen.correction, *time)
                }
                3 => self.peer_response(before, *time as i128, seen),
                _ => self.general(before, seen),
            },
            (Event::General { .. }, Some(seen)) => self.general(before, seen),
            _ => None,
        }
    }

    fn general(&mut self, before: &Port, seen: &Seen) -> Option<i128> {
        match seen.kind {
            8 => self.follow_up(before, seen),
            9 => self.delay_response(before, seen),
            10 => self.peer_follow_up(before, seen),
            _ => None,
        }
    }

    fn sync(&mut self, before: &Port, time: i128, seen: &Seen) -> Option<i128> {
        let slave = guarded(before, seen)?;
        let receive = self.time(SyncReceive, time, seen.corrected())?;
        let same = slave.sync.filter(|open| open.id == seen.id);
        match (seen.two_step(), same) {
            (true, Some(open)) if open.receive.is_none() => {
                self.sync_raw(before, open.send? as i128, receive)
            }
            (false, None) => self.sync_raw(before, seen.stamp(), receive),
            _ => None,
        }
    }

    fn follow_up(&mut self, before: &Port, seen: &Seen) -> Option<i128> {
        let slave = guarded(before, seen)?;
        let send = self.time(FollowUpSend, seen.stamp(), -seen.corrected())?;
        let open = slave
            .sync
            .filter(|open| open.id == seen.id && open.send.is_none())?;
        self.sync_raw(before, send, open.receive? as i128)
    }

    fn sync_raw(&mut self, before: &Port, send: i128, receive: i128) -> Option<i128> {
        let difference = self.minus(SyncDifference, receive, send)?;
        let raw = self.minus(SyncRaw, difference, before.config.asymmetry)?;
        self.minus(Offset, raw, before.mean?)
    }

    fn delay_response(&mut self, before: &Port, seen: &Seen) -> Option<i128> {
        let slave = guarded(before, seen).filter(|_| seen.requester == before.config.identity)?;
        let open = slave
            .delay
            .filter(|open| open.id == seen.id && open.receive.is_none())?;
        let receive = self.time(DelayReceive, seen.stamp(), seen.corrected())?;
        self.delay_raw(before, slave, open.send? as i128, receive)
    }

    fn delay_raw(
        &mut self,
        before: &Port,
        slave: &Slave,
        send: i128,
        receive: i128,
    ) -> Option<i128> {
        let difference = self.minus(DelayDifference, send, receive)?;
        let raw = self.minus(DelayRaw, difference, before.config.asymmetry)?;
        self.minus(DelayBoth, slave.raw?, raw)
    }

    fn peer_response(&mut self, before: &Port, time: i128, seen: &Seen) -> Option<i128> {
        let times = measuring(before, seen).filter(|times| times.response_receive.is_none())?;
        let receive = self.time(PeerReceive, time, seen.corrected())?;
        let stamp = Some(seen.stamp() as u128);
        let response_send = if seen.two_step() {
            times.response_send
        } else {
            stamp
        };
        self.peer(&PeerTimes {
            request_receive: stamp,
            response_send,
            response_receive: Some(receive as u128),
            ..*times
        })
    }

    fn peer_follow_up(&mut self, before: &Port, seen: &Seen) -> Option<i128> {
        let times = measuring(before, seen).filter(|times| times.response_send.is_none())?;
        let send = self.time(PeerSend, seen.stamp(), -seen.corrected())?;
        self.peer(&PeerTimes {
            response_send: Some(send as u128),
            ..*times
        })
    }

    fn peer(&mut self, times: &PeerTimes) -> Option<i128> {
        let [request_send, request_receive] = [times.request_send?, times.request_receive?];
        let [response_send, response_receive] = [times.response_send?, times.response_receive?];
        let own = self.minus(PeerOwn, response_receive as i128, request_send as i128)?;
        let theirs = self.minus(PeerTheirs, response_send as i128, request_receive as i128)?;
        self.minus(PeerBoth, own, theirs)
    }

    fn stamp(&mut self, before: &Port, time: u128, context: &Context) -> Option<i128> {
        match (context, &before.state, &before.peer) {
            (Context::Sync(_), State::Master, _) => self.seconds(FollowUpSeconds, time),
            (Context::DelayReq(id), State::Slave(slave), _) => {
                let open = slave
                    .delay
                    .filter(|open| open.id == *id && open.send.is_none())?;
                self.delay_raw(before, slave, time as i128, open.receive? as i128)
            }
            (Context::PDelayReq(named), _, Peer::Measuring { id, times, .. })
                if id == named && times.request_send.is_none() =>
            {
                self.peer(&PeerTimes {
                    request_send: Some(time),
                    ..*times
                })
            }
            (Context::PDelayResp(..), _, _) => self.seconds(PeerFollowUpSeconds, time),
            _ => None,
        }
    }
}
