//! The peer exchange: our request, its answers and what they measure. It belongs to the
//! link, not to a state, so it works in all of them.

use crate::reply::{Outcome, Refusal, Reply};
use crate::time;
use crate::wire::{Draft, Message, Type, NO_INTERVAL};
use crate::{Action, Context, Identity, Kind, Measurement, Peer, PeerTimes, Port, State};

/// What the peer exchange makes of an answer, before any number of it is looked at.
enum Standing {
    /// Another responder has answered the same request already.
    Second,
    /// The answer belongs to the open request.
    Open(PeerTimes),
    Unrelated,
}

impl Port {
    pub(crate) fn peer_response(
        &mut self,
        time: u128,
        message: &Message,
        reply: &mut Reply,
    ) -> Outcome {
        let mut times = match self.standing(message) {
            Standing::Second => return self.second_responder(reply),
            Standing::Open(times) if times.response_receive.is_none() => times,
            _ => return Ok(()),
        };
        let receive = time::less_correction(time, message.correction())?;
        times.response_receive = Some(receive);
        times.request_receive = Some(message.timestamp());
        if !message.is_two_step() {
            // The responder has put its own delay into the correction, so as far as the
            // times go it answered at once. This also wins over an earlier follow-up.
            times.response_send = times.request_receive;
        }
        self.settle_peer(message.id(), Some(*message.source()), times, reply)
    }

    pub(crate) fn peer_follow_up(&mut self, message: &Message, reply: &mut Reply) -> Outcome {
        let mut times = match self.standing(message) {
            Standing::Second => return self.second_responder(reply),
            Standing::Open(times) if times.response_send.is_none() => times,
            _ => return Ok(()),
        };
        let send = time::plus_correction(message.timestamp(), message.correction())?;
        times.response_send = Some(send);
        self.settle_peer(message.id(), Some(*message.source()), times, reply)
    }

    pub(crate) fn peer_stamp(&mut self, time: u128, stamped: u16, reply: &mut Reply) -> Outcome {
        match self.peer {
            Peer::Measuring {
                id,
                responder,
                mut times,
            } if id == stamped && times.request_send.is_none() => {
                times.request_send = Some(time);
                self.settle_peer(id, responder, times, reply)
            }
            _ => Ok(()),
        }
    }

    pub(crate) fn request_peer(&mut self, draw: u64, reply: &mut Reply) {
        let id = self.peer_id;
        self.peer_id = id.wrapping_add(1);
        self.peer = Peer::Measuring {
            id,
            responder: None,
            times: PeerTimes {
                request_send: None,
                request_receive: None,
                response_send: None,
                response_receive: None,
            },
        };
        let draft = Draft::blank(Type::PDelayReq, id, NO_INTERVAL);
        let ns = time::delay_timer(self.config.delay_interval, draw);
        reply.set_timer(Action::DelayTimer { ns });
        let (context, link) = (Context::PDelayReq(id), true);
        reply.send(&self.config, &draft, Action::SendEvent { context, link });
    }

    /// A second responder is looked for ahead of everything else, in an exchange that
    /// is done as well as in an open one.
    fn standing(&self, message: &Message) -> Standing {
        if *message.requester() != self.config.identity {
            return Standing::Unrelated;
        }
        let another = |known: Identity| known != *message.source();
        match self.peer {
            Peer::Measuring {
                id,
                responder,
                times,
            } if id == message.id() => match responder {
                Some(known) if another(known) => Standing::Second,
                _ => Standing::Open(times),
            },
            Peer::Measured { id, responder } if id == message.id() && another(responder) => {
                Standing::Second
            }
            _ => Standing::Unrelated,
        }
    }

    /// The exchange itself stays, so that the first responder can still complete it
    /// (reading 17).
    fn second_responder(&mut self, reply: &mut Reply) -> Outcome {
        self.state = State::Faulty;
        reply.answer.reset = true;
        Ok(())
    }

    /// Stores the peer exchange, or measures it once all its times are there.
    fn settle_peer(
        &mut self,
        id: u16,
        responder: Option<Identity>,
        times: PeerTimes,
        reply: &mut Reply,
    ) -> Outcome {
        let (Some(measurement), Some(responder)) = (measure(&times)?, responder) else {
            self.peer = Peer::Measuring {
                id,
                responder,
                times,
            };
            return Ok(());
        };
        self.peer = Peer::Measured { id, responder };
        reply.answer.measurement = Some(measurement);
        if self.state == State::Faulty {
            self.state = State::Listening;
            reply.answer.reset = true;
        }
        Ok(())
    }
}

/// The measurement of an exchange that has all four times.
fn measure(times: &PeerTimes) -> Result<Option<Measurement>, Refusal> {
    let PeerTimes {
        request_send: Some(request_send),
        request_receive: Some(request_receive),
        response_send: Some(response_send),
        response_receive: Some(response_receive),
    } = *times
    else {
        return Ok(None);
    };
    let here = time::span(request_send, response_receive)?;
    let there = time::span(request_receive, response_send)?;
    Ok(Some(Measurement {
        kind: Kind::Peer,
        value: time::half(time::less(here, there)?),
        event_time: response_receive,
        offset: None,
        delay: None,
    }))
}
