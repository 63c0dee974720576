//! The end-to-end half of a slave: sync and delay exchanges, and what they measure.

use crate::reply::{Outcome, Refusal, Reply};
use crate::time;
use crate::wire::{Draft, Message, Type, NO_INTERVAL};
use crate::{Action, Context, Exchange, Kind, Measurement, Mechanism, Port, Slave, State};

impl Port {
    /// The corrected time is worked out ahead of the test for duplicates, so that even
    /// a duplicate can be refused for it (reading 11).
    pub(crate) fn sync(&mut self, time: u128, message: &Message, reply: &mut Reply) -> Outcome {
        let Some(slave) = slave_of(&mut self.state, message) else {
            return Ok(());
        };
        let receive = Some(time::less_correction(time, message.correction())?);
        let id = message.id();
        let open = slave.sync.filter(|open| open.id == id);
        let send = match open {
            // A one-step Sync never joins what is open, not even a lone FollowUp.
            Some(_) if !message.is_two_step() => return Ok(()),
            Some(open) if open.receive.is_some() => return Ok(()),
            Some(open) => open.send,
            None if message.is_two_step() => None,
            None => Some(message.timestamp()),
        };
        let exchange = Exchange { id, send, receive };
        settle_sync(slave, exchange, self.config.asymmetry, self.mean, reply)
    }

    /// The sum comes first here too, and the exchange may begin with this message.
    pub(crate) fn follow_up(&mut self, message: &Message, reply: &mut Reply) -> Outcome {
        let Some(slave) = slave_of(&mut self.state, message) else {
            return Ok(());
        };
        let send = time::plus_correction(message.timestamp(), message.correction())?;
        let id = message.id();
        let open = slave.sync.filter(|open| open.id == id);
        if open.is_some_and(|open| open.send.is_some()) {
            return Ok(());
        }
        let exchange = Exchange {
            id,
            send: Some(send),
            receive: open.and_then(|open| open.receive),
        };
        settle_sync(slave, exchange, self.config.asymmetry, self.mean, reply)
    }

    /// Here every test comes before the sum, so that a response that does nothing can
    /// never be refused for its numbers.
    pub(crate) fn delay_resp(&mut self, message: &Message, reply: &mut Reply) -> Outcome {
        let Some(slave) = slave_of(&mut self.state, message) else {
            return Ok(());
        };
        let id = message.id();
        let open = slave.delay.filter(|open| open.id == id);
        match open {
            Some(open)
                if open.receive.is_none() && *message.requester() == self.config.identity =>
            {
                let receive = time::less_correction(message.timestamp(), message.correction())?;
                let exchange = Exchange {
                    receive: Some(receive),
                    ..open
                };
                settle_delay(slave, exchange, self.config.asymmetry, reply)
            }
            _ => Ok(()),
        }
    }

    pub(crate) fn delay_stamp(&mut self, time: u128, id: u16, reply: &mut Reply) -> Outcome {
        let State::Slave(slave) = &mut self.state else {
            return Ok(());
        };
        match slave.delay {
            Some(open) if open.id == id && open.send.is_none() => {
                let exchange = Exchange {
                    send: Some(time),
                    ..open
                };
                settle_delay(slave, exchange, self.config.asymmetry, reply)
            }
            _ => Ok(()),
        }
    }

    /// The delay timer ran out: the request of the configured mechanism goes out.
    pub(crate) fn request(&mut self, draw: u64, reply: &mut Reply) {
        match self.config.mechanism {
            Mechanism::EndToEnd => self.request_delay(draw, reply),
            Mechanism::Peer => self.request_peer(draw, reply),
        }
    }

    /// When not Slave even the timer stays as it is (reading 16).
    fn request_delay(&mut self, draw: u64, reply: &mut Reply) {
        let State::Slave(slave) = &mut self.state else {
            return;
        };
        let id = self.delay_id;
        self.delay_id = id.wrapping_add(1);
        slave.delay = Some(Exchange {
            id,
            send: None,
            receive: None,
        });
        let draft = Draft::blank(Type::DelayReq, id, NO_INTERVAL);
        let ns = time::delay_timer(self.config.delay_interval, draw);
        reply.set_timer(Action::DelayTimer { ns });
        let (context, link) = (Context::DelayReq(id), false);
        reply.send(&self.config, &draft, Action::SendEvent { context, link });
    }
}

/// The guard of Sync, FollowUp and DelayResp: Slave, and the sender is its master.
fn slave_of<'a>(state: &'a mut State, message: &Message) -> Option<&'a mut Slave> {
    match state {
        State::Slave(slave) if slave.master == *message.source() => Some(slave),
        _ => None,
    }
}

/// Stores a sync exchange that is still open, or takes a complete one out and measures.
fn settle_sync(
    slave: &mut Slave,
    exchange: Exchange,
    asymmetry: i128,
    mean: Option<i128>,
    reply: &mut Reply,
) -> Outcome {
    let (Some(send), Some(receive)) = (exchange.send, exchange.receive) else {
        slave.sync = Some(exchange);
        return Ok(());
    };
    let raw = time::less(time::span(send, receive)?, asymmetry)?;
    let offset = difference(Some(raw), mean)?;
    slave.sync = None;
    slave.raw = Some(raw);
    reply.answer.measurement = Some(Measurement {
        kind: Kind::Sync,
        value: raw,
        event_time: receive,
        offset,
        delay: None,
    });
    Ok(())
}

/// The same for a delay exchange.
fn settle_delay(
    slave: &mut Slave,
    exchange: Exchange,
    asymmetry: i128,
    reply: &mut Reply,
) -> Outcome {
    let (Some(send), Some(receive)) = (exchange.send, exchange.receive) else {
        slave.delay = Some(exchange);
        return Ok(());
    };
    let raw = time::less(time::span(receive, send)?, asymmetry)?;
    let delay = difference(slave.raw, Some(raw))?.map(time::half);
    slave.delay = None;
    reply.answer.measurement = Some(Measurement {
        kind: Kind::Delay,
        value: raw,
        event_time: send,
        offset: None,
        delay,
    });
    Ok(())
}

/// A difference that is worked out only where both durations are there.
fn difference(from: Option<i128>, what: Option<i128>) -> Result<Option<i128>, Refusal> {
    match (from, what) {
        (Some(from), Some(what)) => time::less(from, what).map(Some),
        _ => Ok(None),
    }
}
