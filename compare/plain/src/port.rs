//! The order of the table of numbers, and which rule an event goes to.

use crate::reply::{Outcome, Refusal, Reply};
use crate::time;
use crate::wire::{Message, Type};
use crate::{Action, Answer, Config, Context, Event, NewState, Peer, Port, Slave, State};

/// The shortest packet buffer that is taken, whether or not the event sends.
const SHORTEST_BUFFER: usize = 64;

impl Port {
    /// A fresh port: Listening, nothing stored, every first id 0.
    pub fn new(config: Config) -> Port {
        Port {
            config,
            state: State::Listening,
            peer: Peer::Empty,
            mean: None,
            sync_id: 0,
            delay_id: 0,
            peer_id: 0,
        }
    }

    /// Takes one event, or refuses it and leaves `self` and `packet` as found.
    ///
    /// Every rule works out all that can fail before it stores or writes anything, so
    /// there is nothing to take back here.
    pub fn handle(&mut self, event: &Event, packet: &mut [u8]) -> Answer {
        let mut answer = Answer::nothing();
        let mut reply = Reply::new(&mut answer, packet);
        if let Err(refusal) = self.outcome(event, &mut reply) {
            answer.number = refusal as u8;
        }
        answer
    }

    /// Rows 1 to 3 hold for every event; the rest belongs to the event's own rule.
    fn outcome(&mut self, event: &Event, reply: &mut Reply) -> Outcome {
        if reply.buffer_length() < SHORTEST_BUFFER {
            return Err(Refusal::Buffer);
        }
        if !self.is_fit() {
            return Err(Refusal::Unfit);
        }
        if !is_in_limits(event) {
            return Err(Refusal::Limits);
        }
        match *event {
            Event::Event { time, message } => self.message(Some(time), message, reply)?,
            Event::General { message } => self.message(None, message, reply)?,
            Event::Stamp { time, context } => self.stamp(time, context, reply)?,
            Event::SyncTimer => self.send_sync(reply),
            Event::DelayTimer { draw } => self.request(draw, reply),
            Event::Filter { mean, next } => self.filter(mean, next, reply),
            Event::SetState(new) => self.set_state(new, reply),
        }
        Ok(())
    }

    /// Rows 4, 5, 6 and 8, in that order, on both entries. A message of the general
    /// entry has no receive time, and types 0 to 3 do nothing there (reading 10).
    fn message(&mut self, time: Option<u128>, bytes: &[u8], reply: &mut Reply) -> Outcome {
        let message = Message::decode(bytes)?;
        if message.sdo() != self.config.sdo || message.domain() != self.config.domain {
            return Err(Refusal::Foreign);
        }
        match (message.kind, time) {
            (Type::Host, _) => Err(Refusal::Host),
            (Type::FollowUp, _) => self.follow_up(&message, reply),
            (Type::DelayResp, _) => self.delay_resp(&message, reply),
            (Type::PDelayRespFollowUp, _) => self.peer_follow_up(&message, reply),
            (Type::Sync, Some(time)) => self.sync(time, &message, reply),
            (Type::DelayReq, Some(time)) => self.answer_delay(time, &message, reply),
            (Type::PDelayReq, Some(time)) => self.answer_peer(time, &message, reply),
            (Type::PDelayResp, Some(time)) => self.peer_response(time, &message, reply),
            (_, None) => Ok(()),
        }
    }

    fn stamp(&mut self, time: u128, context: Context, reply: &mut Reply) -> Outcome {
        match context {
            Context::Sync(id) => self.send_follow_up(time, id, reply),
            Context::DelayReq(id) => self.delay_stamp(time, id, reply),
            Context::PDelayReq(id) => self.peer_stamp(time, id, reply),
            Context::PDelayResp(id, requester) => {
                self.send_peer_follow_up(time, id, requester, reply)
            }
        }
    }

    fn filter(&mut self, mean: Option<i128>, next: Option<u64>, reply: &mut Reply) {
        if mean.is_some() {
            self.mean = mean;
        }
        if let Some(ns) = next {
            reply.set_timer(Action::FilterTimer { ns });
        }
    }

    /// Replaces the state even by the same one, so that Slave starts empty again. The
    /// peer exchange, the mean delay and the ids stand outside of it and stay.
    fn set_state(&mut self, new: NewState, reply: &mut Reply) {
        let was = matches!(self.state, State::Slave(_) | State::Faulty);
        self.state = match new {
            NewState::Listening => State::Listening,
            NewState::Master => State::Master,
            NewState::Passive => State::Passive,
            NewState::Faulty => State::Faulty,
            NewState::Slave(master) => State::Slave(Slave {
                master,
                sync: None,
                delay: None,
                raw: None,
            }),
        };
        reply.answer.reset = was || new == NewState::Faulty;
    }
}

/// Row 3, for what the event carries itself, whatever it would do with it.
fn is_in_limits(event: &Event) -> bool {
    match *event {
        Event::Event { time, .. } | Event::Stamp { time, .. } => time::is_time(time),
        Event::DelayTimer { draw } => time::is_draw(draw),
        _ => true,
    }
}
