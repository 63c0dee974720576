//! The lines that `replay` and `trace` write.

use crate::out::Lines;
use crate::{
    Action, Answer, Context, Exchange, Identity, Kind, Measurement, Peer, PeerTimes, Port, State,
};
use std::io::{self, Write};

impl<W: Write> Lines<W> {
    /// What both programs write of an answer.
    pub fn replay_line(&mut self, number: u64, answer: &Answer) -> io::Result<()> {
        self.room()?;
        self.four_fields(number, answer);
        self.byte(b'\n');
        Ok(())
    }

    /// Every part of an answer, `packet` being the bytes it sends.
    pub fn trace_line(&mut self, number: u64, answer: &Answer, packet: &[u8]) -> io::Result<()> {
        self.room()?;
        self.four_fields(number, answer);
        self.byte(b' ');
        let measurement = answer.measurement.as_ref();
        self.optional_hex(measurement.map(|m| m.event_time));
        self.byte(b' ');
        self.optional_hex(measurement.and_then(|m| m.offset).map(bits));
        self.byte(b' ');
        self.optional_hex(measurement.and_then(|m| m.delay).map(bits));
        self.byte(b' ');
        match packet {
            [] => self.byte(b'-'),
            packet => self.hex(packet),
        }
        self.byte(b' ');
        self.actions(&answer.actions);
        if answer.reset {
            self.text(b" reset\n");
        } else {
            self.text(b" -\n");
        }
        Ok(())
    }

    /// The last line of a trace.
    pub fn end_line(&mut self, port: &Port) -> io::Result<()> {
        self.room()?;
        let (number, slave) = match &port.state {
            State::Listening => (b'0', None),
            State::Master => (b'1', None),
            State::Passive => (b'2', None),
            State::Faulty => (b'3', None),
            State::Slave(slave) => (b'4', Some(slave)),
        };
        self.text(b"end ");
        self.byte(number);
        self.byte(b' ');
        self.identity(slave.map(|slave| slave.master));
        self.byte(b' ');
        self.exchange(slave.and_then(|slave| slave.sync));
        self.byte(b' ');
        self.exchange(slave.and_then(|slave| slave.delay));
        self.byte(b' ');
        self.optional_hex(slave.and_then(|slave| slave.raw).map(bits));
        self.byte(b' ');
        self.peer(&port.peer);
        self.byte(b' ');
        self.optional_hex(port.mean.map(bits));
        let ids = [port.sync_id, port.delay_id, port.peer_id];
        for (separator, id) in [b' ', b':', b':'].into_iter().zip(ids) {
            self.byte(separator);
            self.decimal(u64::from(id));
        }
        self.byte(b'\n');
        Ok(())
    }

    pub fn bad_line(&mut self, offset: u64) -> io::Result<()> {
        self.room()?;
        self.text(b"bad at ");
        self.decimal(offset);
        self.byte(b'\n');
        Ok(())
    }

    fn four_fields(&mut self, number: u64, answer: &Answer) {
        self.decimal(number);
        self.text(&[b' ', b'0' + answer.number, b' ']);
        let Some(Measurement { kind, value, .. }) = answer.measurement else {
            return self.text(b"- -");
        };
        self.text(match kind {
            Kind::Sync => b"S ",
            Kind::Delay => b"D ",
            Kind::Peer => b"P ",
        });
        self.number(bits(value));
    }

    fn actions(&mut self, actions: &[Option<Action>; 2]) {
        match actions {
            [None, _] => self.byte(b'-'),
            [Some(first), second] => {
                self.action(first);
                if let Some(second) = second {
                    self.byte(b',');
                    self.action(second);
                }
            }
        }
    }

    fn action(&mut self, action: &Action) {
        let link = match *action {
            Action::SyncTimer { ns } => return self.timer(b"sync-timer:", ns),
            Action::DelayTimer { ns } => return self.timer(b"delay-timer:", ns),
            Action::FilterTimer { ns } => return self.timer(b"filter-timer:", ns),
            Action::SendEvent { context, link } => {
                self.context(context);
                link
            }
            Action::SendGeneral { link } => {
                self.text(b"general");
                link
            }
        };
        if link {
            self.text(b":link");
        }
    }

    fn timer<const N: usize>(&mut self, name: &[u8; N], ns: u64) {
        self.text(name);
        self.decimal(ns);
    }

    fn context(&mut self, context: Context) {
        let (kind, id, identity) = match context {
            Context::Sync(id) => (b"event:0:", id, None),
            Context::DelayReq(id) => (b"event:1:", id, None),
            Context::PDelayReq(id) => (b"event:2:", id, None),
            Context::PDelayResp(id, identity) => (b"event:3:", id, Some(identity)),
        };
        self.text(kind);
        self.decimal(u64::from(id));
        if let Some(identity) = identity {
            self.byte(b':');
            self.hex(&identity);
        }
    }

    fn exchange(&mut self, exchange: Option<Exchange>) {
        let Some(Exchange { id, send, receive }) = exchange else {
            return self.byte(b'-');
        };
        self.decimal(u64::from(id));
        for time in [send, receive] {
            self.byte(b':');
            self.optional_hex(time);
        }
    }

    fn peer(&mut self, peer: &Peer) {
        let (name, id, responder, times) = match *peer {
            Peer::Empty => return self.byte(b'-'),
            Peer::Measuring {
                id,
                responder,
                times,
            } => (b"open:", id, responder, Some(times)),
            Peer::Measured { id, responder } => (b"done:", id, Some(responder), None),
        };
        self.text(name);
        self.decimal(u64::from(id));
        self.byte(b':');
        self.identity(responder);
        if let Some(times) = times {
            self.peer_times(&times);
        }
    }

    fn peer_times(&mut self, times: &PeerTimes) {
        let requests = [times.request_send, times.request_receive];
        let responses = [times.response_send, times.response_receive];
        for time in requests.into_iter().chain(responses) {
            self.byte(b':');
            self.optional_hex(time);
        }
    }

    fn identity(&mut self, identity: Option<Identity>) {
        match identity {
            Some(identity) => self.hex(&identity),
            None => self.byte(b'-'),
        }
    }

    fn optional_hex(&mut self, value: Option<u128>) {
        match value {
            Some(value) => self.number(value),
            None => self.byte(b'-'),
        }
    }
}

/// A duration in two's complement.
fn bits(duration: i128) -> u128 {
    duration as u128
}
