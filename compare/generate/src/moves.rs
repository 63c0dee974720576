//! What a random run can do next.

use crate::build::Message;
use crate::domain::Part;
use crate::owned::Owned;
use crate::values;
use crate::walk::Walk;
use plain::{Context, Mechanism, Peer, State};

impl Walk {
    /// An event that was not planned. What would do nothing in this state comes less
    /// often, and a new request more often when none is open.
    pub fn fresh(&mut self) -> Owned {
        let port = self.stage.port;
        let (slave, open) = match port.state {
            State::Slave(slave) => (true, slave.delay.is_some()),
            _ => (false, false),
        };
        let peer = port.config.mechanism == Mechanism::Peer;
        let open = open || matches!(port.peer, Peer::Measuring { .. });
        let sync = if slave { 28 } else { 5 };
        let request = match (slave || peer, open) {
            (false, _) => 4,
            (true, true) => 8,
            (true, false) => 24,
        };
        let sync_timer = if port.state == State::Master { 20 } else { 3 };
        match self
            .random
            .weighted(&[sync, request, sync_timer, 10, 8, 7, 15, 12])
        {
            0 => self.begin_sync(),
            1 => self.delay_timer(),
            2 => Owned::SyncTimer,
            3 => self.request(),
            4 => self.filter(),
            5 => self.stray_stamp(),
            6 => self.stray_message(),
            _ => self.broken_message(),
        }
    }

    fn time(&mut self) -> u128 {
        if self.part == Part::Beyond && self.random.chance(1) {
            return values::time_beyond(&mut self.random);
        }
        self.clock.time(&mut self.random)
    }

    /// On the entry that its type belongs to, seldom on the other.
    fn enter(&mut self, message: Message) -> Owned {
        let message = self.dress(message);
        let general = message.kind >= 8;
        self.enter_bytes(general, message.to_bytes())
    }

    fn enter_bytes(&mut self, general: bool, message: Vec<u8>) -> Owned {
        if general != self.random.chance(6) {
            Owned::General { message }
        } else {
            Owned::Event {
                time: self.time(),
                message,
            }
        }
    }

    /// A Sync, one-step or two-step; its FollowUp is planned, or comes first.
    fn begin_sync(&mut self) -> Owned {
        let config = self.stage.config;
        let source = self.master();
        let id = self.sync_id();
        let sync = Message::sync(&config, source, id);
        let one_step = self.random.chance(30);
        if one_step && self.random.chance(85) {
            return self.enter(sync);
        }
        let id = self.near(id);
        let follow_up = self.enter(Message::follow_up(&config, source, id));
        let sync = self.enter(if one_step { sync } else { sync.two_step() });
        let (first, second) = if self.random.chance(50) {
            (sync, follow_up)
        } else {
            (follow_up, sync)
        };
        self.plan(second);
        first
    }

    /// The open id or one of the next.
    fn sync_id(&mut self) -> u16 {
        let open = match self.stage.port.state {
            State::Slave(slave) => slave.sync.map(|exchange| exchange.id),
            _ => None,
        };
        match open {
            Some(id) if self.random.chance(25) => id,
            Some(id) => id.wrapping_add(self.random.between(1, 3) as u16),
            None => self.random.next() as u16,
        }
    }

    fn delay_timer(&mut self) -> Owned {
        let beyond = self.part == Part::Beyond && self.random.chance(5);
        let draw = if beyond {
            values::draw_beyond
        } else {
            values::draw
        };
        Owned::DelayTimer {
            draw: draw(&mut self.random),
        }
    }

    /// A request that another port sends us.
    fn request(&mut self) -> Owned {
        let (config, source) = (self.stage.config, self.person());
        let id = self.random.pick(&[0, 1, 65_535, self.stage.port.delay_id]);
        let kind = self.random.pick(&[1, 2]);
        self.enter(Message::of(kind, &config, source, id))
    }

    fn filter(&mut self) -> Owned {
        let wild = self.random.chance(5);
        let mean = values::duration(&mut self.random, wild);
        let next = self.random.of_bits(64) as u64;
        let next = self.random.pick(&[0, 1, u64::MAX, next, next]);
        Owned::Filter {
            mean: self.random.chance(50).then_some(mean),
            next: self.random.chance(50).then_some(next),
        }
    }

    fn stray_stamp(&mut self) -> Owned {
        let port = self.stage.port;
        let open = match port.peer {
            Peer::Measuring { id, .. } | Peer::Measured { id, .. } => id,
            Peer::Empty => 0,
        };
        let context = match self.random.below(4) {
            0 => Context::Sync(self.near(port.sync_id.wrapping_sub(1))),
            1 => Context::DelayReq(self.near(port.delay_id.wrapping_sub(1))),
            2 => Context::PDelayReq(self.near(open)),
            _ => Context::PDelayResp(self.near(open), self.person()),
        };
        Owned::Stamp {
            time: self.time(),
            context,
        }
    }

    /// Any type from anyone to anyone, mostly with an id that is open.
    fn stray_message(&mut self) -> Owned {
        let message = self.any_message();
        let general = self.random.chance(50);
        let bytes = self.dress(message).to_bytes();
        self.enter_bytes(general, bytes)
    }

    fn any_message(&mut self) -> Message {
        let kind = self.random.pick(&[0, 1, 2, 3, 3, 8, 9, 10, 10]);
        let port = self.stage.port;
        let open = match (kind, port.peer) {
            (0 | 8, _) => self.sync_id(),
            (3 | 10, Peer::Measuring { id, .. } | Peer::Measured { id, .. }) => id,
            _ => port.delay_id.wrapping_sub(1),
        };
        let id = self.near(open);
        let source = if matches!(kind, 3 | 10) {
            self.responder()
        } else {
            self.master()
        };
        let requester = self.us();
        let message = Message::of(kind, &port.config, source, id).with_requester(requester);
        if self.random.chance(50) {
            message.two_step()
        } else {
            message
        }
    }

    /// What our own event message brings about: its stamp, and answers to it.
    pub fn answered(&mut self, context: Context) {
        let time = self.time();
        if self.random.chance(92) {
            self.plan(Owned::Stamp { time, context });
        }
        match context {
            Context::DelayReq(id) => self.plan_delay(id),
            Context::PDelayReq(id) => self.plan_peer(id),
            _ => {}
        }
    }

    fn plan_delay(&mut self, id: u16) {
        for _ in 0..self.random.pick(&[0, 1, 1, 1, 1, 2]) {
            let (config, source, id, us) =
                (self.stage.config, self.master(), self.near(id), self.us());
            let response = self.enter(Message::delay_resp(&config, source, id, us));
            self.plan(response);
        }
    }

    /// One responder in most cases, two now and then.
    fn plan_peer(&mut self, id: u16) {
        let config = self.stage.config;
        for _ in 0..self.random.pick(&[0, 1, 1, 1, 1, 1, 1, 1, 2]) {
            let (source, us) = (self.person(), self.us());
            let (first, second) = (self.near(id), self.near(id));
            let response = Message::pdelay_resp(&config, source, first, us);
            let two_step = self.random.chance(60);
            let response = self.enter(if two_step {
                response.two_step()
            } else {
                response
            });
            self.plan(response);
            if two_step || self.random.chance(25) {
                let message = Message::pdelay_resp_follow_up(&config, source, second, us);
                let follow_up = self.enter(message);
                self.plan(follow_up);
            }
        }
    }

    /// A message that rows 4, 5, 6 or 8 speak of, or one close to it.
    fn broken_message(&mut self) -> Owned {
        let mut message = self.any_message();
        let general = message.kind >= 8;
        match self.random.below(8) {
            0 => message.version = self.random.below(16) as u8,
            1 => message.sdo ^= 1 << self.random.below(12),
            2 => message.domain ^= 1 << self.random.below(8),
            3 => message.kind = self.random.pick(&[4, 5, 6, 7, 11, 12, 13, 14, 15]),
            4 => message.length = Some(self.stated()),
            _ => {}
        }
        let mut bytes = self.dress(message).to_bytes();
        match self.random.below(8) {
            0 => bytes.truncate(self.random.index(bytes.len() + 1)),
            1 => bytes[self.random.index(44)] ^= 1 << self.random.below(8),
            2 => {
                let count = self.random.index(80);
                bytes = self.random.bytes(count);
            }
            _ => {}
        }
        self.enter_bytes(general, bytes)
    }

    fn stated(&mut self) -> u16 {
        let any = self.random.next() as u16;
        self.random.pick(&[
            0,
            33,
            34,
            43,
            44,
            45,
            53,
            54,
            55,
            1024,
            65_535,
            any,
            any % 64,
        ])
    }
}
