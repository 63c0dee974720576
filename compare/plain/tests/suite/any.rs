//! Any record, any event, any buffer: nothing panics, and a refusal leaves no trace.

use crate::common::*;
use plain::*;

/// A small generator of numbers that leans towards edges.
struct Dice(u64);

impl Dice {
    fn next(&mut self) -> u64 {
        self.0 ^= self.0 << 13;
        self.0 ^= self.0 >> 7;
        self.0 ^= self.0 << 17;
        self.0
    }

    fn below(&mut self, end: u64) -> u64 {
        self.next() % end
    }

    fn one_in(&mut self, chances: u64) -> bool {
        self.below(chances) == 0
    }

    fn number(&mut self) -> u128 {
        let wide = u128::from(self.next()) << 64 | u128::from(self.next());
        match self.below(10) {
            0 => wide,
            1 => LAST - (wide >> 120),
            2 => LAST + (wide >> 120),
            3 => wide >> 1,
            4 => u128::MAX - (wide >> 110),
            _ => wide >> 60,
        }
    }

    fn time(&mut self) -> u128 {
        let number = self.number();
        if self.one_in(20) {
            number
        } else {
            number & LAST
        }
    }

    fn maybe<T>(&mut self, make: impl Fn(&mut Dice) -> T) -> Option<T> {
        (!self.one_in(3)).then(|| make(self))
    }

    fn id(&mut self) -> u16 {
        [0, 0, 1, 65535][self.below(4) as usize]
    }

    fn identity(&mut self) -> Identity {
        [US, MASTER, MASTER, OTHER][self.below(4) as usize]
    }

    /// Mostly with one time, so that the next event can complete it.
    fn exchange(&mut self) -> Exchange {
        let pattern = [1, 1, 2, 2, 0, 3][self.below(6) as usize];
        Exchange {
            id: self.id(),
            send: (pattern & 1 != 0).then(|| self.time()),
            receive: (pattern & 2 != 0).then(|| self.time()),
        }
    }

    fn state(&mut self) -> State {
        match self.below(8) {
            0 => State::Listening,
            1 => State::Master,
            2 => State::Passive,
            3 => State::Faulty,
            _ => State::Slave(Slave {
                master: self.identity(),
                sync: self.maybe(Dice::exchange),
                delay: self.maybe(Dice::exchange),
                raw: self.maybe(Dice::number).map(|raw| raw as i128),
            }),
        }
    }

    fn peer(&mut self) -> Peer {
        match self.below(5) {
            0 => Peer::Empty,
            1 => Peer::Measured {
                id: self.id(),
                responder: self.identity(),
            },
            _ => {
                let pattern = [14, 11, 7, self.below(16)][self.below(4) as usize];
                let times = [1, 2, 4, 8].map(|bit| (pattern & bit != 0).then(|| self.time()));
                Peer::Measuring {
                    id: self.id(),
                    responder: (!self.one_in(10)).then(|| self.identity()),
                    times: PeerTimes {
                        request_send: times[0],
                        request_receive: times[1],
                        response_send: times[2],
                        response_receive: times[3],
                    },
                }
            }
        }
    }

    fn port(&mut self) -> Port {
        let mechanism = [Mechanism::EndToEnd, Mechanism::Peer][self.below(2) as usize];
        let mut config = config(mechanism);
        config.asymmetry = self.number() as i128;
        if self.one_in(20) {
            config.sync_interval = self.next() as i8;
            config.delay_interval = self.next() as i8;
            config.minor = self.next() as u8 & 3;
            config.sdo = self.next() as u16;
        }
        Port {
            config,
            state: self.state(),
            peer: self.peer(),
            mean: self.maybe(Dice::number).map(|mean| mean as i128),
            sync_id: self.id(),
            delay_id: self.id(),
            peer_id: self.id(),
        }
    }

    fn message(&mut self) -> Vec<u8> {
        let mut message = Wire::new(self.below(16) as u8).id(self.id());
        message = message.from(self.identity());
        if message.raw().len() > 34 {
            message = message.at(self.next());
        }
        if self.one_in(2) {
            message = message.two_step();
        }
        if self.one_in(2) {
            let wide = self.next() as i64;
            message =
                message.correct([wide, wide >> 40, i64::MIN, i64::MAX][self.below(4) as usize]);
        }
        let mut bytes = message.raw().to_vec();
        if self.one_in(8) {
            let at = self.below(bytes.len() as u64) as usize;
            bytes[at] ^= self.next() as u8;
        }
        if self.one_in(10) {
            bytes.truncate(self.below(60) as usize);
        }
        bytes
    }
}

fn event<'a>(dice: &mut Dice, message: &'a [u8]) -> Event<'a> {
    let time = dice.time();
    match dice.below(10) {
        0..=3 => Event::Event { time, message },
        4 | 5 => Event::General { message },
        6 => Event::Stamp {
            time,
            context: match dice.below(4) {
                0 => Context::Sync(dice.id()),
                1 => Context::DelayReq(dice.id()),
                2 => Context::PDelayReq(dice.id()),
                _ => Context::PDelayResp(dice.id(), dice.identity()),
            },
        },
        7 => Event::SyncTimer,
        8 => Event::DelayTimer {
            draw: dice.next() >> dice.below(15),
        },
        _ => Event::Filter {
            mean: dice.maybe(Dice::number).map(|mean| mean as i128),
            next: dice.maybe(Dice::next),
        },
    }
}

#[test]
fn any_record_any_event_any_buffer() {
    let mut dice = Dice(0x1234_5678_9ABC_DEF1);
    let mut seen = [0u32; 9];
    let mut measured = 0;
    for _ in 0..400_000 {
        let mut port = dice.port();
        let message = dice.message();
        let event = event(&mut dice, &message);
        let short = dice.one_in(50);
        let size = dice.below(64) as usize + if short { 0 } else { 64 };
        let (before, mut packet) = (port, vec![0x5A; size]);
        let answer = port.handle(&event, &mut packet);
        seen[usize::from(answer.number)] += 1;
        measured += u32::from(answer.measurement.is_some());
        if answer.number != 0 {
            assert_eq!(answer, nothing(answer.number));
            assert_eq!((port, packet), (before, vec![0x5A; size]));
            continue;
        }
        assert!(packet[answer.length..].iter().all(|byte| *byte == 0x5A));
        assert!(answer.actions[0].is_some() || answer.actions[1].is_none());
        // What the rules leave behind is fit again.
        let again = act(&mut port, Event::SetState(NewState::Listening));
        assert_eq!(again.number, 0, "{before:?} {event:?}");
    }
    assert!(seen.iter().all(|count| *count > 100), "{seen:?}");
    assert!(measured > 1000, "{measured}");
}
