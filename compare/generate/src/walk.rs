//! Random runs. The port that follows the log tells which ids are open and what was
//! sent, so that most events meet an exchange instead of passing it by.

use crate::build::{Message, TWO_STEP};
use crate::domain::Part;
use crate::owned::Owned;
use crate::random::Random;
use crate::stage::{Sink, Stage};
use crate::values::{self, Clock};
use plain::{Action, Config, Identity, NewState, Peer, State};

/// How many events wait to be played and how many are kept to be played again.
const WAITING: usize = 24;
const KEPT: usize = 16;

pub struct Walk {
    pub stage: Stage,
    pub part: Part,
    pub random: Random,
    pub clock: Clock,
    /// All identities of the log: few, so that they often meet.
    pub people: Vec<Identity>,
    /// Percent of events that set the state.
    restless: u64,
    /// The state that most changes lead to.
    home: u64,
    waiting: Vec<Owned>,
    kept: Vec<Owned>,
}

impl Walk {
    pub fn new(config: Config, part: Part, mut random: Random) -> Walk {
        let master = values::identity(&mut random);
        let mut near = master;
        near[random.index(10)] ^= 1 << random.below(8);
        let mut people = vec![master, near, config.identity];
        people.extend((0..2).map(|_| values::identity(&mut random)));
        Walk {
            stage: Stage::new(config),
            part,
            clock: Clock::new(&mut random),
            people,
            restless: random.pick(&[1, 1, 2, 4, 10]),
            home: random.below(8),
            waiting: Vec::new(),
            kept: Vec::new(),
            random,
        }
    }

    /// Plays on until the log holds so many events. A domain log whose values leave
    /// nothing to play would never get there, hence the bound on attempts.
    pub fn run(mut self, events: usize) -> Stage {
        let first = self.state();
        self.give(first);
        for _ in 0..events * 40 {
            if self.stage.events >= events {
                break;
            }
            let event = self.next();
            self.give(event);
        }
        self.stage
    }

    fn next(&mut self) -> Owned {
        if self.random.chance(self.restless) {
            return self.state();
        }
        if !self.waiting.is_empty() && self.random.chance(55) {
            let index = self.random.index(self.waiting.len());
            return self.waiting.swap_remove(index);
        }
        if !self.kept.is_empty() && self.random.chance(8) {
            let index = self.random.index(self.kept.len());
            return self.kept[index].clone();
        }
        self.fresh()
    }

    fn give(&mut self, event: Owned) {
        let answer = match self.part {
            Part::Domain => self.stage.offer(&event.lend()),
            Part::Beyond => Some(self.stage.play(&event.lend())),
        };
        let Some(answer) = answer else { return };
        for action in answer.actions.into_iter().flatten() {
            if let Action::SendEvent { context, .. } = action {
                self.answered(context);
            }
        }
        if self.kept.len() < KEPT {
            self.kept.push(event);
        } else {
            let index = self.random.index(KEPT);
            self.kept[index] = event;
        }
    }

    /// Keeps an event for later. Order of play is random, so it need not be kept.
    pub fn plan(&mut self, event: Owned) {
        if self.waiting.len() < WAITING {
            self.waiting.push(event);
        } else {
            let index = self.random.index(WAITING);
            self.waiting[index] = event;
        }
    }

    /// A change of state, mostly home.
    fn state(&mut self) -> Owned {
        let slave = NewState::Slave(self.person());
        let home = match self.home {
            0..=4 => slave,
            5..=6 => NewState::Master,
            _ => NewState::Passive,
        };
        let states = [
            NewState::Listening,
            NewState::Master,
            NewState::Passive,
            NewState::Faulty,
            slave,
        ];
        Owned::SetState(if self.random.chance(70) {
            home
        } else {
            self.random.pick(&states)
        })
    }

    /// Mostly the first, so that masters and responders stay the same for a while.
    pub fn person(&mut self) -> Identity {
        if self.random.chance(60) {
            self.people[0]
        } else {
            self.random.pick(&self.people)
        }
    }

    /// The master if there is one, now and then another.
    pub fn master(&mut self) -> Identity {
        match self.stage.port.state {
            State::Slave(slave) if self.random.chance(92) => slave.master,
            _ => self.person(),
        }
    }

    /// The responder if there is one, now and then another.
    pub fn responder(&mut self) -> Identity {
        let known = match self.stage.port.peer {
            Peer::Empty => None,
            Peer::Measuring { responder, .. } => responder,
            Peer::Measured { responder, .. } => Some(responder),
        };
        match known {
            Some(responder) if self.random.chance(85) => responder,
            _ => self.person(),
        }
    }

    /// Us, now and then another.
    pub fn us(&mut self) -> Identity {
        if self.random.chance(93) {
            self.stage.config.identity
        } else {
            self.person()
        }
    }

    /// The id given, now and then a neighbour or any.
    pub fn near(&mut self, id: u16) -> u16 {
        match self.random.below(20) {
            0 => id.wrapping_add(1),
            1 => id.wrapping_sub(1),
            2 => self.random.next() as u16,
            _ => id,
        }
    }

    /// Fills in what no rule reads (01, 'Wire form'; reading 15), and the numbers.
    pub fn dress(&mut self, message: Message) -> Message {
        let random = &mut self.random;
        let any = random.next() as u16;
        let others = random.pick(&[0, 0xFFFF, any]) & !TWO_STEP;
        let (seconds, nanoseconds) = self.clock.timestamp(random);
        let mut message = Message {
            flags: message.flags & TWO_STEP | others,
            minor: random.below(16) as u8,
            control: random.byte(),
            interval: random.byte(),
            reserved: random.pick(&[[0; 4], [0xFF; 4], [1, 2, 3, 4]]),
            correction: values::correction(random),
            seconds,
            nanoseconds,
            ..message
        };
        if random.chance(12) {
            let many = random.index(970);
            let count = random.pick(&[1, 2, 10, 20, many]);
            message.extra = random.bytes(count);
            if self.part == Part::Beyond && random.chance(40) {
                message = message.stating_all();
            }
        }
        message
    }
}

/// One random log of each part's kind, `events` long.
pub fn write(part: Part, seed: u64, number: u64, events: usize, sink: &mut Sink) -> usize {
    let purpose = if part == Part::Domain {
        "domain"
    } else {
        "beyond"
    };
    let mut random = Random::stream(seed, purpose, number);
    let config = values::config(&mut random);
    let stage = Walk::new(config, part, random).run(events);
    stage.finish(&format!("walk-{purpose}-{number:05}"), sink);
    stage.events
}
