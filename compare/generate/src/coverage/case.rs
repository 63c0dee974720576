//! One event as the rows see it, and the rows themselves.

use super::decode::Seen;
use super::history::{delay_of, sync_of, History};
use super::refusals::Refusals;
use super::sums::Sums;
use super::worked::guarded;
use plain::{Answer, Context, Event, Exchange, Identity, NewState, Peer, Port, Slave, State};

/// The record before and after, the event with its fields, and the answer.
pub struct Case<'a> {
    pub before: &'a Port,
    pub after: &'a Port,
    pub event: &'a Event<'a>,
    /// Fields of a message that has a whole header.
    pub seen: Option<Seen>,
    pub refusals: Refusals,
    pub sums: Sums,
    pub answer: &'a Answer,
    pub history: &'a History,
}

pub const STATES: [&str; 5] = ["Listening", "Master", "Passive", "Faulty", "Slave"];

pub fn state_number(state: &State) -> usize {
    match state {
        State::Listening => 0,
        State::Master => 1,
        State::Passive => 2,
        State::Faulty => 3,
        State::Slave(_) => 4,
    }
}

pub fn new_state_number(state: &NewState) -> usize {
    match state {
        NewState::Listening => 0,
        NewState::Master => 1,
        NewState::Passive => 2,
        NewState::Faulty => 3,
        NewState::Slave(_) => 4,
    }
}

impl Case<'_> {
    /// Answered 0.
    pub fn taken(&self) -> bool {
        self.answer.number == 0
    }

    pub fn number(&self, number: u8) -> bool {
        self.answer.number == number
    }

    /// A message of this type that rows 2 to 6 and 8 let through.
    pub fn reaches(&self, kind: u8) -> bool {
        self.refusals.first().is_none() && self.seen.as_ref().is_some_and(|seen| seen.kind == kind)
    }

    /// For rows of sections that hold whole messages only.
    pub fn seen(&self) -> &Seen {
        self.seen
            .as_ref()
            .expect("the section asks for a message with a header")
    }

    pub fn on_event(&self) -> bool {
        matches!(self.event, Event::Event { .. })
    }

    pub fn on_general(&self) -> bool {
        matches!(self.event, Event::General { .. })
    }

    pub fn message(&self) -> Option<&[u8]> {
        match self.event {
            Event::Event { message, .. } | Event::General { message } => Some(message),
            _ => None,
        }
    }

    pub fn time(&self) -> Option<u128> {
        match self.event {
            Event::Event { time, .. } | Event::Stamp { time, .. } => Some(*time),
            _ => None,
        }
    }

    pub fn context(&self) -> Option<Context> {
        match self.event {
            Event::Stamp { context, .. } => Some(*context),
            _ => None,
        }
    }

    pub fn state(&self) -> usize {
        state_number(&self.before.state)
    }

    pub fn slave(&self) -> Option<&Slave> {
        match &self.before.state {
            State::Slave(slave) => Some(slave),
            _ => None,
        }
    }

    /// Slave, and the message comes from its master.
    pub fn guarded(&self) -> bool {
        guarded(self.before, self.seen()).is_some()
    }

    pub fn to_us(&self) -> bool {
        self.seen().requester == self.before.config.identity
    }

    pub fn sync(&self) -> Option<Exchange> {
        sync_of(self.before)
    }

    pub fn delay(&self) -> Option<Exchange> {
        delay_of(self.before)
    }

    /// The open sync exchange if it has the id of the message.
    pub fn same_sync(&self) -> Option<Exchange> {
        self.sync().filter(|open| open.id == self.seen().id)
    }

    /// The open sync exchange if it has another id.
    pub fn other_sync(&self) -> Option<Exchange> {
        self.sync().filter(|open| open.id != self.seen().id)
    }

    pub fn peer_id(&self) -> Option<u16> {
        match self.before.peer {
            Peer::Empty => None,
            Peer::Measuring { id, .. } | Peer::Measured { id, .. } => Some(id),
        }
    }

    pub fn responder(&self) -> Option<Identity> {
        match self.before.peer {
            Peer::Empty => None,
            Peer::Measuring { responder, .. } => responder,
            Peer::Measured { responder, .. } => Some(responder),
        }
    }

    pub fn is_measuring(&self) -> bool {
        matches!(self.before.peer, Peer::Measuring { .. })
    }

    pub fn is_measured(&self) -> bool {
        matches!(self.before.peer, Peer::Measured { .. })
    }
}

/// The kind number of a stamp's context.
pub fn stamp_kind(case: &Case) -> Option<usize> {
    case.context().map(|context| match context {
        Context::Sync(_) => 0,
        Context::DelayReq(_) => 1,
        Context::PDelayReq(_) => 2,
        Context::PDelayResp(..) => 3,
    })
}

type Test = Box<dyn Fn(&Case) -> bool>;

/// A rule, and how often events of each part met it.
pub struct Row {
    pub name: String,
    pub test: Test,
    pub domain: u64,
    pub beyond: u64,
}

/// Rows that are tested for some events only.
pub struct Section {
    pub title: &'static str,
    pub when: fn(&Case) -> bool,
    pub rows: Vec<Row>,
}

impl Section {
    pub fn new(title: &'static str, when: fn(&Case) -> bool) -> Section {
        Section {
            title,
            when,
            rows: Vec::new(),
        }
    }

    pub fn add(&mut self, name: &str, test: impl Fn(&Case) -> bool + 'static) {
        let name = format!("{}: {name}", self.title);
        self.rows.push(Row {
            name,
            test: Box::new(test),
            domain: 0,
            beyond: 0,
        });
    }

    /// The same row once for each state before the event.
    pub fn add_states(&mut self, name: &str, states: &[usize], test: fn(&Case) -> bool) {
        for state in states.iter().copied() {
            let name = format!("{name}, {}", STATES[state]);
            self.add(&name, move |case| case.state() == state && test(case));
        }
    }

    /// The same row once for each entry.
    pub fn add_entries(&mut self, name: &str, test: impl Fn(&Case) -> bool + Copy + 'static) {
        self.add(&format!("{name}, event entry"), move |case| {
            case.on_event() && test(case)
        });
        self.add(&format!("{name}, general entry"), move |case| {
            case.on_general() && test(case)
        });
    }
}
