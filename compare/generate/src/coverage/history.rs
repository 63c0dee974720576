//! What the record alone does not tell: in which order an exchange got its events, and
//! what came between them.

use super::decode::Seen;
use plain::{Answer, Context, Event, Exchange, Kind, Port, State};

/// The way of one exchange so far.
#[derive(Clone, Debug, Default, PartialEq, Eq)]
pub struct Track {
    /// A letter for each event that gave it a time: S two-step Sync, 1 one-step Sync,
    /// F FollowUp; T stamp, R DelayResp; P two-step peer response, O one-step, U its
    /// follow-up.
    pub order: String,
    /// An event for it was answered 7, and it stayed open.
    pub seven: bool,
    /// A message was answered 4, 5, 6 or 8 meanwhile.
    pub refused: bool,
}

#[derive(Clone, Debug, Default)]
pub struct History {
    sync: Track,
    delay: Track,
    peer: Track,
    /// The exchange that this event completed.
    pub completed: Option<(Kind, Track)>,
    /// The id of the sync exchange that was completed last, before this event.
    pub last_sync: Option<u16>,
    /// The same with this event, to be moved there.
    next_sync: Option<u16>,
    /// Whether Faulty came of a second responder and not of the host.
    pub second: bool,
    /// Whether the sync, delay and peer ids have gone past 65535.
    pub wrapped: [bool; 3],
}

pub fn sync_of(port: &Port) -> Option<Exchange> {
    match port.state {
        State::Slave(slave) => slave.sync,
        _ => None,
    }
}

pub fn delay_of(port: &Port) -> Option<Exchange> {
    match port.state {
        State::Slave(slave) => slave.delay,
        _ => None,
    }
}

/// Which exchange an event speaks to, and its letter.
fn letter(event: &Event, seen: Option<&Seen>) -> Option<(Kind, char)> {
    match (event, seen) {
        (
            Event::Stamp {
                context: Context::DelayReq(_),
                ..
            },
            _,
        ) => Some((Kind::Delay, 'T')),
        (
            Event::Stamp {
                context: Context::PDelayReq(_),
                ..
            },
            _,
        ) => Some((Kind::Peer, 'T')),
        (_, Some(seen)) => match (seen.kind, seen.two_step()) {
            (0, true) => Some((Kind::Sync, 'S')),
            (0, false) => Some((Kind::Sync, '1')),
            (8, _) => Some((Kind::Sync, 'F')),
            (9, _) => Some((Kind::Delay, 'R')),
            (3, true) => Some((Kind::Peer, 'P')),
            (3, false) => Some((Kind::Peer, 'O')),
            (10, _) => Some((Kind::Peer, 'U')),
            _ => None,
        },
        _ => None,
    }
}

impl History {
    fn track(&mut self, kind: Kind) -> &mut Track {
        match kind {
            Kind::Sync => &mut self.sync,
            Kind::Delay => &mut self.delay,
            Kind::Peer => &mut self.peer,
        }
    }

    /// Takes in one event, before its rows are tested.
    pub fn note(
        &mut self,
        before: &Port,
        after: &Port,
        event: &Event,
        seen: Option<&Seen>,
        answer: &Answer,
    ) {
        (self.completed, self.last_sync) = (None, self.next_sync);
        self.ids(before, after);
        match event {
            Event::SetState(_) => self.second = false,
            _ => self.second |= answer.reset && after.state == State::Faulty,
        }
        let spoken = letter(event, seen);
        match (answer.number, spoken) {
            (4 | 5 | 6 | 8, _) => self.each(|track| track.refused = true),
            (7, Some((kind, _))) => self.track(kind).seven = true,
            (0, Some((kind, letter))) => self.step(before, after, kind, letter, seen, answer),
            (0, None) => self.restart(event),
            _ => {}
        }
    }

    fn ids(&mut self, before: &Port, after: &Port) {
        let pairs = [
            (before.sync_id, after.sync_id),
            (before.delay_id, after.delay_id),
            (before.peer_id, after.peer_id),
        ];
        for (wrapped, pair) in self.wrapped.iter_mut().zip(pairs) {
            *wrapped |= pair == (65_535, 0);
        }
    }

    fn each(&mut self, change: fn(&mut Track)) {
        [&mut self.sync, &mut self.delay, &mut self.peer]
            .into_iter()
            .for_each(change);
    }

    /// A request begins a new exchange; a new state empties sync and delay.
    fn restart(&mut self, event: &Event) {
        match event {
            Event::DelayTimer { .. } => {
                (self.delay, self.peer) = (Track::default(), Track::default());
            }
            Event::SetState(_) => {
                (self.sync, self.delay) = (Track::default(), Track::default());
            }
            _ => {}
        }
    }

    fn step(
        &mut self,
        before: &Port,
        after: &Port,
        kind: Kind,
        letter: char,
        seen: Option<&Seen>,
        answer: &Answer,
    ) {
        let changed = match kind {
            Kind::Sync => sync_of(before) != sync_of(after),
            Kind::Delay => delay_of(before) != delay_of(after),
            Kind::Peer => before.peer != after.peer,
        };
        let measured = answer.measurement.is_some_and(|found| found.kind == kind);
        if !changed && !measured {
            return;
        }
        let id = seen.map(|seen| seen.id);
        if kind == Kind::Sync && sync_of(before).map(|open| open.id) != id {
            self.sync = Track::default();
        }
        self.track(kind).order.push(letter);
        if measured {
            let track = std::mem::take(self.track(kind));
            self.completed = Some((kind, track));
            if kind == Kind::Sync {
                self.next_sync = id;
            }
        }
    }
}
