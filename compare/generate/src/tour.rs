//! A tour of every situation the record can be in, with every kind of event in each.
//!
//! A situation is the record without its numbers: the state, which times stand, whether
//! there is a last raw offset, a mean delay, a responder. Events are chosen relative to
//! the record (the open id or another, the known responder or a second one), so that
//! the next situation follows from situation and event alone. The tour goes on until
//! each event has been played in each situation that can be reached.

use crate::stage::{config_of, Sink, Stage};
use crate::tour_moves::{event_of, moves, Move};
use plain::{Mechanism, Peer, Port, State};
use std::collections::{BTreeMap, BTreeSet, VecDeque};

/// Events of one log; then the tour starts anew from a fresh port.
const EVENTS: usize = 2_000;
/// More logs than the tour needs. A port that does not do the same in the same
/// situation would keep it going for ever.
const LOGS: usize = 100;

/// The record without its numbers.
type Situation = Vec<u8>;

fn situation(port: &Port) -> Situation {
    let some = |there: bool| u8::from(there);
    let mut all = match &port.state {
        State::Listening => vec![0],
        State::Master => vec![1],
        State::Passive => vec![2],
        State::Faulty => vec![3],
        State::Slave(slave) => {
            let mut all = vec![4, some(slave.raw.is_some())];
            for open in [slave.sync, slave.delay] {
                all.push(some(open.is_some()));
                all.push(some(open.is_some_and(|open| open.send.is_some())));
                all.push(some(open.is_some_and(|open| open.receive.is_some())));
            }
            all
        }
    };
    all.push(some(port.mean.is_some()));
    match &port.peer {
        Peer::Empty => all.push(2),
        Peer::Measured { .. } => all.push(3),
        Peer::Measuring {
            responder, times, ..
        } => {
            let stand = [
                times.request_send,
                times.request_receive,
                times.response_send,
                times.response_receive,
            ];
            all.push(some(responder.is_some()));
            all.extend(stand.map(|time| some(time.is_some())));
        }
    }
    all
}

/// What is known so far: for each situation, where each move leads.
struct Map {
    moves: Vec<Move>,
    known: BTreeMap<Situation, Vec<Option<Situation>>>,
}

impl Map {
    fn visit(&mut self, at: &Situation) {
        let count = self.moves.len();
        self.known
            .entry(at.clone())
            .or_insert_with(|| vec![None; count]);
    }

    /// The moves to the nearest untried one, itself included; none if all are tried.
    fn route(&self, from: &Situation) -> Vec<usize> {
        let mut seen = BTreeSet::from([from]);
        let mut queue = VecDeque::from([(from, Vec::new())]);
        while let Some((at, route)) = queue.pop_front() {
            let Some(leads) = self.known.get(at) else {
                continue;
            };
            for (number, to) in leads.iter().enumerate() {
                let next = || [route.as_slice(), &[number]].concat();
                match to {
                    None => return next(),
                    Some(to) if seen.insert(to) => queue.push_back((to, next())),
                    Some(_) => {}
                }
            }
        }
        Vec::new()
    }
}

pub fn write(sink: &mut Sink) {
    for mechanism in [Mechanism::EndToEnd, Mechanism::Peer] {
        let mut map = Map {
            moves: moves(),
            known: BTreeMap::new(),
        };
        for number in 0..LOGS {
            let mut stage = Stage::new(config_of(mechanism));
            let more = leg(&mut map, &mut stage);
            stage.finish(&format!("tour-{mechanism:?}-{number:02}"), sink);
            if !more {
                break;
            }
        }
    }
}

/// Plays one log; false if nothing is left to try.
fn leg(map: &mut Map, stage: &mut Stage) -> bool {
    while stage.events < EVENTS {
        let start = situation(&stage.port);
        map.visit(&start);
        let route = map.route(&start);
        if route.is_empty() {
            return false;
        }
        for number in route {
            let from = situation(&stage.port);
            let event = event_of(stage, map.moves[number]);
            stage.play(&event.lend());
            let to = situation(&stage.port);
            map.visit(&to);
            if let Some(leads) = map.known.get_mut(&from) {
                leads[number] = Some(to);
            }
        }
    }
    true
}
