//! The events of the tour, chosen relative to the record.

use crate::build::{units, Message, TWO_STEP};
use crate::owned::Owned;
use crate::stage::{Stage, MASTER, OTHER, OWN, RESPONDER, RIVAL, STATES};
use plain::{Context, Identity, NewState, Peer, State};

#[derive(Clone, Copy, Debug)]
pub enum Move {
    State(NewState),
    SyncTimer,
    DelayTimer,
    Filter(bool, bool),
    Stamp { kind: u8, same: bool },
    Message(Shape),
}

/// A message relative to the record.
#[derive(Clone, Copy, Debug)]
pub struct Shape {
    kind: u8,
    /// From the master or the known responder.
    known: bool,
    /// To us.
    ours: bool,
    /// With the id that is open.
    same: bool,
    two_step: bool,
    general: bool,
}

fn messages() -> Vec<Move> {
    let mut all = Vec::new();
    for kind in [0, 1, 2, 3, 8, 9, 10] {
        for bits in 0..32u8 {
            let bit = |place: u8| bits >> place & 1 == 1;
            let (known, ours, same) = (bit(0), bit(1), bit(2));
            let (two_step, general) = (bit(3), bit(4));
            // Variants that differ in nothing that the type holds are left out.
            let addressed = matches!(kind, 3 | 9 | 10) || ours;
            let stepped = matches!(kind, 0 | 3) || two_step;
            let request = !matches!(kind, 1 | 2) || (known && same);
            // On the entry it does not belong to, those to us are enough.
            let entry = (kind >= 8) == general || ours;
            if addressed && stepped && request && entry {
                all.push(Move::Message(Shape {
                    kind,
                    known,
                    ours,
                    same,
                    two_step,
                    general,
                }));
            }
        }
    }
    all
}

pub fn moves() -> Vec<Move> {
    let mut all = messages();
    all.extend(STATES.map(Move::State));
    all.extend([Move::SyncTimer, Move::DelayTimer]);
    for bits in 0..8 {
        all.push(Move::Stamp {
            kind: bits / 2,
            same: bits % 2 == 1,
        });
    }
    for bits in 0..4 {
        all.push(Move::Filter(bits / 2 == 1, bits % 2 == 1));
    }
    all
}

fn sync_id(stage: &Stage) -> u16 {
    match stage.port.state {
        State::Slave(slave) => slave.sync.map_or(stage.events as u16, |open| open.id),
        _ => stage.events as u16,
    }
}

fn peer_id(stage: &Stage) -> u16 {
    match stage.port.peer {
        Peer::Empty => 0,
        Peer::Measuring { id, .. } | Peer::Measured { id, .. } => id,
    }
}

fn time(stage: &Stage) -> u128 {
    units(1_000_000 + stage.events as u128 * 1_001) + stage.events as u128 * 0x0BAD_CAFE % (1 << 32)
}

pub fn event_of(stage: &Stage, chosen: Move) -> Owned {
    match chosen {
        Move::State(state) => Owned::SetState(state),
        Move::SyncTimer => Owned::SyncTimer,
        Move::DelayTimer => Owned::DelayTimer {
            draw: stage.events as u64,
        },
        Move::Filter(mean, next) => Owned::Filter {
            mean: mean.then_some(stage.events as i128 - 500),
            next: next.then_some(stage.events as u64),
        },
        Move::Stamp { kind, same } => {
            let port = &stage.port;
            let id = |id: u16| if same { id } else { id.wrapping_add(1) };
            let context = match kind {
                0 => Context::Sync(id(port.sync_id.wrapping_sub(1))),
                1 => Context::DelayReq(id(port.delay_id.wrapping_sub(1))),
                2 => Context::PDelayReq(id(peer_id(stage))),
                _ => Context::PDelayResp(id(4), OTHER),
            };
            Owned::Stamp {
                time: time(stage),
                context,
            }
        }
        Move::Message(shape) => message_of(stage, shape),
    }
}

/// The known responder or a second one, the master or another.
fn source_of(stage: &Stage, kind: u8, known: bool) -> Identity {
    if !matches!(kind, 3 | 10) {
        return if known { MASTER } else { OTHER };
    }
    let responder = match stage.port.peer {
        Peer::Measuring { responder, .. } => responder.unwrap_or(RESPONDER),
        Peer::Measured { responder, .. } => responder,
        Peer::Empty => RESPONDER,
    };
    match (known, responder == RIVAL) {
        (true, _) => responder,
        (false, true) => RESPONDER,
        (false, false) => RIVAL,
    }
}

fn message_of(stage: &Stage, shape: Shape) -> Owned {
    let open = match shape.kind {
        3 | 10 => peer_id(stage),
        9 => stage.port.delay_id.wrapping_sub(1),
        _ => sync_id(stage),
    };
    let id = open.wrapping_add(u16::from(!shape.same));
    let source = source_of(stage, shape.kind, shape.known);
    let message = Message::of(shape.kind, &stage.config, source, id)
        .with_requester(if shape.ours { OWN } else { OTHER })
        .with_flags(if shape.two_step { TWO_STEP } else { 0 })
        .with_ns(1_000_000 + stage.events as u64 * 1_001)
        .with_correction(stage.events as i64 % 7 - 3)
        .to_bytes();
    match shape.general {
        true => Owned::General { message },
        false => Owned::Event {
            time: time(stage),
            message,
        },
    }
}
