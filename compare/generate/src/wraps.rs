//! Logs in which each of the three id generators goes past 65535 (01, 'Units').

use crate::build::{units, Message};
use crate::stage::{config_of, Sink, Stage, MASTER, OTHER, OWN, RESPONDER};
use plain::{Context, Mechanism, NewState};

/// How many ids are taken: a whole round and a little more.
const TAKEN: usize = 65_536 + 20;

/// Whole exchanges every now and then, and all around the wrap.
fn whole(number: usize) -> bool {
    number.is_multiple_of(4_099) || (65_530..65_550).contains(&number)
}

/// Writes the three logs and tells how many events they hold.
pub fn write(sink: &mut Sink) -> usize {
    let logs = [("sync", sync()), ("delay", delay()), ("peer", peer())];
    for (name, stage) in &logs {
        stage.finish(&format!("wrap-{name}"), sink);
    }
    logs.iter().map(|(_, stage)| stage.events).sum()
}

/// Leaving the state and coming back does not touch the generator.
fn sync() -> Stage {
    let mut stage = Stage::new(config_of(Mechanism::EndToEnd));
    for number in 0..TAKEN {
        if whole(number) {
            stage.slave();
            stage.set(NewState::Master);
        }
        stage.sync_timer();
        if whole(number) {
            stage.stamp(units(number as u128) + 5, Context::Sync(number as u16));
        }
    }
    stage
}

fn delay() -> Stage {
    let mut stage = Stage::new(config_of(Mechanism::EndToEnd));
    let config = stage.config;
    stage.slave();
    for number in 0..TAKEN {
        stage.delay_timer(number as u64);
        if whole(number) {
            let id = number as u16;
            let response = Message::delay_resp(&config, MASTER, id, OWN);
            stage.general(&Message {
                id: id.wrapping_sub(1),
                ..response.clone()
            });
            stage.stamp(units(number as u128), Context::DelayReq(id));
            stage.general(&response.with_ns(number as u64 + 9));
        }
    }
    stage
}

fn peer() -> Stage {
    let mut stage = Stage::new(config_of(Mechanism::Peer));
    let config = stage.config;
    for number in 0..TAKEN {
        stage.delay_timer(number as u64);
        if whole(number) {
            let id = number as u16;
            let response = Message::pdelay_resp(&config, RESPONDER, id, OWN);
            let old = Message {
                id: id.wrapping_sub(1),
                source: OTHER,
                ..response.clone()
            };
            stage.event(units(7), &old);
            stage.event(
                units(number as u128 + 100),
                &response.with_ns(number as u64),
            );
            stage.stamp(units(number as u128), Context::PDelayReq(id));
        }
    }
    stage
}
