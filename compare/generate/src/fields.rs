//! Messages that do something, dressed in everything that no rule reads (01, 'Wire
//! form'; reading 15) and with the numbers of the wire at their ends.

use crate::build::{table_length, units, Message};
use crate::stage::{config_of, Sink, Stage, MASTER, OTHER, OWN, RESPONDER};
use plain::{Config, Event, Identity, Mechanism, NewState, State};

const KINDS: [u8; 7] = [0, 1, 2, 3, 8, 9, 10];
/// Late enough for any correction to be taken off, and not too late to be sent.
const TIME: u128 = units(1 << 60);
const SECONDS: u64 = 1_000_000;

type Scene = fn(&mut Stage);
type Dress<'a> = &'a dyn Fn(Message) -> Message;

pub fn write(sink: &mut Sink) {
    let dresses: [(&str, Scene); 6] = [
        ("unread", unread),
        ("numbers", numbers),
        ("behind", behind),
        ("longer", longer),
        ("people", people),
        ("times", times),
    ];
    for mechanism in [Mechanism::EndToEnd, Mechanism::Peer] {
        for (name, dress) in dresses {
            let mut stage = Stage::new(config_of(mechanism));
            dress(&mut stage);
            stage.finish(&format!("fields-{name}-{mechanism:?}"), sink);
        }
        for (number, config) in configs(config_of(mechanism)).into_iter().enumerate() {
            let mut stage = Stage::new(config);
            for kind in KINDS {
                meaningful(&mut stage, kind, MASTER, &|message| message);
            }
            stage.sync_timer();
            stage.finish(&format!("configuration-{mechanism:?}-{number:02}"), sink);
        }
    }
}

/// Brings the port to where a message of this type does something, then plays it.
fn meaningful(stage: &mut Stage, kind: u8, source: Identity, dress: Dress) {
    let config = stage.config;
    let slave = match stage.port.state {
        State::Slave(slave) => slave.master == source,
        _ => false,
    };
    match kind {
        0 | 8 | 9 if !slave => stage.set(NewState::Slave(source)),
        1 => stage.set(NewState::Master),
        _ => {}
    }
    let id = match kind {
        9 => stage.port.delay_id,
        3 | 10 => stage.port.peer_id,
        _ => stage.events as u16,
    };
    if matches!(kind, 3 | 9 | 10) {
        stage.delay_timer(stage.events as u64);
    }
    let message = Message::of(kind, &config, source, id)
        .with_requester(config.identity)
        .with_timestamp(SECONDS, 5);
    let message = dress(message);
    if kind >= 8 {
        stage.general(&message);
    } else {
        stage.event(TIME, &message);
    }
}

fn all_kinds(stage: &mut Stage, dress: Dress) {
    for kind in KINDS {
        meaningful(stage, kind, MASTER, dress);
    }
}

fn unread(stage: &mut Stage) {
    for minor in 0..16 {
        all_kinds(stage, &|message| Message { minor, ..message });
    }
    for bit in 0..16 {
        all_kinds(stage, &|message| message.with_flags(1 << bit));
    }
    all_kinds(stage, &|message| message.with_flags(0xFFFF));
    for byte in [0, 1, 6, 0x7F, 0x80, 0xFF] {
        all_kinds(stage, &|message| Message {
            control: byte,
            interval: byte,
            ..message
        });
        all_kinds(stage, &|message| Message {
            reserved: [byte; 4],
            ..message
        });
    }
}

fn numbers(stage: &mut Stage) {
    for seconds in [0, 1, 1 << 32, (1 << 48) - 1] {
        all_kinds(stage, &|message| message.with_timestamp(seconds, 0));
    }
    for nanoseconds in [0, 999_999_999, 1_000_000_000, u32::MAX] {
        all_kinds(stage, &|message| {
            message.with_timestamp(SECONDS, nanoseconds)
        });
    }
    for correction in [0, 1, -1, i64::MAX, i64::MIN] {
        all_kinds(stage, &|message| message.with_correction(correction));
    }
    for id in [0, 65_535] {
        for kind in [0, 1, 2, 8] {
            meaningful(stage, kind, MASTER, &|message| Message { id, ..message });
        }
    }
}

/// As many bytes behind the body as a message may have.
fn filled(message: Message) -> Message {
    let count = 1024 - table_length(message.kind);
    message.with_extra(&vec![0x22; count])
}

/// Bytes behind the body that the stated length does not cover.
fn behind(stage: &mut Stage) {
    for count in [1, 2, 10, 34, 500] {
        all_kinds(stage, &|message| message.with_extra(&vec![0xEE; count]));
    }
    all_kinds(stage, &filled);
}

/// Bytes behind the body that it does cover: not for the differential domain.
fn longer(stage: &mut Stage) {
    for count in [1, 2, 10, 34, 500] {
        all_kinds(stage, &|message| {
            message.with_extra(&vec![0xEE; count]).stating_all()
        });
    }
    all_kinds(stage, &|message| filled(message).stating_all());
    all_kinds(stage, &|message| {
        let stated = table_length(message.kind) + 1;
        filled(message).with_length(stated as u16)
    });
}

/// Times of every bit length, and the values of a filter answer.
fn times(stage: &mut Stage) {
    stage.slave();
    for bits in 0..128 {
        let sync = Message::sync(&stage.config, MASTER, bits);
        stage.event((1 << bits) - 1, &sync);
        stage.event(1 << bits >> 1, &sync);
    }
    for mean in [0, 1, -1, i128::MAX, i128::MIN] {
        for next in [None, Some(0), Some(1), Some(u64::MAX)] {
            stage.play(&Event::Filter {
                mean: Some(mean),
                next,
            });
            stage.play(&Event::Filter { mean: None, next });
        }
    }
}

/// Identities of equal bytes, our own among them as master, requester and responder.
fn people(stage: &mut Stage) {
    for source in [[0; 10], [0xFF; 10], OWN, OTHER, RESPONDER] {
        for kind in KINDS {
            meaningful(stage, kind, source, &|message| message);
        }
    }
}

fn configs(right: Config) -> Vec<Config> {
    let mut all = Vec::new();
    all.extend([0, 255, 4095].map(|sdo| Config { sdo, ..right }));
    all.extend([0, 255].map(|domain| Config { domain, ..right }));
    all.extend([0, 1].map(|minor| Config { minor, ..right }));
    all.extend([0, 0xFF].map(|byte| Config {
        identity: [byte; 10],
        ..right
    }));
    all.extend([0, 1, -1].map(|asymmetry| Config { asymmetry, ..right }));
    all.extend([i128::MAX, i128::MIN].map(|asymmetry| Config { asymmetry, ..right }));
    all
}
