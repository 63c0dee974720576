//! Messages that are not for us, and messages that do nothing though their sums could
//! not be worked out: the guards come first (readings 10 and 11).

use crate::build::{units, Message};
use crate::owned::Owned;
use crate::stage::{config_of, Sink, Stage, LATEST, STATES};
use crate::stage::{MASTER, NEIGHBOUR, OTHER, OWN, RESPONDER, RIVAL};
use plain::{Context, Mechanism, NewState};

pub fn write(sink: &mut Sink) {
    for mechanism in [Mechanism::EndToEnd, Mechanism::Peer] {
        for (name, kinds) in [
            ("foreign", &[0, 1, 2, 3, 8, 9, 10][..]),
            ("host", &[11, 12, 13]),
        ] {
            let mut stage = Stage::new(config_of(mechanism));
            for state in STATES {
                stage.set(state);
                stage.delay_timer(0);
                kinds.iter().for_each(|kind| foreign(&mut stage, *kind));
            }
            stage.finish(&format!("{name}-{mechanism:?}"), sink);
        }
        for (number, state) in STATES.into_iter().enumerate() {
            let mut stage = Stage::new(config_of(mechanism));
            stage.set(state);
            no_sums(&mut stage);
            stage.finish(&format!("no-sums-{mechanism:?}-{number}"), sink);
        }
    }
    for (number, state) in STATES.into_iter().enumerate() {
        let mut stage = Stage::new(config_of(Mechanism::Peer));
        second_responders(&mut stage, state);
        stage.finish(&format!("second-responder-{number}"), sink);
    }
}

fn both_entries(stage: &mut Stage, time: u128, message: &Message) {
    stage.event(time, message);
    stage.general(message);
}

/// Every bit of the sdo id and of the domain wrong in turn, then all of them; with sums
/// that would leave their ranges as well.
fn foreign(stage: &mut Stage, kind: u8) {
    let config = stage.config;
    let right = Message::of(kind, &config, MASTER, 0).with_requester(OWN);
    for bit in 0..12 {
        both_entries(
            stage,
            5,
            &Message {
                sdo: config.sdo ^ 1 << bit,
                ..right.clone()
            },
        );
    }
    for bit in 0..8 {
        both_entries(
            stage,
            5,
            &Message {
                domain: config.domain ^ 1 << bit,
                ..right.clone()
            },
        );
    }
    let (sdo, domain) = (config.sdo ^ 0xFFF, config.domain ^ 0xFF);
    for correction in [i64::MIN, i64::MAX] {
        let message = Message {
            sdo,
            domain,
            correction,
            ..right.clone()
        };
        both_entries(stage, LATEST, &message);
        both_entries(stage, 0, &message);
    }
}

/// Times and corrections that fit neither way.
fn impossible(message: Message) -> [(u128, Message); 2] {
    [
        (
            0,
            message
                .clone()
                .with_correction(if message.kind == 8 { -1 } else { 1 }),
        ),
        (LATEST, message.with_correction(-1)),
    ]
}

/// Messages that the guards keep out, whatever their numbers.
fn no_sums(stage: &mut Stage) {
    let config = stage.config;
    let slave = matches!(stage.port.state, plain::State::Slave(_));
    let stranger = if slave { OTHER } else { MASTER };
    let mut messages = vec![
        Message::sync(&config, stranger, 1),
        Message::sync(&config, stranger, 1).two_step(),
        Message::sync(&config, NEIGHBOUR, 1),
        Message::follow_up(&config, stranger, 1),
        Message::follow_up(&config, NEIGHBOUR, 1),
        Message::delay_resp(&config, stranger, 0, OWN),
        Message::delay_resp(&config, MASTER, 0, OTHER),
        Message::delay_resp(&config, MASTER, 9, OWN),
    ];
    for (to, id) in [(OTHER, 0), (OWN, 9)] {
        messages.push(Message::pdelay_resp(&config, RESPONDER, id, to));
        messages.push(Message::pdelay_resp_follow_up(&config, RESPONDER, id, to));
    }
    for _ in 0..2 {
        for (time, message) in messages.iter().cloned().flat_map(impossible) {
            stage.event(time, &message);
            stage.general(&message);
        }
        // Once more with an exchange open.
        stage.delay_timer(0);
    }
}

/// A second responder by response and by follow-up, while measuring with either time
/// and once measured, with numbers that fit and that do not; the first one then brings
/// Faulty back where it can.
fn second_responders(stage: &mut Stage, state: NewState) {
    let config = stage.config;
    for first in ["O", "P", "U", "PU"] {
        for done in [false, true] {
            for (time, correction) in [(units(900), 0), (0, -1), (0, 1)] {
                stage.set(state);
                let id = stage.port.peer_id;
                stage.delay_timer(0);
                for letter in first.chars() {
                    let event = answer(stage, letter, id);
                    stage.play(&event.lend());
                }
                if done {
                    stage.stamp(units(3), Context::PDelayReq(id));
                }
                let response = Message::pdelay_resp(&config, RIVAL, id, OWN);
                stage.event(time, &response.with_correction(correction));
                stage.set(state);
                let follow_up = Message::pdelay_resp_follow_up(&config, RIVAL, id, OWN);
                stage.general(&follow_up.with_correction(correction));
                stage.stamp(units(3), Context::PDelayReq(id));
            }
        }
    }
}

fn answer(stage: &Stage, letter: char, id: u16) -> Owned {
    let response = Message::pdelay_resp(&stage.config, RESPONDER, id, OWN).with_ns(70);
    let message = match letter {
        'O' => response,
        'P' => response.two_step(),
        _ => Message::pdelay_resp_follow_up(&stage.config, RESPONDER, id, OWN).with_ns(75),
    };
    let bytes = message.to_bytes();
    match message.kind {
        3 => Owned::Event {
            time: units(200),
            message: bytes,
        },
        _ => Owned::General { message: bytes },
    }
}
