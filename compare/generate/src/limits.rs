//! Rows 2 and 3 of the table in 01: configurations, times and draws out of limits, each
//! also where a later row would hold.

use crate::build::{units, Message};
use crate::stage::{config_of, Sink, Stage, LATEST, MASTER, OTHER, OWN, STATES};
use plain::{Config, Context, Event, Mechanism};

/// Times with the top bit set.
const BEYOND: [u128; 2] = [1 << 127, u128::MAX];

pub fn write(sink: &mut Sink) {
    for mechanism in [Mechanism::EndToEnd, Mechanism::Peer] {
        for (number, config) in unfit(config_of(mechanism)).into_iter().enumerate() {
            let mut stage = Stage::new(config);
            everything(&mut stage);
            stage.finish(&format!("unfit-{mechanism:?}-{number:02}"), sink);
        }
        for (number, state) in STATES.into_iter().enumerate() {
            let mut stage = Stage::new(config_of(mechanism));
            stage.set(state);
            out_of_limits(&mut stage);
            stage.finish(&format!("limits-{mechanism:?}-{number}"), sink);
            let mut stage = Stage::new(config_of(mechanism));
            stage.set(state);
            just_within(&mut stage);
            stage.finish(&format!("within-{mechanism:?}-{number}"), sink);
        }
    }
}

/// One value out of limits in each, and all at once.
fn unfit(right: Config) -> Vec<Config> {
    let mut all = Vec::new();
    all.extend([4096, 4097, 0x8000, 0xFFFF].map(|sdo| Config { sdo, ..right }));
    all.extend([2, 3, 128, 255].map(|minor| Config { minor, ..right }));
    for interval in [-128, -10, 17, 127] {
        all.push(Config {
            delay_interval: interval,
            ..right
        });
        all.push(Config {
            sync_interval: interval,
            ..right
        });
    }
    let (delay_interval, sync_interval) = (-10, 17);
    all.push(Config {
        sdo: 4096,
        minor: 2,
        delay_interval,
        sync_interval,
        ..right
    });
    all
}

/// Messages that rows 4, 5, 6 and 8 speak of, in that order.
fn flawed(config: &Config) -> Vec<Vec<u8>> {
    let right = Message::sync(config, MASTER, 3);
    let foreign = Message {
        domain: config.domain ^ 1,
        ..right.clone()
    };
    vec![
        vec![],
        Message {
            version: 1,
            ..right.clone()
        }
        .to_bytes(),
        right.to_bytes()[..33].to_vec(),
        Message {
            kind: 4,
            ..right.clone()
        }
        .to_bytes(),
        foreign.to_bytes(),
        Message { kind: 11, ..right }.to_bytes(),
    ]
}

/// Each event, right and wrong.
fn everything(stage: &mut Stage) {
    let config = stage.config;
    for state in STATES {
        stage.set(state);
    }
    for kind in [0, 1, 2, 3, 8, 9, 10] {
        let message = Message::of(kind, &config, MASTER, 1).with_requester(OWN);
        stage.event(units(5), &message);
        stage.general(&message);
        stage.event(LATEST, &message);
    }
    stage.sync_timer();
    stage.delay_timer(77);
    stage.mean(12);
    stage.play(&Event::Filter {
        mean: None,
        next: Some(1),
    });
    for message in flawed(&config) {
        stage.play(&Event::Event {
            time: 1,
            message: &message,
        });
        stage.play(&Event::General { message: &message });
    }
    out_of_limits(stage);
}

fn contexts() -> [Context; 4] {
    [
        Context::Sync(0),
        Context::DelayReq(0),
        Context::PDelayReq(0),
        Context::PDelayResp(0, OTHER),
    ]
}

fn out_of_limits(stage: &mut Stage) {
    let config = stage.config;
    for time in BEYOND {
        for kind in [0, 1, 2, 3, 8, 9, 10, 12] {
            stage.event(
                time,
                &Message::of(kind, &config, MASTER, 1).with_requester(OWN),
            );
        }
        for message in flawed(&config) {
            stage.play(&Event::Event {
                time,
                message: &message,
            });
        }
        for context in contexts() {
            stage.stamp(time, context);
        }
    }
    for draw in [1 << 52, (1 << 52) + 1, 1 << 63, u64::MAX] {
        stage.delay_timer(draw);
    }
    stage.delay_timer(0);
}

/// The last times and draws that are taken. What would be answered 7, because it would
/// be sent, stays out.
fn just_within(stage: &mut Stage) {
    let config = stage.config;
    for time in [0, LATEST] {
        for kind in [0, 1, 3, 8, 9, 10] {
            let message = Message::of(kind, &config, MASTER, 1)
                .with_requester(OWN)
                .to_bytes();
            stage.offer(&Event::Event {
                time,
                message: &message,
            });
        }
        stage.delay_timer((1 << 52) - 1);
        for context in contexts() {
            stage.offer(&Event::Stamp { time, context });
        }
    }
}
