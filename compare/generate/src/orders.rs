//! Whole exchanges in every order of their events, alone and across another exchange,
//! and differences that halve to either side of zero.
//!
//! A run of events is a word: D delay timer, T its stamp, and the letters of
//! `coverage::history` for messages.

use crate::build::{units, Message};
use crate::owned::Owned;
use crate::stage::{config_of, Sink, Stage, MASTER, OTHER, OWN, RESPONDER};
use plain::{Context, Event, Mechanism, NewState};

const SYNC: [&str; 3] = ["SF", "FS", "1"];
/// The same id again once its exchange is completed.
const AGAIN: [&str; 6] = ["SFSF", "FSFS", "11", "SF1", "1SF", "1FS"];
const DELAY: [&str; 2] = ["DTR", "DRT"];
const PEER: [&str; 11] = [
    "DTO", "DOT", "DUOT", "DUTO", "DTUO", "DTPU", "DTUP", "DPTU", "DPUT", "DUTP", "DUPT",
];
const OTHERS: [NewState; 4] = [
    NewState::Listening,
    NewState::Master,
    NewState::Passive,
    NewState::Faulty,
];

pub fn write(sink: &mut Sink) {
    let kinds: [(Mechanism, &[&str]); 2] =
        [(Mechanism::EndToEnd, &DELAY), (Mechanism::Peer, &PEER)];
    for (mechanism, words) in kinds {
        for noise in [false, true] {
            let mut stage = Stage::new(config_of(mechanism));
            across(&mut stage, words, noise);
            stage.finish(&format!("across-{mechanism:?}-{noise}"), sink);
        }
        let mut stage = Stage::new(config_of(mechanism));
        halves(&mut stage);
        stage.finish(&format!("halves-{mechanism:?}"), sink);
    }
    for (number, state) in OTHERS.into_iter().enumerate() {
        let mut stage = Stage::new(config_of(Mechanism::Peer));
        for word in PEER {
            // Again each time, since a measurement ends Faulty.
            stage.set(state);
            spell(&mut stage, word, false);
        }
        stage.finish(&format!("peer-orders-{number}"), sink);
    }
}

/// Every sync exchange through every other one; a mean delay comes half way.
fn across(stage: &mut Stage, words: &[&str], noise: bool) {
    stage.slave();
    for _ in 0..2 {
        for sync in SYNC {
            spell(stage, sync, noise);
            for word in words {
                spell(stage, word, noise);
                for merged in merges(sync, word) {
                    spell(stage, &merged, noise);
                }
            }
        }
        AGAIN.iter().for_each(|word| spell(stage, word, noise));
        stage.mean(5 << 32);
    }
}

/// All words that hold both words, each in its order.
fn merges(left: &str, right: &str) -> Vec<String> {
    if left.is_empty() || right.is_empty() {
        return vec![format!("{left}{right}")];
    }
    let behind = |letter: &str, rest: Vec<String>| {
        let letter = letter.to_string();
        rest.into_iter().map(move |word| format!("{letter}{word}"))
    };
    behind(&left[..1], merges(&left[1..], right))
        .chain(behind(&right[..1], merges(left, &right[1..])))
        .collect()
}

/// Plays a word; a request in it has its own id, a Sync the number of the first event.
fn spell(stage: &mut Stage, word: &str, noise: bool) {
    let (sync, first) = (stage.events as u16, stage.events as u64);
    let port = stage.port;
    let request = match stage.config.mechanism {
        Mechanism::EndToEnd => port.delay_id,
        Mechanism::Peer => port.peer_id,
    };
    for letter in word.chars() {
        let event = event_of(stage, letter, sync, request);
        stage.play(&event.lend());
        if noise {
            refused(stage, first);
        }
    }
}

fn event_of(stage: &Stage, letter: char, sync: u16, request: u16) -> Owned {
    let now = 1_000_000 + 1000 * stage.events as u64;
    let time = units(now as u128) + 0x1234_5678 * stage.events as u128 % (1 << 32);
    let context = match stage.config.mechanism {
        Mechanism::EndToEnd => Context::DelayReq(request),
        Mechanism::Peer => Context::PDelayReq(request),
    };
    match letter {
        'D' => Owned::DelayTimer {
            draw: stage.events as u64,
        },
        'T' => Owned::Stamp { time, context },
        _ => {
            let message = message_of(stage, letter, sync, request)
                .with_ns(now - 60)
                .with_correction(3 * stage.events as i64);
            let bytes = message.to_bytes();
            match message.kind {
                0..=3 => Owned::Event {
                    time,
                    message: bytes,
                },
                _ => Owned::General { message: bytes },
            }
        }
    }
}

fn message_of(stage: &Stage, letter: char, sync: u16, request: u16) -> Message {
    let config = &stage.config;
    match letter {
        'S' => Message::sync(config, MASTER, sync).two_step(),
        '1' => Message::sync(config, MASTER, sync),
        'F' => Message::follow_up(config, MASTER, sync),
        'R' => Message::delay_resp(config, MASTER, request, OWN),
        'P' => Message::pdelay_resp(config, RESPONDER, request, OWN).two_step(),
        'O' => Message::pdelay_resp(config, RESPONDER, request, OWN),
        _ => Message::pdelay_resp_follow_up(config, RESPONDER, request, OWN),
    }
}

/// Foreign traffic between the events of an exchange: refused by 4, 5 or 6, or taken
/// without effect.
fn refused(stage: &mut Stage, turn: u64) {
    let right = Message::sync(&stage.config, MASTER, 0);
    let message = match (turn + stage.events as u64) % 4 {
        0 => Message {
            version: 1,
            ..right
        },
        1 => right.with_length(43),
        2 => Message { domain: 0, ..right },
        _ => Message {
            source: OTHER,
            ..right
        },
    };
    let message = &message.to_bytes();
    stage.play(&Event::Event { time: 5, message });
}

/// Differences from -5 to 5 units.
fn halves(stage: &mut Stage) {
    let config = stage.config;
    stage.slave();
    let sent = units(100);
    stage.event(sent, &Message::sync(&config, MASTER, 1).with_ns(100));
    for difference in -5..=5 {
        stage.delay_timer(0);
        if config.mechanism == Mechanism::Peer {
            let id = stage.port.peer_id - 1;
            stage.stamp(sent, Context::PDelayReq(id));
            let response = Message::pdelay_resp(&config, RESPONDER, id, OWN);
            stage.event(sent.wrapping_add_signed(difference), &response);
        } else {
            let id = stage.port.delay_id - 1;
            stage.stamp(sent.wrapping_add_signed(-difference), Context::DelayReq(id));
            stage.general(&Message::delay_resp(&config, MASTER, id, OWN).with_ns(100));
        }
    }
}

#[cfg(test)]
mod tests {
    use super::merges;

    #[test]
    fn all_merges() {
        assert_eq!(merges("ab", "c"), ["abc", "acb", "cab"]);
        assert_eq!(merges("ab", "cd").len(), 6);
    }
}
