//! The edges of peer exchanges; see `extremes`.

use crate::build::{units, Message};
use crate::extremes::{received_high, received_low, timestamped};
use crate::extremes::{Begin, Edge, Strike, NS_CORRECTION};
use crate::stage::{Stage, LATEST, OWN, RESPONDER, STATES};
use plain::{Context, Mechanism};

fn edge(name: &'static str, variants: usize, begin: Begin, strike: Strike) -> Edge {
    Edge::new(name, variants, Mechanism::Peer, begin, strike)
}

/// All edges of PDelayResp and its follow-up.
pub fn edges() -> Vec<Edge> {
    vec![
        edge("peer-response-low", 4, peer_stands, peer_response_low),
        edge("peer-response-high", 4, peer_stands, peer_response_high),
        edge("peer-follow-up-low", 4, peer_stands, peer_follow_up_low),
        edge("peer-both-low", 15, peer_begins, peer_both_low),
        edge("peer-both-high", 15, peer_begins, peer_both_high),
        edge("peer-widest", 1, peer_begins, peer_widest),
    ]
}

fn response(stage: &Stage, two_step: bool) -> Message {
    let response = Message::pdelay_resp(&stage.config, RESPONDER, 0, OWN);
    if two_step {
        response.two_step()
    } else {
        response
    }
}

fn peer_follow_up(stage: &Stage) -> Message {
    Message::pdelay_resp_follow_up(&stage.config, RESPONDER, 0, OWN)
}

/// In each state by turns.
fn peer_begins(stage: &mut Stage, variant: usize) {
    stage.set(STATES[variant % 5]);
    stage.delay_timer(0);
}

fn peer_stands(stage: &mut Stage, variant: usize) {
    peer_begins(stage, variant);
    if variant % 2 == 1 {
        stage.stamp(units(3), Context::PDelayReq(0));
    }
}

fn peer_response_low(stage: &mut Stage, variant: usize, by: i128) {
    received_low(stage, response(stage, variant >= 2), by);
}

fn peer_response_high(stage: &mut Stage, variant: usize, by: i128) {
    received_high(stage, response(stage, variant >= 2), by);
}

fn peer_follow_up_low(stage: &mut Stage, variant: usize, by: i128) {
    let correction = by as i64 - NS_CORRECTION;
    timestamped(stage, peer_follow_up(stage), correction, variant >= 2);
}

/// Two-step, as only its two times of the responder can differ. The responder's
/// difference is one step of the correction field.
fn peer_completed(stage: &mut Stage, how: usize, sent: u128, received: u128, theirs: i64) {
    let response = response(stage, true).with_ns(5000);
    let follow_up = peer_follow_up(stage).with_ns(5000).with_correction(theirs);
    match how {
        0 => {
            stage.event(received, &response);
            stage.general(&follow_up);
            stage.stamp(sent, Context::PDelayReq(0));
        }
        1 => {
            stage.general(&follow_up);
            stage.stamp(sent, Context::PDelayReq(0));
            stage.event(received, &response);
        }
        _ => {
            stage.stamp(sent, Context::PDelayReq(0));
            stage.event(received, &response);
            stage.general(&follow_up);
        }
    }
}

fn peer_both_low(stage: &mut Stage, variant: usize, by: i128) {
    let received = 65_535u128.wrapping_add_signed(by);
    peer_completed(stage, variant / 5, LATEST, received, 1);
}

fn peer_both_high(stage: &mut Stage, variant: usize, by: i128) {
    let received = (LATEST - 65_536).wrapping_add_signed(-by);
    peer_completed(stage, variant / 5, 0, received, -1);
}

fn peer_widest(stage: &mut Stage, _: usize, by: i128) {
    stage.stamp(by.unsigned_abs(), Context::PDelayReq(0));
    stage.event(LATEST, &response(stage, false));
}
