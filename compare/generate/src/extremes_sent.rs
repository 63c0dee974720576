//! The edges of fields that are sent: 48 bits of seconds and 64 of correction; see
//! `extremes`.

use crate::build::{units, Message};
use crate::extremes::{Begin, Edge, Strike};
use crate::stage::{Stage, OTHER, STATES};
use plain::{Context, Mechanism, NewState};

/// The first time whose seconds need 49 bits.
const TOO_LATE: u128 = units((1 << 48) * 1_000_000_000);

/// A fraction of 100 steps of a correction field, and something below them to be cut.
const FRACTION: u128 = (100 << 16) + 77;

/// With a variant for each state.
fn edge(name: &'static str, mechanism: Mechanism, begin: Begin, strike: Strike) -> Edge {
    Edge::new(name, 5, mechanism, begin, strike)
}

/// All edges of messages that are sent, under both mechanisms.
pub fn edges() -> Vec<Edge> {
    use Mechanism::{EndToEnd, Peer};
    vec![
        edge("sent-follow-up", EndToEnd, master, follow_up),
        edge("sent-delay-resp", EndToEnd, master, delay_resp),
        edge("sent-delay-resp-peer", Peer, master, delay_resp),
        edge("sent-pdelay-resp", Peer, state, pdelay_resp),
        edge("sent-pdelay-resp-end", EndToEnd, state, pdelay_resp),
        edge("sent-pdelay-follow-up", Peer, state, pdelay_follow_up),
        edge("sent-delay-correction-low", EndToEnd, master, delay_low),
        edge("sent-delay-correction-high", EndToEnd, master, delay_high),
        edge("sent-pdelay-correction-low", Peer, state, pdelay_low),
        edge("sent-pdelay-correction-high", Peer, state, pdelay_high),
    ]
}

fn master(stage: &mut Stage, _: usize) {
    stage.set(NewState::Master);
    stage.sync_timer();
}

/// Each state by turns.
fn state(stage: &mut Stage, variant: usize) {
    stage.set(STATES[variant]);
}

fn late(by: i128) -> u128 {
    (TOO_LATE - 1).wrapping_add_signed(-by)
}

fn request(stage: &mut Stage, kind: u8, time: u128, correction: i64) {
    let message = Message::of(kind, &stage.config, OTHER, 300).with_correction(correction);
    stage.event(time, &message);
}

fn follow_up(stage: &mut Stage, variant: usize, by: i128) {
    stage.stamp(late(by), Context::Sync(variant as u16));
}

fn delay_resp(stage: &mut Stage, _: usize, by: i128) {
    request(stage, 1, late(by), 5);
}

fn pdelay_resp(stage: &mut Stage, _: usize, by: i128) {
    request(stage, 2, late(by), 5);
}

fn pdelay_follow_up(stage: &mut Stage, variant: usize, by: i128) {
    stage.stamp(late(by), Context::PDelayResp(variant as u16, OTHER));
}

fn low(stage: &mut Stage, kind: u8, variant: usize, by: i128) {
    let correction = i64::MIN as i128 + 100 + by;
    request(
        stage,
        kind,
        units(variant as u128) + FRACTION,
        correction as i64,
    );
}

/// A fraction below one step is cut to nothing, so the largest correction goes through.
fn high(stage: &mut Stage, kind: u8, variant: usize, by: i128) {
    let correction = i64::MAX as i128 - by.abs();
    request(
        stage,
        kind,
        units(variant as u128) + 0xFFFF,
        correction as i64,
    );
}

fn delay_low(stage: &mut Stage, variant: usize, by: i128) {
    low(stage, 1, variant, by);
}

fn delay_high(stage: &mut Stage, variant: usize, by: i128) {
    high(stage, 1, variant, by);
}

fn pdelay_low(stage: &mut Stage, variant: usize, by: i128) {
    low(stage, 2, variant, by);
}

fn pdelay_high(stage: &mut Stage, variant: usize, by: i128) {
    high(stage, 2, variant, by);
}
