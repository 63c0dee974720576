//! Sums and differences at both ends of their ranges: the last values inside (for the
//! differential domain) and the first ones outside; here those of Sync, FollowUp and
//! DelayResp.
//!
//! Each edge is struck at a distance from its end; a negative distance lies outside and
//! is answered 7. The same edge is then struck at distance 0, which shows that the
//! refused event left everything as it was. `coverage::sums` says which ends exist.

use crate::build::{units, Message};
use crate::stage::{config_of, Sink, Stage, LATEST, MASTER, OWN};
use plain::{Context, Mechanism};

/// How far inside (or, negative, outside) an edge is struck, in its smallest steps.
const DISTANCES: [i128; 6] = [0, 1, 40, -1, -2, -40];

/// An edge in a number of variants, which say how the exchange stands or is completed.
pub struct Edge {
    pub name: &'static str,
    pub variants: usize,
    pub mechanism: Mechanism,
    pub asymmetry: i128,
    pub begin: Begin,
    pub strike: Strike,
}

/// What comes before the edge, by variant.
pub type Begin = fn(&mut Stage, usize);
/// The event at the edge, by variant and distance.
pub type Strike = fn(&mut Stage, usize, i128);

impl Edge {
    /// Without asymmetry.
    pub fn new(
        name: &'static str,
        variants: usize,
        mechanism: Mechanism,
        begin: Begin,
        strike: Strike,
    ) -> Edge {
        Edge {
            name,
            variants,
            mechanism,
            asymmetry: 0,
            begin,
            strike,
        }
    }
}

/// Any correction will do, as long as it is larger than the distances.
pub const CORRECTION: i64 = 1_000_000;
pub const CORRECTED: u128 = CORRECTION as u128 * 65_536;
const ID: u16 = 7;

pub fn write(edges: &[Edge], sink: &mut Sink) {
    for edge in edges {
        for variant in 0..edge.variants {
            for (number, distance) in DISTANCES.into_iter().enumerate() {
                let mut config = config_of(edge.mechanism);
                config.asymmetry = edge.asymmetry;
                let mut stage = Stage::new(config);
                (edge.begin)(&mut stage, variant);
                (edge.strike)(&mut stage, variant, distance);
                if distance < 0 {
                    (edge.strike)(&mut stage, variant, 0);
                }
                stage.finish(&format!("edge-{}-{variant}-{number}", edge.name), sink);
            }
        }
    }
}

/// Of a port that measures end to end.
fn edge(name: &'static str, variants: usize, begin: Begin, strike: Strike) -> Edge {
    Edge::new(name, variants, Mechanism::EndToEnd, begin, strike)
}

/// All edges of Sync, FollowUp and DelayResp.
pub fn edges() -> Vec<Edge> {
    let low = |edge: Edge| Edge {
        asymmetry: i128::MAX,
        ..edge
    };
    let high = |edge: Edge| Edge {
        asymmetry: i128::MIN,
        ..edge
    };
    vec![
        edge("sync-low", 8, sync_stands, sync_low),
        edge("sync-high", 8, sync_stands, sync_high),
        edge("follow-up-low", 8, sync_stands, follow_up_low),
        edge("delay-resp-low", 4, delay_stands, delay_resp_low),
        low(edge("sync-raw-low", 3, slave, sync_under)),
        high(edge("sync-raw-high", 3, slave, sync_over)),
        edge("offset-low", 3, mean_high, sync_under),
        edge("offset-high", 3, mean_low, sync_over),
        low(edge("delay-raw-low", 2, delay_begins, delay_under)),
        high(edge("delay-raw-high", 2, delay_begins, delay_over)),
        edge("delay-both-low", 2, delay_begins, delay_both_low),
        edge("delay-both-high", 2, last_high, delay_completed),
        edge("sync-widest", 1, slave, sync_widest),
        edge("delay-widest", 2, delay_stands, delay_widest),
    ]
}

fn sync(stage: &Stage, two_step: bool) -> Message {
    let sync = Message::sync(&stage.config, MASTER, ID);
    if two_step {
        sync.two_step()
    } else {
        sync
    }
}

fn follow_up(stage: &Stage) -> Message {
    Message::follow_up(&stage.config, MASTER, ID)
}

/// None open; the same id with Sync, or with FollowUp; another id.
fn sync_stands(stage: &mut Stage, variant: usize) {
    stage.slave();
    let other = Message {
        id: ID + 1,
        ..follow_up(stage)
    };
    match variant % 4 {
        1 => stage.event(units(50), &sync(stage, true)),
        2 => stage.general(&follow_up(stage).with_ns(50)),
        3 => stage.general(&other),
        _ => {}
    }
}

/// A corrected receive time of `by` units.
pub fn received_low(stage: &mut Stage, message: Message, by: i128) {
    let message = message.with_correction(CORRECTION);
    stage.event(CORRECTED.wrapping_add_signed(by), &message);
}

/// A corrected receive time of `by` units below the last time.
pub fn received_high(stage: &mut Stage, message: Message, by: i128) {
    let message = message.with_correction(-CORRECTION);
    stage.event((LATEST - CORRECTED).wrapping_add_signed(-by), &message);
}

fn sync_low(stage: &mut Stage, variant: usize, by: i128) {
    received_low(stage, sync(stage, variant >= 4), by);
}

fn sync_high(stage: &mut Stage, variant: usize, by: i128) {
    received_high(stage, sync(stage, variant >= 4), by);
}

/// A timestamp in nanoseconds, and the correction field that is as much.
const NS: u64 = CORRECTION as u64;
pub const NS_CORRECTION: i64 = (NS as i64) << 16;

/// The timestamp `NS` with that correction, on either entry. A step of the correction field is
/// the smallest that a corrected timestamp can take.
pub fn timestamped(stage: &mut Stage, message: Message, correction: i64, on_event: bool) {
    let message = message.with_ns(NS).with_correction(correction);
    if on_event {
        stage.event(0, &message);
    } else {
        stage.general(&message);
    }
}

fn follow_up_low(stage: &mut Stage, variant: usize, by: i128) {
    let correction = by as i64 - NS_CORRECTION;
    timestamped(stage, follow_up(stage), correction, variant >= 4);
}

fn delay_begins(stage: &mut Stage, _: usize) {
    stage.slave();
    stage.delay_timer(0);
}

/// The stamp came before the response or not.
fn delay_stands(stage: &mut Stage, variant: usize) {
    delay_begins(stage, variant);
    if variant % 2 == 1 {
        stage.stamp(LATEST, Context::DelayReq(0));
    }
}

fn delay_resp(stage: &Stage) -> Message {
    Message::delay_resp(&stage.config, MASTER, 0, OWN)
}

fn delay_resp_low(stage: &mut Stage, variant: usize, by: i128) {
    let correction = NS_CORRECTION - by as i64;
    timestamped(stage, delay_resp(stage), correction, variant >= 2);
}

/// Completes a sync exchange with this raw offset (before asymmetry) in one of three
/// ways; what a refused attempt left open does not stand in the way.
fn sync_of_raw(stage: &mut Stage, how: usize, raw: i128) {
    let sent = 1000;
    let at = units(sent as u128).wrapping_add_signed(raw);
    let follow_up = follow_up(stage).with_ns(sent);
    match how {
        0 => stage.event(at, &sync(stage, false).with_ns(sent)),
        1 => {
            stage.general(&follow_up);
            stage.event(at, &sync(stage, true));
        }
        _ => {
            // Another id first, so that a receive time of the last attempt is dropped.
            stage.general(&Message {
                id: ID + 1,
                ..follow_up.clone()
            });
            stage.event(at, &sync(stage, true));
            stage.general(&follow_up);
        }
    }
}

/// This raw less the largest duration is so far above the lowest; it is used for the
/// asymmetry and for the mean delay.
fn sync_under(stage: &mut Stage, how: usize, by: i128) {
    sync_of_raw(stage, how, by - 1);
}

/// This raw less the lowest duration is so far below the largest.
fn sync_over(stage: &mut Stage, how: usize, by: i128) {
    sync_of_raw(stage, how, -1 - by);
}

fn sync_widest(stage: &mut Stage, _: usize, by: i128) {
    stage.event(LATEST - by.unsigned_abs(), &sync(stage, false));
}

fn slave(stage: &mut Stage, _: usize) {
    stage.slave();
}

fn mean_high(stage: &mut Stage, _: usize) {
    stage.slave();
    stage.mean(i128::MAX);
}

fn mean_low(stage: &mut Stage, _: usize) {
    stage.slave();
    stage.mean(i128::MIN);
}

fn delay_under(stage: &mut Stage, how: usize, by: i128) {
    delay_completed(stage, how, by - 1);
}

fn delay_over(stage: &mut Stage, how: usize, by: i128) {
    delay_completed(stage, how, -1 - by);
}

/// A last raw sync offset near 0 less the largest raw delay offset.
fn delay_both_low(stage: &mut Stage, how: usize, by: i128) {
    sync_of_raw(stage, 0, by - 1);
    delay_completed(stage, how, i128::MAX);
}

/// The largest last raw sync offset.
fn last_high(stage: &mut Stage, _: usize) {
    stage.slave();
    stage.event(LATEST, &sync(stage, false));
    stage.delay_timer(0);
}

fn delay_widest(stage: &mut Stage, variant: usize, _: i128) {
    stage.general(&delay_resp(stage));
    if variant == 0 {
        stage.stamp(LATEST, Context::DelayReq(0));
    }
}

/// Completes the delay exchange with this raw offset (before asymmetry); the event that
/// can be struck again comes last.
fn delay_completed(stage: &mut Stage, how: usize, raw: i128) {
    let received = if raw > 1 << 120 { 0 } else { 1000 };
    let at = units(received as u128).wrapping_add_signed(raw);
    let response = delay_resp(stage).with_ns(received);
    if how == 0 {
        stage.general(&response);
        stage.stamp(at, Context::DelayReq(0));
    } else {
        stage.stamp(at, Context::DelayReq(0));
        stage.general(&response);
    }
}
