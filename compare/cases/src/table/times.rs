//! Row 7, corrected times: each end that can be reached, its neighbour inside, and the
//! exchange that a refusal leaves as it was.
//!
//! Wire timestamps stay below 2^111 units, so a sum with one cannot reach 2^127.

use crate::cast::*;
use crate::record::End;
use crate::script::Script;
use crate::Case;

pub fn all() -> Vec<Case> {
    vec![
        sync_low(),
        sync_high(),
        one_step_sync(),
        follow_up_low(),
        follow_up_high(),
        delay_resp_low(),
        delay_resp_high(),
        response_low(),
        response_high(),
        response_follow_up_low(),
    ]
}

/// What the lowest and the highest correction mean, without their signs.
const LOWEST: u128 = 1 << 79;
const HIGHEST: u128 = (1 << 79) - STEP;

fn sync_low() -> Case {
    let mut s = Script::new(end_to_end(0));
    s.slave(MASTER).nothing();
    s.general(&follow_up(4).with_ns(1)).nothing();
    // One unit under 0, for one step and for the highest correction.
    s.event(STEP - 1, &two_step_sync(4).with_correction(1))
        .refused(7);
    s.event(HIGHEST - 1, &two_step_sync(4).with_correction(i64::MAX))
        .refused(7);
    s.event(0, &two_step_sync(5).with_correction(1)).refused(7);
    // 4 is still open.
    s.event(HIGHEST, &two_step_sync(4).with_correction(i64::MAX))
        .sync(-duration(1), 0, None);
    s.event(STEP, &two_step_sync(6).with_correction(1))
        .nothing();
    s.end(
        "row-7-sync-under-0",
        "Row 7: a Sync corrected to -1 unit is refused, to 0 taken; a port with signed times takes \
         both.",
        End::slave(MASTER)
            .sync(6, None, Some(0))
            .raw(-duration(1)),
    )
}

fn sync_high() -> Case {
    let mut s = Script::new(end_to_end(0));
    s.slave(MASTER).nothing();
    s.general(&follow_up(4).with_ns(1)).nothing();
    s.event(TOP - STEP + 1, &two_step_sync(4).with_correction(-1))
        .refused(7);
    s.event(
        TOP - LOWEST + 1,
        &two_step_sync(4).with_correction(i64::MIN),
    )
    .refused(7);
    s.event(TOP, &two_step_sync(5).with_correction(-1))
        .refused(7);
    s.event(TOP - LOWEST, &two_step_sync(4).with_correction(i64::MIN))
        .sync(i128::MAX - duration(1), TOP, None);
    s.event(TOP - STEP, &two_step_sync(6).with_correction(-1))
        .nothing();
    s.end(
        "row-7-sync-over-top",
        "Row 7: a Sync corrected to 2^127 is refused, to 2^127 - 1 taken; a wrapping port makes it \
         negative, a clamping one takes it.",
        End::slave(MASTER)
            .sync(6, None, Some(TOP))
            .raw(i128::MAX - duration(1)),
    )
}

fn one_step_sync() -> Case {
    let mut s = Script::new(end_to_end(0));
    s.slave(MASTER).nothing();
    s.event(units(30), &two_step_sync(4)).nothing();
    s.event(STEP - 1, &sync(5).with_correction(1)).refused(7);
    s.event(TOP, &sync(5).with_correction(-1)).refused(7);
    s.general(&follow_up(4).with_ns(10))
        .sync(duration(20), units(30), None);
    s.event(STEP, &sync(5).with_correction(1)).sync(0, 0, None);
    s.event(TOP - STEP, &sync(6).with_correction(-1))
        .sync(i128::MAX, TOP, None);
    s.end(
        "row-7-one-step-sync",
        "Row 7: a one-step Sync out of range leaves the open exchange of another id, which its \
         FollowUp then completes; a port that replaces it first has lost it.",
        End::slave(MASTER).raw(i128::MAX),
    )
}

fn follow_up_low() -> Case {
    let mut s = Script::new(end_to_end(0));
    s.slave(MASTER).nothing();
    s.event(units(30), &two_step_sync(4)).nothing();
    s.general(&follow_up(4).with_correction(-1)).refused(7);
    s.general(&follow_up(4).with_ns(1).with_correction(-65_537))
        .refused(7);
    s.general(&follow_up(5).with_correction(i64::MIN))
        .refused(7);
    s.general(&follow_up(4).with_ns(1).with_correction(-65_536))
        .sync(duration(30), units(30), None);
    // 2^63 steps are 140,737,488,355,328 ns.
    let far = follow_up(6).with_timestamp(140_737, 488_355_327);
    s.general(&far.with_correction(i64::MIN)).refused(7);
    let far = follow_up(6).with_timestamp(140_737, 488_355_328);
    s.general(&far.with_correction(i64::MIN)).nothing();
    s.end(
        "row-7-follow-up-under-0",
        "Row 7: a FollowUp corrected below 0 is refused and its exchange stays open, 0 is taken; a \
         port with signed times takes both.",
        End::slave(MASTER).sync(6, Some(0), None).raw(duration(30)),
    )
}

fn follow_up_high() -> Case {
    let mut s = Script::new(end_to_end(0));
    s.slave(MASTER).nothing();
    s.event(TOP, &two_step_sync(4)).nothing();
    let send = LATE - units(1_000_000_000) + units(0xFFFF_FFFF) + HIGHEST;
    let last = follow_up(4).with_timestamp(0xFFFF_FFFF_FFFF, u32::MAX);
    s.general(&last.clone().with_correction(i64::MAX))
        .sync((TOP - send) as i128, TOP, None);
    s.event(0, &two_step_sync(5)).nothing();
    s.general(&Message { id: 5, ..last }.with_correction(i64::MAX))
        .sync(-(send as i128), 0, None);
    s.end(
        "row-7-follow-up-largest",
        "Row 7, well inside: the largest timestamp with the highest correction is a time, though \
         none that could be sent; a port that limits seconds here answers 7.",
        End::slave(MASTER).raw(-(send as i128)),
    )
}

fn delay_resp_low() -> Case {
    let mut s = Script::new(end_to_end(0));
    s.slave(MASTER).nothing();
    s.request_delay(0);
    let answer = |c| delay_resp(0).with_ns(1).with_correction(c);
    s.general(&answer(65_537)).refused(7);
    s.general(&answer(i64::MAX)).refused(7);
    s.stamp(units(8), Context::DelayReq(0)).nothing();
    s.general(&answer(65_537)).refused(7);
    s.general(&answer(65_536))
        .delay(duration(8), units(8), None);
    s.request_delay(1);
    s.general(&delay_resp(1).with_correction(1)).refused(7);
    s.general(&delay_resp(1)).nothing();
    s.end(
        "row-7-delay-resp-under-0",
        "Row 7: a DelayResp corrected below 0 is refused and the request stays open, with its \
         stamp or without, 0 is taken; a port with signed times takes both.",
        End::slave(MASTER).delay(1, None, Some(0)).ids(0, 2, 0),
    )
}

fn delay_resp_high() -> Case {
    let mut s = Script::new(end_to_end(0));
    s.slave(MASTER).nothing();
    s.request_delay(0);
    let receive = LATE - units(1_000_000_000) + units(0xFFFF_FFFF) + LOWEST;
    let last = delay_resp(0).with_timestamp(0xFFFF_FFFF_FFFF, u32::MAX);
    s.general(&last.with_correction(i64::MIN)).nothing();
    s.stamp(0, Context::DelayReq(0))
        .delay(-(receive as i128), 0, None);
    s.end(
        "row-7-delay-resp-largest",
        "Row 7, well inside: the largest timestamp less the lowest correction is a time; a port \
         that limits seconds here answers 7.",
        End::slave(MASTER).ids(0, 1, 0),
    )
}

fn response_low() -> Case {
    let mut s = Script::new(peer(0));
    s.request_peer(0);
    s.stamp(units(2), Context::PDelayReq(0)).nothing();
    s.event(STEP - 1, &response(0).with_correction(1))
        .refused(7);
    s.event(STEP - 1, &two_step_response(0).with_correction(1))
        .refused(7);
    s.event(HIGHEST - 1, &response(0).with_correction(i64::MAX))
        .refused(7);
    // The refused ones stored no responder either.
    s.event(HIGHEST, &by(RIVAL, response(0)).with_correction(i64::MAX))
        .peer(-duration(1), 0);
    s.request_peer(1);
    s.event(STEP, &two_step_response(1).with_correction(1))
        .nothing();
    s.end(
        "row-7-response-under-0",
        "Row 7: a PDelayResp corrected below 0 is refused and leaves no responder; else the next \
         one is a second responder.",
        End::listening()
            .open(1, Some(PEER), [None, Some(0), None, Some(0)])
            .ids(0, 0, 2),
    )
}

fn response_high() -> Case {
    let mut s = Script::new(peer(0));
    s.request_peer(0);
    s.event(TOP - STEP + 1, &response(0).with_correction(-1))
        .refused(7);
    s.event(
        TOP - LOWEST + 1,
        &two_step_response(0).with_correction(i64::MIN),
    )
    .refused(7);
    s.event(
        TOP - LOWEST,
        &two_step_response(0).with_correction(i64::MIN),
    )
    .nothing();
    s.stamp(TOP, Context::PDelayReq(0)).nothing();
    s.general(&response_follow_up(0)).peer(0, TOP);
    s.request_peer(1);
    s.event(TOP - STEP, &response(1).with_correction(-1))
        .nothing();
    s.end(
        "row-7-response-over-top",
        "Row 7: a PDelayResp corrected to 2^127 is refused, to 2^127 - 1 taken; a clamping port \
         takes both.",
        End::listening()
            .open(1, Some(PEER), [None, Some(0), Some(0), Some(TOP)])
            .ids(0, 0, 2),
    )
}

fn response_follow_up_low() -> Case {
    let mut s = Script::new(peer(0));
    s.request_peer(0);
    s.stamp(units(2), Context::PDelayReq(0)).nothing();
    s.general(&response_follow_up(0).with_correction(-1))
        .refused(7);
    // No responder was stored.
    s.event(units(9), &by(RIVAL, two_step_response(0)).with_ns(1))
        .nothing();
    let late = by(RIVAL, response_follow_up(0)).with_ns(1);
    s.general(&late.clone().with_correction(-65_537)).refused(7);
    // ((9 - 2) - (0 - 1)) / 2
    s.general(&late.with_correction(-65_536))
        .peer(duration(4), units(9));
    s.request_peer(1);
    s.general(&response_follow_up(1)).nothing();
    s.end(
        "row-7-response-follow-up-under-0",
        "Row 7: a peer follow-up corrected below 0 is refused and leaves no responder, 0 is taken; \
         a port that stores its source first is Faulty at the next answer.",
        End::listening()
            .open(1, Some(PEER), [None, None, Some(0), None])
            .ids(0, 0, 2),
    )
}
