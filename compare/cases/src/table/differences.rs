//! Row 7, what a sync and a peer measurement work out, at both ends.

use crate::cast::*;
use crate::record::End;
use crate::script::Script;
use crate::Case;

pub fn all() -> Vec<Case> {
    vec![
        sync_raw_high(),
        sync_raw_low(),
        offset_high(),
        offset_low(),
        peer_high(),
        peer_low(),
        peer_by_stamp(),
    ]
}

const MIN: i128 = i128::MIN;
const MAX: i128 = i128::MAX;

fn sync_raw_high() -> Case {
    let mut s = Script::new(end_to_end(MIN));
    s.slave(MASTER).nothing();
    s.event(STEP, &two_step_sync(3)).nothing();
    // 0 + 2^127
    s.general(&follow_up(3).with_correction(1)).refused(7);
    s.general(&follow_up(3)).refused(7);
    s.event(0, &sync(4)).refused(7);
    // -65536 + 2^127
    s.general(&follow_up(3).with_correction(2))
        .sync(MAX - 65_535, STEP, None);
    s.general(&follow_up(5).with_correction(1)).nothing();
    s.event(STEP, &two_step_sync(5)).refused(7);
    // -1 + 2^127
    s.event(STEP - 1, &two_step_sync(5))
        .sync(MAX, STEP - 1, None);
    s.end(
        "row-7-sync-raw-over",
        "Row 7: a raw of 2^127 is refused, by Sync, FollowUp or one-step, and one of 2^127 - 1 \
         taken; a wrapping port returns a negative raw.",
        End::slave(MASTER).raw(MAX),
    )
}

fn sync_raw_low() -> Case {
    let mut s = Script::new(end_to_end(MAX));
    s.slave(MASTER).nothing();
    s.event(STEP - 2, &two_step_sync(3)).nothing();
    // -2 - (2^127 - 1)
    s.general(&follow_up(3).with_correction(1)).refused(7);
    s.event(units(1) - 2, &sync(4).with_ns(1)).refused(7);
    s.general(&follow_up(3)).sync(MIN + 65_535, STEP - 2, None);
    s.general(&follow_up(5).with_correction(1)).nothing();
    s.event(STEP - 2, &two_step_sync(5)).refused(7);
    // -1 - (2^127 - 1)
    s.event(STEP - 1, &two_step_sync(5))
        .sync(MIN, STEP - 1, None);
    s.end(
        "row-7-sync-raw-under",
        "Row 7: a raw of -2^127 - 1 is refused, one of -2^127 taken; a port with a symmetric range \
         refuses both.",
        End::slave(MASTER).raw(MIN),
    )
}

fn offset_high() -> Case {
    let mut s = Script::new(end_to_end(0));
    s.slave(MASTER).nothing();
    s.mean(MIN);
    s.event(units(1), &two_step_sync(3)).nothing();
    // 0 + 2^127
    s.general(&follow_up(3).with_ns(1)).refused(7);
    s.event(units(1), &sync(4).with_ns(1)).refused(7);
    s.mean(MIN + 1);
    s.general(&follow_up(3).with_ns(1))
        .sync(0, units(1), Some(MAX));
    s.mean(MIN);
    // -1 + 2^127
    s.event(units(1) - 1, &sync(4).with_ns(1))
        .sync(-1, units(1) - 1, Some(MAX));
    s.end(
        "row-7-offset-over",
        "Row 7: the offset, too, must be a duration: 2^127 is refused and leaves raw and exchange; \
         a port that checks the raw alone answers 0.",
        End::slave(MASTER).raw(-1).mean(MIN),
    )
}

fn offset_low() -> Case {
    let mut s = Script::new(end_to_end(5));
    s.slave(MASTER).nothing();
    s.mean(MAX);
    s.event(units(1) + 3, &two_step_sync(3)).nothing();
    // 3 - 5 - (2^127 - 1)
    s.general(&follow_up(3).with_ns(1)).refused(7);
    s.mean(MAX - 1);
    s.general(&follow_up(3).with_ns(1))
        .sync(-2, units(1) + 3, Some(MIN));
    s.mean(MAX);
    s.event(units(1) + 4, &sync(4).with_ns(1))
        .sync(-1, units(1) + 4, Some(MIN));
    s.event(units(1) + 3, &sync(4).with_ns(1)).refused(7);
    s.end(
        "row-7-offset-under",
        "Row 7: an offset of -2^127 - 1 is refused, one of -2^127 taken, and the last raw stays \
         that of the last answer 0; a port that stores it first keeps -2.",
        End::slave(MASTER).raw(-1).mean(MAX),
    )
}

fn peer_high() -> Case {
    let mut s = Script::new(peer(0));
    s.request_peer(0);
    s.stamp(0, Context::PDelayReq(0)).nothing();
    s.event(TOP - STEP + 1, &two_step_response(0).with_ns(1))
        .nothing();
    let answer = |id| response_follow_up(id).with_ns(1);
    // One step less at the peer: 2^127 - 65536 + 65536.
    s.general(&answer(0).with_correction(-1)).refused(7);
    s.general(&answer(0))
        .peer((1 << 126) - 32_768, TOP - STEP + 1);
    s.request_peer(1);
    s.stamp(0, Context::PDelayReq(1)).nothing();
    s.general(&answer(1).with_correction(-1)).nothing();
    let message = two_step_response(1).with_ns(1);
    s.event(TOP - STEP + 1, &message).refused(7);
    s.event(TOP - STEP, &message)
        .peer((1 << 126) - 1, TOP - STEP);
    s.end(
        "row-7-peer-over",
        "Row 7: the peer difference counts before it is halved: 2^127 is refused, by response or \
         follow-up, 2^127 - 1 gives 2^126 - 1; a wider sum returns 2^126.",
        End::listening().done(1, PEER).ids(0, 0, 2),
    )
}

fn peer_low() -> Case {
    let mut s = Script::new(peer(0));
    s.request_peer(0);
    s.stamp(TOP, Context::PDelayReq(0)).nothing();
    s.general(&response_follow_up(0).with_correction(1))
        .nothing();
    // 65534 - (2^127 - 1) - 65536 = -2^127 - 1
    s.event(STEP - 2, &two_step_response(0)).refused(7);
    s.event(STEP - 1, &two_step_response(0))
        .peer(-(1 << 126), STEP - 1);
    s.request_peer(1);
    s.stamp(TOP, Context::PDelayReq(1)).nothing();
    s.event(STEP - 2, &two_step_response(1)).nothing();
    s.general(&response_follow_up(1).with_correction(1))
        .refused(7);
    // -2^127 + 65535 is odd.
    s.general(&response_follow_up(1))
        .peer(-(1 << 126) + 32_768, STEP - 2);
    s.end(
        "row-7-peer-under",
        "Row 7: a peer difference of -2^127 - 1 is refused, one of -2^127 halved to -2^126; a \
         wider sum returns -2^126 for both.",
        End::listening().done(1, PEER).ids(0, 0, 2),
    )
}

fn peer_by_stamp() -> Case {
    let mut s = Script::new(peer(0));
    s.set(NewState::Faulty).reset();
    s.request_peer(0);
    s.event(TOP - 5, &two_step_response(0).with_ns(2)).nothing();
    s.general(&response_follow_up(0).with_ns(1)).nothing();
    // 2^127 - 6 - stamp + 2^32
    s.stamp(units(1) - 6, Context::PDelayReq(0)).refused(7);
    s.stamp(units(1) - 5, Context::PDelayReq(0))
        .recovery((1 << 126) - 1, TOP - 5);
    s.end(
        "row-7-peer-by-stamp",
        "Row 7: a stamp that completes the exchange out of range is refused, without reset or \
         measurement, and a later one completes it; a port that stores it first does nothing then.",
        End::listening().done(0, PEER).ids(0, 0, 1),
    )
}
