//! Row 7, what a delay measurement works out, at both ends.

use crate::cast::*;
use crate::record::End;
use crate::script::Script;
use crate::Case;

pub fn all() -> Vec<Case> {
    vec![
        delay_raw_high(),
        delay_raw_low(),
        delay_high(),
        delay_low(),
        delay_cancels(),
    ]
}

const MIN: i128 = i128::MIN;
const MAX: i128 = i128::MAX;

fn delay_raw_high() -> Case {
    let mut s = Script::new(end_to_end(MIN));
    s.slave(MASTER).nothing();
    s.request_delay(0);
    s.general(&delay_resp(0).with_correction(-1)).nothing();
    // Sent when received: 0 + 2^127.
    s.stamp(STEP, Context::DelayReq(0)).refused(7);
    s.stamp(STEP - 1, Context::DelayReq(0))
        .delay(MAX, STEP - 1, None);
    s.request_delay(1);
    s.stamp(STEP, Context::DelayReq(1)).nothing();
    s.general(&delay_resp(1).with_correction(-1)).refused(7);
    s.general(&delay_resp(1).with_correction(-2))
        .delay(MAX - 65_535, STEP, None);
    s.end(
        "row-7-delay-raw-over",
        "Row 7: a delay raw of 2^127 is refused, by stamp or DelayResp, and the request stays open \
         for a better one; a port that stores first ignores that one.",
        End::slave(MASTER).ids(0, 2, 0),
    )
}

fn delay_raw_low() -> Case {
    let mut s = Script::new(end_to_end(MAX));
    s.slave(MASTER).nothing();
    s.request_delay(0);
    s.general(&delay_resp(0).with_correction(-1)).nothing();
    s.stamp(STEP - 2, Context::DelayReq(0)).refused(7);
    s.stamp(STEP - 1, Context::DelayReq(0))
        .delay(MIN, STEP - 1, None);
    s.request_delay(1);
    s.stamp(STEP - 2, Context::DelayReq(1)).nothing();
    s.general(&delay_resp(1).with_correction(-1)).refused(7);
    s.general(&delay_resp(1))
        .delay(MIN + 65_535, STEP - 2, None);
    s.end(
        "row-7-delay-raw-under",
        "Row 7: a delay raw of -2^127 - 1 is refused, one of -2^127 taken; a port with a symmetric \
         range refuses both.",
        End::slave(MASTER).ids(0, 2, 0),
    )
}

fn delay_high() -> Case {
    let mut s = Script::new(end_to_end(0));
    s.slave(MASTER).nothing();
    s.event(TOP, &sync(1)).sync(MAX, TOP, None);
    s.request_delay(0);
    s.general(&delay_resp(0).with_ns(1)).nothing();
    // 2^127 - 1 less -1.
    s.stamp(units(1) - 1, Context::DelayReq(0)).refused(7);
    // Half of 2^127 - 1.
    s.stamp(units(1), Context::DelayReq(0))
        .delay(0, units(1), Some((1 << 126) - 1));
    s.request_delay(1);
    s.stamp(units(2), Context::DelayReq(1)).nothing();
    s.general(&delay_resp(1).with_ns(3)).refused(7);
    // Half of 2^127 - 1 - 2^32.
    s.general(&delay_resp(1).with_ns(1)).delay(
        duration(1),
        units(2),
        Some((1 << 126) - (1 << 31) - 1),
    );
    s.end(
        "row-7-delay-over",
        "Row 7: the difference counts before it is halved: 2^127 is refused though its half would \
         fit; a wider sum returns 2^126.",
        End::slave(MASTER).raw(MAX).ids(0, 2, 0),
    )
}

fn delay_low() -> Case {
    let mut s = Script::new(end_to_end(0));
    s.slave(MASTER).nothing();
    s.event(units(1) - 2, &sync(1).with_ns(1))
        .sync(-2, units(1) - 2, None);
    s.request_delay(0);
    s.general(&delay_resp(0)).nothing();
    // -2 - (2^127 - 1)
    s.stamp(TOP, Context::DelayReq(0)).refused(7);
    s.stamp(TOP - 1, Context::DelayReq(0))
        .delay(MAX - 1, TOP - 1, Some(-(1 << 126)));
    s.event(units(1) - 1, &sync(2).with_ns(1))
        .sync(-1, units(1) - 1, None);
    s.request_delay(1);
    s.stamp(TOP, Context::DelayReq(1)).nothing();
    // -1 - (2^127 - 1)
    s.general(&delay_resp(1)).delay(MAX, TOP, Some(-(1 << 126)));
    s.end(
        "row-7-delay-under",
        "Row 7: a difference of -2^127 - 1 is refused, one of -2^127 halved to -2^126; a wider sum \
         returns -2^126 for both.",
        End::slave(MASTER).raw(-1).ids(0, 2, 0),
    )
}

fn delay_cancels() -> Case {
    let mut s = Script::new(end_to_end(MIN));
    s.slave(MASTER).nothing();
    s.event(units(1) - 1, &sync(1).with_ns(1))
        .sync(MAX, units(1) - 1, None);
    s.request_delay(0);
    s.stamp(0, Context::DelayReq(0)).nothing();
    // Raw -2^33 + 2^127, so the difference is -1 + 2^33.
    s.general(&delay_resp(0).with_ns(2))
        .delay(MAX - 0x1_FFFF_FFFF, 0, Some(0xFFFF_FFFF));
    s.end(
        "row-7-delay-of-large-raws",
        "Row 7, just inside: both raws are near 2^127 and their difference is small; a port that \
         adds them answers 7.",
        End::slave(MASTER).raw(MAX).ids(0, 1, 0),
    )
}
