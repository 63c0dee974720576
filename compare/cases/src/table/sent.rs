//! Row 7, fields of messages that are sent: 48-bit seconds and 64-bit corrections.
//!
//! Times are never negative and f only lowers a correction, so each has one end.

use crate::cast::*;
use crate::record::End;
use crate::script::Script;
use crate::Case;

pub fn all() -> Vec<Case> {
    vec![
        follow_up_seconds(),
        response_follow_up_seconds(),
        delay_resp_seconds(),
        response_seconds(),
        delay_resp_correction(),
        response_correction(),
        refused_leaves_ids(),
    ]
}

/// The last second that can be sent, with all but the last unit of it.
const SECONDS: u64 = 0xFFFF_FFFF_FFFF;

fn latest(message: Message) -> Message {
    message.with_timestamp(SECONDS, 999_999_999)
}

fn follow_up_seconds() -> Case {
    let mut s = Script::new(end_to_end(0));
    s.set(NewState::Master).nothing();
    s.stamp(LATE, Context::Sync(3)).refused(7);
    s.stamp(TOP, Context::Sync(3)).refused(7);
    s.stamp(LATE - 1, Context::Sync(3))
        .sends(&latest(sent(8, 3)).with_correction(0xFFFF), "general");
    s.stamp(LATE - units(1), Context::Sync(3))
        .sends(&latest(sent(8, 3)), "general");
    s.end(
        "row-7-follow-up-seconds",
        "Row 7: a Sync stamp of 2^48 s is refused as Master, one unit less sent; a port that cuts \
         the seconds sends 0.",
        End::master(),
    )
}

fn response_follow_up_seconds() -> Case {
    let mut s = Script::new(peer(0));
    let context = Context::PDelayResp(3, RIVAL);
    s.stamp(LATE, context).refused(7);
    s.stamp(TOP, context).refused(7);
    let answer = latest(sent(10, 3)).with_requester(RIVAL);
    s.stamp(LATE - 1, context)
        .sends(&answer.clone().with_correction(0xFFFF), "general:link");
    s.stamp(LATE - STEP, context)
        .sends(&answer.with_correction(0xFFFF), "general:link");
    s.end(
        "row-7-response-follow-up-seconds",
        "Row 7: a PDelayResp stamp of 2^48 s is refused, one unit less sent; a port that cuts the \
         seconds sends 0.",
        End::listening(),
    )
}

fn delay_resp_seconds() -> Case {
    let mut s = Script::new(peer(0));
    s.set(NewState::Master).nothing();
    s.event(LATE, &delay_req(4)).refused(7);
    // Not the lowest correction: it is the seconds alone.
    s.event(TOP, &delay_req(4).with_correction(5)).refused(7);
    let answer = latest(sent(9, 4)).with_requester(CLIENT);
    s.event(LATE - 1, &delay_req(4).with_correction(0xFFFF))
        .sends(&answer, "general");
    s.end(
        "row-7-delay-resp-seconds",
        "Row 7: a DelayReq received at 2^48 s is refused as Master, one unit earlier answered; a \
         port that cuts the seconds answers with 0.",
        End::master(),
    )
}

fn response_seconds() -> Case {
    let mut s = Script::new(end_to_end(0));
    s.event(LATE, &pdelay_req(4)).refused(7);
    s.event(TOP, &pdelay_req(4).with_correction(5)).refused(7);
    let answer = latest(sent(3, 4)).with_requester(CLIENT);
    s.event(LATE - 1, &pdelay_req(4).with_correction(0xFFFF))
        .sends(&answer, &answers_peer(4, CLIENT));
    s.end(
        "row-7-response-seconds",
        "Row 7: a PDelayReq received at 2^48 s is refused in any state, one unit earlier answered; \
         a port that cuts the seconds answers with 0.",
        End::listening(),
    )
}

/// Requests whose correction, less f, lies about the lowest, with what is sent of it.
const CORRECTIONS: [(u128, i64, Option<i64>); 8] = [
    (0x0001_0000, i64::MIN, None),
    (0xFFFF_FFFF, i64::MIN, None),
    (0xFFFF_0000, i64::MIN + 0xFFFE, None),
    (0x0000_FFFF, i64::MIN, Some(i64::MIN)),
    (0x0001_0000, i64::MIN + 1, Some(i64::MIN)),
    (0xFFFF_FFFF, i64::MIN + 0xFFFF, Some(i64::MIN)),
    (0x0000_0000, i64::MAX, Some(i64::MAX)),
    (0xFFFF_0000, i64::MAX, Some(i64::MAX - 0xFFFF)),
];

fn delay_resp_correction() -> Case {
    let mut s = Script::new(end_to_end(0));
    s.set(NewState::Master).nothing();
    let answer = sent(9, 5).with_ns(61).with_requester(CLIENT);
    for (fraction, given, left) in CORRECTIONS {
        let request = delay_req(5).with_correction(given);
        let step = s.event(units(61) + fraction, &request);
        match left {
            None => step.refused(7),
            Some(left) => step.sends(&answer.clone().with_correction(left), "general"),
        }
    }
    s.end(
        "row-7-delay-resp-correction",
        "Row 7: a correction that would fall below -2^63 is refused, -2^63 itself sent; a wrapping \
         port sends a huge positive one.",
        End::master(),
    )
}

fn response_correction() -> Case {
    let mut s = Script::new(peer(0));
    let answer = sent(3, 5).with_ns(61).with_requester(CLIENT);
    for (fraction, given, left) in CORRECTIONS {
        let request = pdelay_req(5).with_correction(given);
        let step = s.event(units(61) + fraction, &request);
        match left {
            None => step.refused(7),
            Some(left) => step.sends(
                &answer.clone().with_correction(left),
                &answers_peer(5, CLIENT),
            ),
        }
    }
    s.end(
        "row-7-response-correction",
        "Row 7: a PDelayResp's correction below -2^63 is refused, -2^63 itself sent; a wrapping \
         port sends a huge positive one.",
        End::listening(),
    )
}

fn refused_leaves_ids() -> Case {
    let mut s = Script::new(peer(0));
    s.set(NewState::Master).nothing();
    s.request_peer(0);
    s.send_sync(0);
    s.stamp(LATE, Context::Sync(0)).refused(7);
    s.event(LATE, &pdelay_req(9)).refused(7);
    s.stamp(LATE, Context::PDelayReq(0)).nothing();
    s.send_sync(1);
    s.stamp(units(4), Context::Sync(0))
        .sends(&sent(8, 0).with_ns(4), "general");
    // The request's own stamp is not sent, so 2^48 s is as good as any: a response
    // 10 ns later.
    s.event(LATE + units(10), &response(0))
        .peer(duration(5), LATE + units(10));
    s.end(
        "row-7-refused-stamps",
        "Row 7: a refused stamp sends nothing and a better one is taken, while our own request's \
         stamp may be any time, since it is not sent; a port that splits every stamp answers 7.",
        End::master().done(0, PEER).ids(2, 0, 1),
    )
}
