//! The marked examples of 01 as whole logs.

use crate::cast::*;
use crate::record::End;
use crate::script::Script;
use crate::Case;

pub fn all() -> Vec<Case> {
    vec![
        a(),
        b(),
        c(),
        d(),
        e(),
        f(),
        g(),
        h_peer(),
        h_delay(),
        j_delay(),
        j_peer(),
    ]
}

/// Example I, once for each generator of ids.
pub fn wrap() -> Vec<Case> {
    vec![i_sync(), i_delay(), i_peer()]
}

fn a() -> Case {
    let mut s = Script::new(end_to_end(0));
    s.slave(MASTER).nothing();
    s.event(units(1_000), &two_step_sync(7)).nothing();
    s.general(&follow_up(7).with_ns(900))
        .sync(duration(100), units(1_000), None);
    s.end(
        "example-a",
        "Example A: Sync then FollowUp make one raw offset of 100 ns; a port that waits for more \
         answers nothing.",
        End::slave(MASTER).raw(duration(100)),
    )
}

fn b() -> Case {
    let mut s = Script::new(end_to_end(0));
    s.slave(MASTER).nothing();
    s.general(&follow_up(7).with_ns(900)).nothing();
    s.event(units(1_000), &two_step_sync(7))
        .sync(duration(100), units(1_000), None);
    s.end(
        "example-b",
        "Example B: the FollowUp may come first; a port that drops it measures nothing.",
        End::slave(MASTER).raw(duration(100)),
    )
}

fn c() -> Case {
    let mut s = Script::new(end_to_end(0));
    s.slave(MASTER).nothing();
    s.general(&follow_up(7).with_ns(900)).nothing();
    s.event(units(1_000), &sync(7).with_ns(950)).nothing();
    s.end(
        "example-c",
        "Example C: a one-step Sync does not join a FollowUp of its id; a wrong port measures 50 \
         or 100 ns.",
        End::slave(MASTER).sync(7, Some(units(900)), None),
    )
}

fn d() -> Case {
    let mut s = Script::new(end_to_end(0));
    s.slave(MASTER).nothing();
    s.event(units(1_000), &two_step_sync(7)).nothing();
    s.general(&follow_up(8).with_ns(900)).nothing();
    s.end(
        "example-d",
        "Example D: the FollowUp of another id replaces the open exchange; a wrong port measures \
         or keeps 7.",
        End::slave(MASTER).sync(8, Some(units(900)), None),
    )
}

fn e() -> Case {
    let mut s = Script::new(peer(0));
    s.request_peer(0);
    s.stamp(units(1_000), Context::PDelayReq(0)).nothing();
    s.event(units(1_101), &two_step_response(0).with_ns(5_000))
        .nothing();
    // (101 - 40) / 2 ns, and 61 / 2 ns are 61 * 2^31 units.
    s.general(&response_follow_up(0).with_ns(5_040))
        .peer(61 << 31, units(1_101));
    s.end(
        "example-e",
        "Example E: a two-step peer exchange gives 30.5 ns; whole nanoseconds would give 30.",
        End::listening().done(0, PEER).ids(0, 0, 1),
    )
}

fn f() -> Case {
    let mut s = Script::new(peer(0));
    s.request_peer(0);
    s.stamp(units(1_000), Context::PDelayReq(0)).nothing();
    // Received at 1101 - 40 = 1061 ns; nothing is spent at the peer: 61 / 2 ns.
    let message = response(0).with_ns(5_000).with_correction(correction(40));
    s.event(units(1_101), &message).peer(61 << 31, units(1_061));
    s.end(
        "example-f",
        "Example F: a one-step response is complete by itself; a wrong port waits for a follow-up.",
        End::listening().done(0, PEER).ids(0, 0, 1),
    )
}

fn g() -> Case {
    let mut s = Script::new(end_to_end(duration(10)));
    s.slave(MASTER).nothing();
    s.event(units(1_100), &two_step_sync(0x1234)).nothing();
    s.general(&follow_up(0x1234).with_ns(1_000))
        .sync(duration(90), units(1_100), None);
    s.request_delay(0);
    s.stamp(units(2_000), Context::DelayReq(0)).nothing();
    s.general(&delay_resp(0).with_ns(1_990))
        .delay(0, units(2_000), Some(duration(45)));
    s.end(
        "example-g",
        "Example G: asymmetry is taken off both raws and cancels in the delay; else 100, 10, or 50 \
         ns.",
        End::slave(MASTER).raw(duration(90)).ids(0, 1, 0),
    )
}

/// Differences of a few units with their halves.
const HALVES: [(u16, i128, i128); 8] = [
    (0, -3, -1),
    (1, 3, 1),
    (2, -1, 0),
    (3, 1, 0),
    (4, -2, -1),
    (5, 2, 1),
    (6, -5, -2),
    (7, 0, 0),
];

fn h_peer() -> Case {
    let mut s = Script::new(peer(0));
    for (id, difference, half) in HALVES {
        let back = (units(1_000) as i128 + difference) as u128;
        s.request_peer(id);
        s.stamp(units(1_000), Context::PDelayReq(id)).nothing();
        s.event(back, &response(id).with_ns(77)).peer(half, back);
    }
    s.end(
        "example-h-peer",
        "Example H on peer delays: halves of odd numbers drop a unit towards zero; a shift gives \
         -2 for -3.",
        End::listening().done(7, PEER).ids(0, 0, 8),
    )
}

fn h_delay() -> Case {
    let mut s = Script::new(end_to_end(7));
    s.slave(MASTER).nothing();
    let raw = duration(100) - 7;
    s.event(units(1_000), &sync(40).with_ns(900))
        .sync(raw, units(1_000), None);
    for (id, difference, half) in HALVES {
        // The delay's raw is the sync's less the difference.
        let out = (units(2_000) as i128 - difference) as u128;
        s.request_delay(id);
        s.stamp(out, Context::DelayReq(id)).nothing();
        s.general(&delay_resp(id).with_ns(1_900))
            .delay(raw - difference, out, Some(half));
    }
    s.end(
        "example-h-delay",
        "Example H on end-to-end delays: the same halves; a shift gives one unit less for negative \
         ones.",
        End::slave(MASTER).raw(raw).ids(0, 8, 0),
    )
}

/// Sequence ids from the first to the one behind the last.
fn ids() -> impl Iterator<Item = u16> {
    (0..=65_536_u32).map(|number| number as u16)
}

/// The place of the last id among these. From there on exchanges are completed too.
const LAST: usize = 65_535;

const WRAP: &str =
    "Example I: id 0 follows 65535; a wrong generator stops, refuses or starts again at 1.";

fn i_sync() -> Case {
    let mut s = Script::new(end_to_end(0));
    s.set(NewState::Master).nothing();
    ids().for_each(|id| s.send_sync(id));
    s.stamp(units(44), Context::Sync(0))
        .sends(&sent(8, 0).with_ns(44), "general");
    s.end("example-i-sync", WRAP, End::master().ids(1, 0, 0))
}

fn i_delay() -> Case {
    let mut s = Script::new(end_to_end(0));
    s.slave(MASTER).nothing();
    for (number, id) in ids().enumerate() {
        s.request_delay(id);
        if number >= LAST {
            s.stamp(units(70), Context::DelayReq(id)).nothing();
            s.general(&delay_resp(id).with_ns(30))
                .delay(duration(40), units(70), None);
        }
    }
    let end = End::slave(MASTER).ids(0, 1, 0);
    s.end("example-i-delay", WRAP, end)
}

fn i_peer() -> Case {
    let mut s = Script::new(peer(0));
    for (number, id) in ids().enumerate() {
        s.request_peer(id);
        if number >= LAST {
            s.stamp(units(1_000), Context::PDelayReq(id)).nothing();
            // 101 ns there and back, and 101 / 2 ns are 101 * 2^31 units.
            s.event(units(1_101), &response(id).with_ns(5_000))
                .peer(101 << 31, units(1_101));
        }
    }
    let end = End::listening().done(0, PEER).ids(0, 0, 1);
    s.end("example-i-peer", WRAP, end)
}

const DRAW: &str =
    "Example J: the middle draw gives the interval itself; cut, it is one nanosecond less.";

fn j_delay() -> Case {
    let delay_interval = 0;
    let mut s = Script::new(Config {
        delay_interval,
        ..end_to_end(0)
    });
    s.slave(MASTER).nothing();
    s.delay_timer((1 << 51) - 1)
        .sends(&sent(1, 0), "delay-timer:1000000000,event:1:0");
    let end = End::slave(MASTER).delay(0, None, None).ids(0, 1, 0);
    s.end("example-j-delay", DRAW, end)
}

fn j_peer() -> Case {
    let delay_interval = 0;
    let mut s = Script::new(Config {
        delay_interval,
        ..peer(0)
    });
    s.delay_timer((1 << 51) - 1)
        .sends(&sent(2, 0), "delay-timer:1000000000,event:2:0:link");
    let end = End::listening().open(0, None, [None; 4]).ids(0, 0, 1);
    s.end("example-j-peer", DRAW, end)
}
