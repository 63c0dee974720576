//! Sync and FollowUp.

use super::{slave, ROUND};
use crate::cast::*;
use crate::record::End;
use crate::script::Script;
use crate::Case;

pub fn all() -> Vec<Case> {
    vec![
        slaves_only(),
        master_only(),
        first_receive_time(),
        first_send_time(),
        follow_up_then_sync(),
        sync_replaces(),
        follow_up_replaces(),
        own_timestamp(),
        any_id(),
        event_entry(),
        under_peer(),
    ]
}

fn slaves_only() -> Case {
    let mut s = Script::new(end_to_end(0));
    for (state, reset) in ROUND {
        s.set(state).resets(reset);
        s.event(units(90), &sync(1).with_ns(50)).nothing();
        s.event(units(90), &two_step_sync(2)).nothing();
        s.general(&follow_up(2).with_ns(50)).nothing();
        s.event(units(90), &follow_up(3).with_ns(50)).nothing();
    }
    // Nothing of it waits for the Slave.
    s.slave(MASTER).reset();
    s.event(units(90), &two_step_sync(3)).nothing();
    s.end(
        "sync-as-slave-only",
        "Sync and FollowUp count as Slave only; a port that stores them earlier measures at the \
         end.",
        End::slave(MASTER).sync(3, None, Some(units(90))),
    )
}

fn master_only() -> Case {
    let mut s = slave();
    s.event(units(90), &two_step_sync(2)).nothing();
    for byte in 0..10 {
        let other = near(MASTER, byte);
        s.event(units(95), &by(other, sync(1).with_ns(50)))
            .nothing();
        s.event(units(95), &by(other, two_step_sync(3))).nothing();
        s.general(&by(other, follow_up(2).with_ns(50))).nothing();
    }
    s.general(&follow_up(2).with_ns(60))
        .sync(duration(30), units(90), None);
    s.end(
        "sync-from-master-only",
        "All ten bytes of the source must be our master's; a port that compares fewer measures 40 \
         ns, or replaces the exchange.",
        End::slave(MASTER).raw(duration(30)),
    )
}

fn first_receive_time() -> Case {
    let mut s = slave();
    s.event(units(90), &two_step_sync(7)).nothing();
    s.event(units(99), &two_step_sync(7)).nothing();
    s.event(units(80), &two_step_sync(7).with_correction(correction(-3)))
        .nothing();
    s.general(&follow_up(7).with_ns(60))
        .sync(duration(30), units(90), None);
    s.end(
        "sync-first-receive-time",
        "A second two-step Sync of the open id does not touch the receive time; the last one would \
         give 23 ns.",
        End::slave(MASTER).raw(duration(30)),
    )
}

fn first_send_time() -> Case {
    let mut s = slave();
    s.general(&follow_up(7).with_ns(60)).nothing();
    s.general(&follow_up(7).with_ns(65)).nothing();
    s.general(&follow_up(7).with_ns(50).with_correction(9))
        .nothing();
    s.event(units(90), &two_step_sync(7))
        .sync(duration(30), units(90), None);
    s.end(
        "follow-up-first-send-time",
        "A second FollowUp of the open id does not touch the send time; its time would give 25 ns.",
        End::slave(MASTER).raw(duration(30)),
    )
}

fn follow_up_then_sync() -> Case {
    let mut s = slave();
    for (id, ns) in [(7, 60), (8, 61), (7, 62)] {
        s.general(&follow_up(id).with_ns(ns)).nothing();
        s.event(units(90), &two_step_sync(id))
            .sync(duration(90 - i128::from(ns)), units(90), None);
    }
    // Measured and gone: late copies open anew.
    s.event(units(99), &two_step_sync(7)).nothing();
    s.end(
        "follow-up-then-sync",
        "A two-step Sync joins the FollowUp that waits for it, exchange by exchange; a port that \
         is right in the first only fails in the second.",
        End::slave(MASTER)
            .sync(7, None, Some(units(99)))
            .raw(duration(28)),
    )
}

fn sync_replaces() -> Case {
    let mut s = slave();
    s.event(units(90), &two_step_sync(7)).nothing();
    s.event(units(95), &two_step_sync(8)).nothing();
    s.general(&follow_up(8).with_ns(60))
        .sync(duration(35), units(95), None);
    // 7 was replaced, so its FollowUp begins anew.
    s.general(&follow_up(7).with_ns(50)).nothing();
    // A Sync of another id replaces that as well.
    s.event(units(97), &two_step_sync(9)).nothing();
    s.event(units(98), &two_step_sync(7)).nothing();
    s.end(
        "sync-replaces",
        "A two-step Sync of another id replaces the open exchange, whichever half it holds; a port \
         with room for two measures 7.",
        End::slave(MASTER)
            .sync(7, None, Some(units(98)))
            .raw(duration(35)),
    )
}

fn follow_up_replaces() -> Case {
    let mut s = slave();
    s.event(units(90), &two_step_sync(7)).nothing();
    s.general(&follow_up(8).with_ns(60)).nothing();
    s.general(&follow_up(9).with_ns(61)).nothing();
    s.event(units(95), &two_step_sync(9))
        .sync(duration(34), units(95), None);
    s.event(units(96), &two_step_sync(8)).nothing();
    s.general(&follow_up(7).with_ns(62)).nothing();
    s.end(
        "follow-up-replaces",
        "A FollowUp of another id replaces the open exchange, whichever half it holds; a port that \
         keeps the older one measures 7 or 8.",
        End::slave(MASTER)
            .sync(7, Some(units(62)), None)
            .raw(duration(34)),
    )
}

fn own_timestamp() -> Case {
    let mut s = slave();
    s.event(units(90), &two_step_sync(7).with_ns(85)).nothing();
    s.general(&follow_up(7).with_ns(60).two_step())
        .sync(duration(30), units(90), None);
    s.event(
        units(90),
        &two_step_sync(8).with_timestamp(0xFFFF_FFFF_FFFF, u32::MAX),
    )
    .nothing();
    s.end(
        "two-step-own-timestamp",
        "A two-step Sync's own timestamp is not used, nor a flag on the FollowUp; else 5 ns come \
         out.",
        End::slave(MASTER)
            .sync(8, None, Some(units(90)))
            .raw(duration(30)),
    )
}

fn any_id() -> Case {
    let mut s = slave();
    for id in [0, 65_535, 0x00FF, 0xFF00, 0] {
        s.event(units(90), &two_step_sync(id)).nothing();
        s.general(&follow_up(id ^ 0x0100).with_ns(50)).nothing();
        s.event(units(92), &two_step_sync(id)).nothing();
        s.general(&follow_up(id).with_ns(60))
            .sync(duration(32), units(92), None);
    }
    s.end(
        "sync-any-id",
        "Ids may jump and go down, and all 16 bits count; a port that compares one byte or wants \
         rising ids measures otherwise.",
        End::slave(MASTER).raw(duration(32)),
    )
}

fn event_entry() -> Case {
    let mut s = slave();
    s.event(units(90), &two_step_sync(7)).nothing();
    s.event(units(444), &follow_up(7).with_ns(60))
        .sync(duration(30), units(90), None);
    s.request_delay(0);
    s.stamp(units(500), Context::DelayReq(0)).nothing();
    s.event(units(444), &delay_resp(0).with_ns(490)).delay(
        duration(10),
        units(500),
        Some(duration(10)),
    );
    // By the general entry a Sync does nothing, though its FollowUp waits.
    s.event(units(444), &follow_up(8).with_ns(70)).nothing();
    s.general(&two_step_sync(8)).nothing();
    s.end(
        "general-messages-on-event-entry",
        "FollowUp and DelayResp on the event entry work as on the general one and their receive \
         time is not used; a port that drops them measures nothing.",
        End::slave(MASTER)
            .sync(8, Some(units(70)), None)
            .raw(duration(30))
            .ids(0, 1, 0),
    )
}

fn under_peer() -> Case {
    let mut s = Script::new(peer(-duration(2)));
    s.mean(duration(40));
    s.slave(MASTER).nothing();
    s.general(&follow_up(7).with_ns(60)).nothing();
    s.event(units(90), &two_step_sync(7))
        .sync(duration(32), units(90), Some(-duration(8)));
    s.event(units(95), &sync(8).with_ns(20))
        .sync(duration(77), units(95), Some(duration(37)));
    s.end(
        "sync-under-peer",
        "Sync and FollowUp work alike under the peer mechanism, offset included; a port that keeps \
         them for end-to-end does nothing.",
        End::slave(MASTER).raw(duration(77)).mean(duration(40)),
    )
}
