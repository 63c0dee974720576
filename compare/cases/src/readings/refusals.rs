//! Readings 8 to 12: what is refused, and in which order.

use crate::cast::*;
use crate::record::End;
use crate::script::Script;
use crate::Case;

pub fn all() -> Vec<Case> {
    vec![
        time_first(),
        host_types(),
        both_entries(),
        general_types(),
        guard_first(),
        peer_works_nothing_out(),
        corrected_times(),
        asymmetry_last(),
        stays_open(),
    ]
}

fn time_first() -> Case {
    let mut s = Script::new(end_to_end(0));
    let over = 1 << 127;
    s.event_bytes(over, &[]).refused(3);
    s.event_bytes(TOP, &[]).refused(4);
    let short = &two_step_sync(1).to_bytes()[..40];
    s.event_bytes(over, short).refused(3);
    s.event_bytes(TOP, short).refused(5);
    s.event(over, &foreign(sync(1))).refused(3);
    s.event(TOP, &foreign(sync(1))).refused(6);
    // The port is Listening: none of these would use the number.
    s.event(over, &sync(1)).refused(3);
    s.event(over, &follow_up(1)).refused(3);
    s.stamp(over, Context::Sync(1)).refused(3);
    s.delay_timer(1 << 52).refused(3);
    s.event(TOP, &sync(1)).nothing();
    s.event(TOP, &follow_up(1)).nothing();
    s.stamp(TOP, Context::Sync(1)).nothing();
    s.delay_timer((1 << 52) - 1).nothing();
    s.end(
        "reading-08-limits-first",
        "Reading 8: 3 is given before 4, 5 and 6 and even where nothing would be done; a lazy port \
         answers 0.",
        End::listening(),
    )
}

fn host_types() -> Case {
    let mut s = Script::new(end_to_end(0));
    for kind in 11..=13 {
        let host = of_type(kind, sync(1)).with_length(34);
        let bytes = host.to_bytes();
        s.event(5, &host).refused(8);
        s.general_bytes(&bytes[..34]).refused(8);
        for length in [0, 33] {
            let short = host.clone().with_length(length);
            s.event(5, &short).refused(5);
            s.general(&short).refused(5);
        }
        s.general(&host.clone().with_length(44)).refused(8);
        s.general(&host.clone().with_length(45)).refused(5);
        s.general_bytes(&bytes[..33]).refused(5);
        s.general(&foreign(host)).refused(6);
    }
    s.end(
        "reading-09-host-types",
        "Reading 9: types 11 to 13 need no body, and 6 comes before 8; a port that wants 44 or 64 \
         bytes answers 5.",
        End::listening(),
    )
}

fn both_entries() -> Case {
    let mut s = Script::new(peer(0));
    s.slave(MASTER).nothing();
    for kind in [0, 1, 2, 3, 8, 9, 10] {
        let good = of_type(kind, sync(1)).with_requester(US);
        let old = in_version(0, 1, good.clone());
        let short = good.clone().with_length(good.to_bytes().len() as u16 - 1);
        for (message, number) in [(old, 4), (short, 5), (foreign(good), 6)] {
            s.event(units(1), &message).refused(number);
            s.general(&message).refused(number);
        }
    }
    s.end(
        "reading-10-both-entries",
        "Reading 10: rows 4, 5 and 6 hold for every type on both entries; a port that drops types \
         0 to 3 early answers 0.",
        End::slave(MASTER),
    )
}

fn general_types() -> Case {
    let mut s = Script::new(peer(0));
    s.request_peer(0);
    s.event(units(700), &two_step_response(0).with_ns(50))
        .nothing();
    // A second responder, but on the general entry.
    s.general(&by(RIVAL, two_step_response(0))).nothing();
    s.general(&by(RIVAL, response(0))).nothing();
    s.set(NewState::Master).nothing();
    s.general(&delay_req(3)).nothing();
    s.general(&pdelay_req(3)).nothing();
    s.slave(MASTER).nothing();
    s.general(&sync(3)).nothing();
    s.general(&two_step_sync(3).with_correction(i64::MIN))
        .nothing();
    // The same responder by the event entry.
    s.event(units(700), &by(RIVAL, response(0))).reset();
    s.end(
        "reading-10-general-entry",
        "Reading 10: types 0 to 3 on the general entry do nothing at all; a port that tests for a \
         second responder first is Faulty too soon.",
        End::faulty()
            .open(
                0,
                Some(PEER),
                [None, Some(units(50)), None, Some(units(700))],
            )
            .ids(0, 0, 1),
    )
}

fn guard_first() -> Case {
    let mut s = Script::new(end_to_end(0));
    let early = |message: Message| message.with_correction(i64::MAX);
    let negative = follow_up(5).with_correction(i64::MIN);
    s.event(0, &early(sync(5))).nothing();
    s.general(&negative).nothing();
    s.slave(PEER).nothing();
    s.event(0, &early(sync(5))).nothing();
    s.general(&negative).nothing();
    s.slave(MASTER).reset();
    s.event(0, &early(sync(5))).refused(7);
    s.event(0, &early(two_step_sync(5))).refused(7);
    s.general(&negative).refused(7);
    s.event(units(80), &two_step_sync(5)).nothing();
    s.event(0, &early(sync(5))).refused(7);
    s.event(0, &early(two_step_sync(5))).refused(7);
    s.event(0, &sync(5)).nothing();
    s.general(&follow_up(5).with_ns(30))
        .sync(duration(50), units(80), None);
    s.end(
        "reading-11-guard-then-sum",
        "Reading 11: guard, then sum, then duplicate; in another order a message outside the guard \
         is answered 7, or a duplicate inside it 0.",
        End::slave(MASTER).raw(duration(50)),
    )
}

fn peer_works_nothing_out() -> Case {
    let mut s = Script::new(peer(0));
    let late = |message: Message| message.with_correction(i64::MAX);
    let early = |message: Message| message.with_correction(i64::MIN);
    s.event(0, &late(response(0))).nothing();
    s.general(&early(response_follow_up(0))).nothing();
    s.request_peer(0);
    s.event(0, &late(response(1))).nothing();
    s.event(0, &late(response(0).with_requester(MASTER)))
        .nothing();
    s.event(0, &late(response(0))).refused(7);
    s.general(&early(response_follow_up(0))).refused(7);
    s.event(units(300), &two_step_response(0).with_ns(40))
        .nothing();
    s.event(0, &late(two_step_response(0))).nothing();
    s.event(0, &late(by(RIVAL, two_step_response(0)))).reset();
    s.general(&early(by(RIVAL, response_follow_up(0)))).reset();
    s.general(&response_follow_up(0).with_ns(60)).nothing();
    s.general(&early(response_follow_up(0))).nothing();
    // ((300 - 100) - (60 - 40)) / 2
    s.stamp(units(100), Context::PDelayReq(0))
        .recovery(duration(90), units(300));
    s.event(0, &late(response(0))).nothing();
    s.general(&early(response_follow_up(0))).nothing();
    s.event(0, &late(by(RIVAL, response(0)))).reset();
    s.end(
        "reading-11-peer-guard",
        "Reading 11: peer answers that change nothing are not worked out, and a second responder \
         makes the port Faulty whatever it corrects by; else 7.",
        End::faulty().done(0, PEER).ids(0, 0, 1),
    )
}

fn corrected_times() -> Case {
    let mut s = Script::new(end_to_end(0));
    s.slave(MASTER).nothing();
    let one = |message: Message| message.with_correction(1);
    s.event(STEP - 1, &one(two_step_sync(1))).refused(7);
    s.event(STEP, &one(two_step_sync(1))).nothing();
    s.general(&follow_up(1).with_ns(1))
        .sync(-duration(1), 0, None);
    let back = |message: Message| message.with_correction(-1);
    s.event(TOP, &back(two_step_sync(2))).refused(7);
    s.event(TOP - STEP + 1, &back(two_step_sync(2))).refused(7);
    s.event(TOP - STEP, &back(two_step_sync(2))).nothing();
    s.general(&follow_up(2)).sync(i128::MAX, TOP, None);
    s.end(
        "reading-12-corrected-times",
        "Reading 12: what a correction leaves must be a time again; a port that keeps negative or \
         too large ones answers 0.",
        End::slave(MASTER).raw(i128::MAX),
    )
}

fn asymmetry_last() -> Case {
    // Receive less send is at most 2^127 - 1; the asymmetry then brings it back.
    let mut s = Script::new(end_to_end(i128::MAX));
    s.slave(MASTER).nothing();
    s.event(TOP, &sync(1)).sync(0, TOP, None);
    s.event(0, &sync(2)).sync(-i128::MAX, 0, None);
    s.event(units(1) - 1, &sync(3).with_ns(1))
        .sync(i128::MIN, units(1) - 1, None);
    s.event(units(1) - 2, &sync(3).with_ns(1)).refused(7);
    s.end(
        "reading-12-asymmetry-last",
        "Reading 12: asymmetry comes off the difference of the times; added to the send time \
         first, the third is refused.",
        End::slave(MASTER).raw(i128::MIN),
    )
}

fn stays_open() -> Case {
    let mut s = Script::new(end_to_end(0));
    s.slave(MASTER).nothing();
    s.mean(i128::MIN);
    // The offset would be 100 ns + 2^127.
    s.event(units(1_000), &two_step_sync(7)).nothing();
    s.general(&follow_up(7).with_ns(900)).refused(7);
    // And so for a one-step Sync of another id: 7 is open all the same.
    s.event(units(1_000), &sync(8).with_ns(900)).refused(7);
    s.mean(duration(1));
    s.general(&follow_up(7).with_ns(880))
        .sync(duration(120), units(1_000), Some(duration(119)));
    s.end(
        "reading-12-exchange-stays",
        "Reading 12: a 7 leaves exchange and last raw as they were, so a later FollowUp completes \
         it; a port that stored first keeps 900 ns.",
        End::slave(MASTER).raw(duration(120)).mean(duration(1)),
    )
}
