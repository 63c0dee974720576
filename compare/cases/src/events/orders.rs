//! A peer exchange's parts in every order.

use crate::cast::*;
use crate::record::End;
use crate::script::Script;
use crate::Case;

pub fn all() -> Vec<Case> {
    vec![two_step(), two_step_as_slave(), one_step(), interleaved()]
}

/// Stamp, response and follow-up by number.
const ORDERS: [[u8; 3]; 6] = [
    [0, 1, 2],
    [0, 2, 1],
    [1, 0, 2],
    [1, 2, 0],
    [2, 0, 1],
    [2, 1, 0],
];

/// One two-step exchange in the given order, sent at 1,000 ns, received by the peer at
/// 70,000 ns, answered `spent` ns later, received `under_way` ns after it was sent.
/// The response carries a correction of 4 ns, its follow-up one of -6 ns.
fn exchange(s: &mut Script, id: u16, order: [u8; 3], under_way: i128, spent: i128) {
    let back = (units(1_000) as i128 + duration(under_way)) as u128;
    let response = two_step_response(id)
        .with_ns(70_000)
        .with_correction(correction(4));
    let sent_at = 70_000 + spent as u64;
    let late = response_follow_up(id)
        .with_ns(sent_at)
        .with_correction(correction(-6));
    s.request_peer(id);
    for (place, part) in order.into_iter().enumerate() {
        let step = match part {
            0 => s.stamp(units(1_000), Context::PDelayReq(id)),
            1 => s.event(back, &response),
            _ => s.general(&late),
        };
        match place {
            // ((under_way - 4) - (spent - 6)) / 2
            2 => step.peer((under_way - spent + 2) << 31, back - units(4)),
            _ => step.nothing(),
        }
    }
}

fn two_step() -> Case {
    let mut s = Script::new(peer(duration(9)));
    for (id, order) in (0..).zip(ORDERS) {
        exchange(&mut s, id, order, 300 + 10 * i128::from(id), 40);
    }
    s.end(
        "peer-orders-two-step",
        "Stamp, response and follow-up complete a peer exchange in each of their six orders; a \
         port that wants one of them first stays open.",
        End::listening().done(5, PEER).ids(0, 0, 6),
    )
}

fn two_step_as_slave() -> Case {
    let mut s = Script::new(peer(0));
    s.slave(MASTER).nothing();
    s.event(units(90), &two_step_sync(2)).nothing();
    for (id, order) in (0..).zip(ORDERS) {
        // Longer at the peer than under way, and odd halves.
        exchange(&mut s, id, order, 101, 5_000 + i128::from(id));
    }
    s.general(&follow_up(2).with_ns(60))
        .sync(duration(30), units(90), None);
    s.end(
        "peer-orders-as-slave",
        "The six orders as Slave, with negative delays; a port that empties or changes the Slave \
         by it loses the open sync.",
        End::slave(MASTER)
            .raw(duration(30))
            .done(5, PEER)
            .ids(0, 0, 6),
    )
}

fn one_step() -> Case {
    let mut s = Script::new(peer(0));
    let c = correction(-3) - 1;
    // 203 ns and a step under way; a half of that is a whole number of units.
    let (half, back) = ((203 << 31) + 32_768, units(1_203) + STEP);
    s.request_peer(0);
    s.stamp(units(1_000), Context::PDelayReq(0)).nothing();
    s.event(units(1_200), &response(0).with_correction(c))
        .peer(half, back);
    s.request_peer(1);
    s.event(units(1_200), &response(1).with_correction(c))
        .nothing();
    s.stamp(units(1_000), Context::PDelayReq(1))
        .peer(half, back);
    // A follow-up that nobody needs, before and after.
    s.request_peer(2);
    s.general(&response_follow_up(2).with_ns(99)).nothing();
    s.stamp(units(1_000), Context::PDelayReq(2)).nothing();
    s.event(units(1_200), &response(2).with_correction(c))
        .peer(half, back);
    s.request_peer(3);
    s.event(units(1_200), &response(3).with_correction(c))
        .nothing();
    s.general(&response_follow_up(3).with_ns(99)).nothing();
    s.stamp(units(1_000), Context::PDelayReq(3))
        .peer(half, back);
    s.general(&response_follow_up(3).with_ns(99)).nothing();
    s.end(
        "peer-orders-one-step",
        "A one-step response and the stamp complete in either order, and a stray follow-up of the \
         responder changes nothing; a port that takes it gives another delay or waits for it.",
        End::listening().done(3, PEER).ids(0, 0, 4),
    )
}

fn interleaved() -> Case {
    let mut s = Script::new(peer(0));
    s.slave(MASTER).nothing();
    s.request_peer(0);
    s.general(&follow_up(0).with_ns(60)).nothing();
    s.general(&response_follow_up(0).with_ns(560)).nothing();
    s.event(units(7), &pdelay_req(0)).answers(3, 0, 7);
    s.event(units(90), &two_step_sync(0))
        .sync(duration(30), units(90), None);
    s.stamp(units(8), Context::PDelayResp(0, CLIENT))
        .answers(10, 0, 8);
    s.event(units(400), &two_step_response(0).with_ns(500))
        .nothing();
    s.mean(duration(11));
    // ((400 - 100) - (560 - 500)) / 2
    s.stamp(units(100), Context::PDelayReq(0))
        .peer(duration(120), units(400));
    s.end(
        "peer-interleaved",
        "A peer exchange, a sync, a request of another and its answer, all with id 0, do not \
         disturb each other; a port that goes by the id alone mixes them.",
        End::slave(MASTER)
            .raw(duration(30))
            .done(0, PEER)
            .mean(duration(11))
            .ids(0, 0, 1),
    )
}
