//! Ids are compared in all their sixteen bits: another one differs in any single bit.

use crate::cast::*;
use crate::record::End;
use crate::script::Script;
use crate::Case;

const ABOUT: &str =
    "An id that differs in one bit is another id; a port that compares a byte of it measures early.";

/// The ids that differ from 0 in one bit.
fn others() -> impl Iterator<Item = u16> {
    (0..16).map(|bit| 1 << bit)
}

pub fn all() -> Vec<Case> {
    vec![sync_ids(), delay_ids(), peer_ids()]
}

/// Each FollowUp of another id replaces what is open, and each Sync 0 that in turn.
fn sync_ids() -> Case {
    let mut s = Script::new(end_to_end(0));
    s.slave(MASTER).nothing();
    for id in others() {
        s.event(units(1_000), &two_step_sync(0)).nothing();
        s.general(&follow_up(id).with_ns(900)).nothing();
    }
    s.event(units(1_000), &two_step_sync(0)).nothing();
    s.general(&follow_up(0).with_ns(900))
        .sync(duration(100), units(1_000), None);
    s.end("ids-of-sync", ABOUT, End::slave(MASTER).raw(duration(100)))
}

fn delay_ids() -> Case {
    let mut s = Script::new(end_to_end(0));
    s.slave(MASTER).nothing();
    s.request_delay(0);
    for id in others() {
        s.stamp(units(1), Context::DelayReq(id)).nothing();
        s.general(&delay_resp(id).with_ns(2)).nothing();
    }
    s.stamp(units(70), Context::DelayReq(0)).nothing();
    s.general(&delay_resp(0).with_ns(30))
        .delay(duration(40), units(70), None);
    s.end("ids-of-delay", ABOUT, End::slave(MASTER).ids(0, 1, 0))
}

/// A rival's answer to another id is none to ours either, once the peer has answered.
fn peer_ids() -> Case {
    let mut s = Script::new(peer(0));
    s.request_peer(0);
    for id in others() {
        s.stamp(units(1), Context::PDelayReq(id)).nothing();
        s.event(units(2), &response(id).with_ns(3)).nothing();
        s.general(&response_follow_up(id).with_ns(4)).nothing();
    }
    s.event(units(1_101), &response(0).with_ns(5_000)).nothing();
    for id in others() {
        s.event(units(2), &by(RIVAL, response(id))).nothing();
        s.general(&by(RIVAL, response_follow_up(id))).nothing();
    }
    // 101 / 2 ns are 101 * 2^31 units.
    s.stamp(units(1_000), Context::PDelayReq(0))
        .peer(101 << 31, units(1_101));
    for id in others() {
        s.event(units(2), &by(RIVAL, response(id))).nothing();
    }
    let end = End::listening().done(0, PEER).ids(0, 0, 1);
    s.end("ids-of-peer", ABOUT, end)
}
