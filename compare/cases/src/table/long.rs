//! Row 5 from above: a stated length beyond the table's is taken, and what lies behind the body
//! is not read.

use crate::cast::*;
use crate::record::End;
use crate::script::Script;
use crate::Case;

pub fn all() -> Vec<Case> {
    vec![
        long_for_a_slave(),
        long_for_a_peer(),
        long_for_a_master(),
        long_for_the_host(),
    ]
}

/// More bytes behind the body than a body has, all of them stated.
fn long(message: Message) -> Message {
    let length = message.to_bytes().len() as u16 + 30;
    message.with_extra(&[0x5A; 30]).with_length(length)
}

fn long_for_a_slave() -> Case {
    let mut s = Script::new(end_to_end(0));
    s.slave(MASTER).nothing();
    s.event(units(1_000), &long(two_step_sync(7))).nothing();
    s.general(&long(follow_up(7).with_ns(900)))
        .sync(duration(100), units(1_000), None);
    s.event(units(2_000), &long(sync(8).with_ns(1_950)))
        .sync(duration(50), units(2_000), None);
    s.request_delay(0);
    s.stamp(units(70), Context::DelayReq(0)).nothing();
    // Half of 50 - 40.
    s.general(&long(delay_resp(0).with_ns(30)))
        .delay(duration(40), units(70), Some(duration(5)));
    s.end(
        "row-5-long-for-a-slave",
        "A longer Sync, FollowUp or DelayResp counts like a short one; a port that wants the exact \
         length answers 5, one that reads from the end finds another time.",
        End::slave(MASTER).raw(duration(50)).ids(0, 1, 0),
    )
}

fn long_for_a_peer() -> Case {
    let mut s = Script::new(peer(0));
    s.request_peer(0);
    s.stamp(units(1_000), Context::PDelayReq(0)).nothing();
    s.event(units(1_101), &long(two_step_response(0).with_ns(5_000)))
        .nothing();
    // (101 - 40) / 2 ns.
    s.general(&long(response_follow_up(0).with_ns(5_040)))
        .peer(61 << 31, units(1_101));
    s.end(
        "row-5-long-for-a-peer",
        "Longer peer answers count like short ones; a port that reads the requester from the end \
         takes them for somebody else's.",
        End::listening().done(0, PEER).ids(0, 0, 1),
    )
}

fn long_for_a_master() -> Case {
    let mut s = Script::new(end_to_end(0));
    s.set(NewState::Master).nothing();
    s.event(units(44), &long(delay_req(5))).answers(9, 5, 44);
    s.event(units(45), &long(pdelay_req(6))).answers(3, 6, 45);
    s.end(
        "row-5-long-for-a-master",
        "Longer requests are answered, by messages of the table's length; a port that wants the \
         exact length answers 5.",
        End::master(),
    )
}

fn long_for_the_host() -> Case {
    let mut s = Script::new(end_to_end(0));
    for kind in 11..=13 {
        let message = of_type(kind, sync(1));
        s.general(&long(message.clone())).refused(8);
        s.event(
            units(9),
            &message.with_extra(&[0x5A; 980]).with_length(1024),
        )
        .refused(8);
    }
    s.end(
        "row-8-long",
        "The host's messages may have any length; a port that knows an Announce of 64 bytes \
         answers 5.",
        End::listening(),
    )
}
