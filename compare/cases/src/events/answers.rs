//! Requests of others, and stamps that send.

use super::ROUND;
use crate::cast::*;
use crate::record::End;
use crate::script::Script;
use crate::Case;

pub fn all() -> Vec<Case> {
    vec![
        delay_requests(),
        peer_requests(end_to_end(0), "pdelay-req-under-end-to-end"),
        peer_requests(peer(0), "pdelay-req-under-peer"),
        general_entry(),
        stamps_out_of_turn(),
    ]
}

fn delay_requests() -> Case {
    let mut s = Script::new(end_to_end(0));
    let request = delay_req(0x1F2E).with_correction(100);
    // The fraction is 0x30 steps and more.
    let at = units(2_000_000_345) + 0x0030_9999;
    let answer = sent(9, 0x1F2E)
        .with_timestamp(2, 345)
        .with_correction(100 - 0x30)
        .with_requester(CLIENT);
    for (state, reset) in ROUND {
        s.set(state).resets(reset);
        let step = s.event(at, &request);
        if state == NewState::Master {
            step.sends(&answer, "general");
        } else {
            step.nothing();
        }
    }
    s.slave(MASTER).reset();
    s.event(at, &request).nothing();
    s.event(at, &by(MASTER, request.clone())).nothing();
    s.set(NewState::Master).reset();
    s.event(at, &request).sends(&answer, "general");
    s.event(at, &request).sends(&answer, "general");
    s.end(
        "delay-req-as-master-only",
        "DelayReq is answered as Master only, copies each time; a port that answers elsewhere \
         sends, one that remembers does not.",
        End::master(),
    )
}

fn peer_requests(config: Config, name: &'static str) -> Case {
    let mut s = Script::new(config);
    let request = pdelay_req(0x2D3C).with_correction(-100);
    let at = units(3_000_000_007) + 0x0040_9999;
    let timed = |kind, at| sent(kind, 0x2D3C).with_ns(at).with_requester(CLIENT);
    let answer = timed(3, 3_000_000_007).with_correction(-100 - 0x40);
    let late = timed(10, 3_000_000_099).with_correction(0x50);
    let slave = (NewState::Slave(MASTER), true);
    for (state, reset) in ROUND.into_iter().chain([slave]) {
        s.set(state).resets(reset);
        s.event(at, &request)
            .sends(&answer, &answers_peer(0x2D3C, CLIENT));
        let context = Context::PDelayResp(0x2D3C, CLIENT);
        s.stamp(units(3_000_000_099) + 0x0050_0001, context)
            .sends(&late, "general:link");
    }
    s.end(
        name,
        "PDelayReq is answered and its stamp followed up in every state, under either mechanism; a \
         port that looks at its state keeps still.",
        End::slave(MASTER),
    )
}

fn general_entry() -> Case {
    let mut s = Script::new(peer(0));
    for (state, reset) in ROUND {
        s.set(state).resets(reset);
        s.general(&delay_req(4)).nothing();
        s.general(&pdelay_req(4).with_correction(i64::MIN))
            .nothing();
        s.general(&sync(4)).nothing();
        s.general(&response(4)).nothing();
    }
    s.end(
        "requests-on-general-entry",
        "Types 0 to 3 on the general entry do nothing, having no receive time; a port that takes \
         it for 0 answers.",
        End::faulty(),
    )
}

fn stamps_out_of_turn() -> Case {
    let mut s = Script::new(end_to_end(0));
    let late = |id, who| sent(10, id).with_ns(5).with_requester(who);
    for (id, who) in [(0, RIVAL), (65_535, US), (7, [0; 10]), (7, [0xFF; 10])] {
        s.stamp(units(5), Context::PDelayResp(id, who))
            .sends(&late(id, who), "general:link");
    }
    for (state, reset) in ROUND {
        s.set(state).resets(reset);
        let step = s.stamp(units(5), Context::Sync(65_535));
        if state == NewState::Master {
            step.sends(&sent(8, 65_535).with_ns(5), "general");
        } else {
            step.nothing();
        }
    }
    s.slave(MASTER).reset();
    s.stamp(units(5), Context::Sync(1)).nothing();
    s.end(
        "stamps-of-any-id",
        "A PDelayResp stamp is followed up for whatever id and requester it names, a Sync stamp \
         for whatever id but as Master only; a port that remembers what it sent does nothing.",
        End::slave(MASTER),
    )
}
