//! The filter's answers.

use super::ROUND;
use crate::cast::*;
use crate::record::End;
use crate::script::Script;
use crate::Case;

pub fn all() -> Vec<Case> {
    vec![parts(), every_state(), between_measurements()]
}

fn parts() -> Case {
    let mut s = Script::new(end_to_end(0));
    s.filter(None, None).nothing();
    s.filter(None, Some(1)).filter_timer(1);
    s.filter(Some(-5), None).nothing();
    s.filter(None, Some(0)).filter_timer(0);
    s.filter(Some(i128::MIN), Some(u64::MAX))
        .filter_timer(u64::MAX);
    s.filter(Some(duration(-3) + 7), Some(0x0102_0304_0506_0708))
        .filter_timer(72_623_859_790_382_856);
    s.filter(None, None).nothing();
    s.end(
        "filter-parts",
        "The filter's mean is kept and its next update asks for a timer of as many ns, either \
         without the other, and left out the mean stays; a port that clears it ends with none.",
        End::listening().mean(duration(-3) + 7),
    )
}

fn every_state() -> Case {
    let mut s = Script::new(peer(0));
    let slave = (NewState::Slave(MASTER), true);
    for (mean, (state, reset)) in (1..).zip(ROUND.into_iter().chain([slave])) {
        s.set(state).resets(reset);
        s.filter(Some(mean), Some(mean as u64 * 10))
            .filter_timer(mean as u64 * 10);
    }
    s.event(units(90), &sync(1).with_ns(20))
        .sync(duration(70), units(90), Some(duration(70) - 5));
    s.end(
        "filter-every-state",
        "The filter's answer counts in every state; a port that takes it as Slave only keeps an \
         older mean.",
        End::slave(MASTER).raw(duration(70)).mean(5),
    )
}

fn between_measurements() -> Case {
    let mut s = Script::new(end_to_end(duration(1)));
    s.slave(MASTER).nothing();
    for (id, mean) in [(0, 10), (1, 20), (2, -30)] {
        s.request_delay(id);
        s.stamp(units(500), Context::DelayReq(id)).nothing();
        // Raw -41; the last sync raw is 49 from the second turn on.
        let delay = (id > 0).then_some(duration(45));
        s.general(&delay_resp(id).with_ns(540))
            .delay(-duration(41), units(500), delay);
        s.filter(Some(duration(mean)), Some(125_000_000))
            .filter_timer(125_000_000);
        s.event(units(100), &sync(id).with_ns(50)).sync(
            duration(49),
            units(100),
            Some(duration(49 - mean)),
        );
    }
    s.end(
        "filter-between-measurements",
        "The mean enters the offset alone, and a filter answer leaves exchanges and last raw; a \
         port that takes it off the raw gives other delays.",
        End::slave(MASTER)
            .raw(duration(49))
            .mean(-duration(30))
            .ids(0, 3, 0),
    )
}
