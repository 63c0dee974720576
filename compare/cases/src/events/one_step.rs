//! One-step Syncs beside open exchanges.

use super::slave;
use crate::cast::*;
use crate::record::End;
use crate::Case;

pub fn all() -> Vec<Case> {
    vec![
        one_step_beside_sync(),
        one_step_beside_follow_up(),
        one_step_replaces(),
        one_step_again(),
    ]
}

fn one_step_beside_sync() -> Case {
    let mut s = slave();
    s.event(units(90), &two_step_sync(7)).nothing();
    s.event(units(95), &sync(7).with_ns(20)).nothing();
    s.general(&follow_up(7).with_ns(60))
        .sync(duration(30), units(90), None);
    s.event(units(95), &sync(7).with_ns(20))
        .sync(duration(75), units(95), None);
    s.end(
        "one-step-beside-sync",
        "While a two-step Sync is open a one-step one of its id counts for nothing, and once that \
         is measured the id is free again; a port that replaces measures 75 ns at once.",
        End::slave(MASTER).raw(duration(75)),
    )
}

fn one_step_beside_follow_up() -> Case {
    let mut s = slave();
    s.general(&follow_up(7).with_ns(60)).nothing();
    s.event(units(95), &sync(7).with_ns(20)).nothing();
    s.event(units(96), &sync(7).with_ns(20)).nothing();
    s.event(units(97), &two_step_sync(7))
        .sync(duration(37), units(97), None);
    s.end(
        "one-step-beside-follow-up",
        "While a FollowUp is open a one-step Sync of its id counts for nothing, its receive time \
         included; else 35 ns come out.",
        End::slave(MASTER).raw(duration(37)),
    )
}

fn one_step_replaces() -> Case {
    let mut s = slave();
    s.event(units(90), &two_step_sync(7)).nothing();
    s.event(units(95), &sync(8).with_ns(20))
        .sync(duration(75), units(95), None);
    s.general(&follow_up(7).with_ns(60)).nothing();
    s.event(units(96), &sync(9).with_ns(20))
        .sync(duration(76), units(96), None);
    s.event(units(97), &two_step_sync(7)).nothing();
    s.end(
        "one-step-replaces",
        "A one-step Sync of another id replaces the open exchange and is then taken out itself; a \
         port that leaves 7 open measures 30 or 37 ns.",
        End::slave(MASTER)
            .sync(7, None, Some(units(97)))
            .raw(duration(76)),
    )
}

fn one_step_again() -> Case {
    let mut s = slave();
    for at in [90, 90, 91] {
        s.event(units(at), &sync(7).with_ns(20))
            .sync(duration(at as i128 - 20), units(at), None);
    }
    s.general(&follow_up(7).with_ns(30)).nothing();
    s.end(
        "one-step-again",
        "A one-step Sync leaves nothing open, so the same id is measured each time; a port that \
         remembers ids takes copies for duplicates.",
        End::slave(MASTER)
            .sync(7, Some(units(30)), None)
            .raw(duration(71)),
    )
}
