//! Timers and ids.

use super::ROUND;
use crate::cast::*;
use crate::record::End;
use crate::script::Script;
use crate::Case;

pub fn all() -> Vec<Case> {
    vec![
        sync_timer(),
        sync_intervals("sync-timer-2-to-the-0", 0, 1_000_000_000),
        sync_intervals("sync-timer-2-to-the-15", 15, 32_768_000_000_000),
        three_generators(),
        peer_requests(),
    ]
}

fn sync_timer() -> Case {
    let mut s = Script::new(end_to_end(0));
    let mut id = 0;
    for _ in 0..2 {
        for (state, _) in ROUND {
            // Only the first step of the first turn does not leave Slave or Faulty.
            let leaves = id > 0 && state == NewState::Listening;
            s.set(state).resets(leaves || state == NewState::Faulty);
            if state == NewState::Master {
                s.send_sync(id);
                s.send_sync(id + 1);
                id += 2;
            } else {
                s.sync_timer().nothing();
            }
        }
        s.slave(MASTER).reset();
        s.sync_timer().nothing();
    }
    s.end(
        "sync-timer-as-master-only",
        "The sync timer sends as Master only and takes an id only then; a port that counts every \
         tick begins with 1.",
        End::slave(MASTER).ids(4, 0, 0),
    )
}

fn sync_intervals(name: &'static str, sync_interval: i8, ns: u64) -> Case {
    let config = Config {
        sync_interval,
        ..end_to_end(0)
    };
    let mut s = Script::new(config);
    s.set(NewState::Master).nothing();
    for id in 0..3 {
        s.sync_timer().sends(
            &sent_under(&config, 0, id),
            &format!("sync-timer:{ns},event:0:{id}"),
        );
        s.stamp(units(1), Context::Sync(id))
            .sends(&sent_under(&config, 8, id).with_ns(1), "general");
    }
    s.end(
        name,
        "For interval n the sync timer runs 2^n s, to the nanosecond, and n stands in Sync and \
         FollowUp; a draw or the other interval shows.",
        End::master().ids(3, 0, 0),
    )
}

fn three_generators() -> Case {
    let mut s = Script::new(peer(0));
    s.set(NewState::Master).nothing();
    s.send_sync(0);
    s.request_peer(0);
    s.request_peer(1);
    s.send_sync(1);
    s.send_sync(2);
    s.request_peer(2);
    s.slave(MASTER).nothing();
    s.request_peer(3);
    s.set(NewState::Master).reset();
    s.send_sync(3);
    s.end(
        "ids-of-each-generator",
        "Each kind counts by itself from 0; one counter for all gives other ids.",
        End::master().open(3, None, [None; 4]).ids(4, 0, 4),
    )
}

fn peer_requests() -> Case {
    let mut s = Script::new(peer(0));
    for (id, (state, reset)) in (0..).zip(ROUND) {
        s.set(state).resets(reset);
        s.request_peer(id);
    }
    s.slave(MASTER).reset();
    s.request_peer(4);
    s.stamp(units(3), Context::PDelayReq(4)).nothing();
    s.request_peer(5);
    s.end(
        "pdelay-req-in-every-state",
        "The peer request goes out in every state, each time with a new id and an empty exchange; \
         a port that wants Slave sends once.",
        End::slave(MASTER).open(5, None, [None; 4]).ids(0, 0, 6),
    )
}
