//! The marked examples A to J of 01, and the slips it warns of.

use crate::common::*;
use plain::*;

/// 100 ns.
const HUNDRED: &str = "00000000000000000000006400000000";
/// 30.5 ns.
const THIRTY_AND_A_HALF: i128 = 61 << 31;

/// Whole case A: received at 1,000 ns, sent at 900 ns.
#[test]
fn a() {
    let (first, second) = (sync(7).two_step(), follow_up(7, 900));
    let events = [
        Event::SetState(NewState::Slave(MASTER)),
        first.on_event(ns(1000)),
        second.on_general(),
    ];
    let log = log_of(&config(Mechanism::EndToEnd), &events);
    assert_eq!(replay(&log), format!("1 0 - -\n2 0 - -\n3 0 S {HUNDRED}\n"));
}

/// The FollowUp first, same value.
#[test]
fn b() {
    let (first, second) = (follow_up(7, 900), sync(7).two_step());
    let events = [
        Event::SetState(NewState::Slave(MASTER)),
        first.on_general(),
        second.on_event(ns(1000)),
    ];
    let log = log_of(&config(Mechanism::EndToEnd), &events);
    assert_eq!(replay(&log), format!("1 0 - -\n2 0 - -\n3 0 S {HUNDRED}\n"));
}

/// A one-step Sync does not complete what a FollowUp opened, nor close it.
#[test]
fn c() {
    let mut port = slave();
    act(&mut port, follow_up(7, 900).on_general());
    ignored(&mut port, sync(7).at(900).on_event(ns(1000)));
    let open = Exchange {
        id: 7,
        send: Some(ns(900)),
        receive: None,
    };
    assert_eq!(slave_state(&port).sync, Some(open));
}

/// Sync 7, FollowUp 8: no measurement, and 8 is open.
#[test]
fn d() {
    let mut port = slave();
    act(&mut port, sync(7).two_step().on_event(ns(1000)));
    let answer = act(&mut port, follow_up(8, 900).on_general());
    assert_eq!(answer, nothing(0));
    let open = Exchange {
        id: 8,
        send: Some(ns(900)),
        receive: None,
    };
    assert_eq!(slave_state(&port).sync, Some(open));
}

/// Half of 101 ns there and back less 40 ns over there, the events in any order.
#[test]
fn e() {
    let (response, tail) = (peer_resp(0, 5000).two_step(), peer_follow_up(0, 5040));
    let stamp = Event::Stamp {
        time: ns(1000),
        context: Context::PDelayReq(0),
    };
    let events = [stamp, response.on_event(ns(1101)), tail.on_general()];
    for order in [
        [0, 1, 2],
        [0, 2, 1],
        [1, 0, 2],
        [1, 2, 0],
        [2, 0, 1],
        [2, 1, 0],
    ] {
        let mut port = measuring();
        assert_eq!(act(&mut port, events[order[0]]), nothing(0));
        assert_eq!(act(&mut port, events[order[1]]), nothing(0));
        let answer = act(&mut port, events[order[2]]);
        assert_eq!(answer.measurement, Some(peer(THIRTY_AND_A_HALF, ns(1101))));
        let done = Peer::Measured {
            id: 0,
            responder: MASTER,
        };
        assert_eq!(port.peer, done);
    }
}

/// The same in one step: the 40 ns stand in the correction.
/// The event time is the corrected one.
#[test]
fn f() {
    let mut port = measuring();
    stamp(&mut port, ns(1000), Context::PDelayReq(0));
    let response = peer_resp(0, 5000).correct(40 << 16);
    let answer = act(&mut port, response.on_event(ns(1101)));
    assert_eq!(answer.measurement, Some(peer(THIRTY_AND_A_HALF, ns(1061))));
}

/// Asymmetry 10 ns: raw 90, then raw 0 and delay 45 ns.
#[test]
fn g() {
    let mut port = slave();
    port.config.asymmetry = 10 << 32;
    let answer = act(&mut port, sync(1).at(1000).on_event(ns(1100)));
    let measurement = Measurement {
        kind: Kind::Sync,
        value: 90 << 32,
        event_time: ns(1100),
        offset: None,
        delay: None,
    };
    assert_eq!(answer.measurement, Some(measurement));
    act(&mut port, Event::DelayTimer { draw: 0 });
    stamp(&mut port, ns(2000), Context::DelayReq(0));
    let answer = act(&mut port, delay_resp(0, 1990).on_general());
    let measurement = Measurement {
        kind: Kind::Delay,
        value: 0,
        event_time: ns(2000),
        offset: None,
        delay: Some(45 << 32),
    };
    assert_eq!(answer.measurement, Some(measurement));
    assert_eq!(slave_state(&port).delay, None);
    assert_eq!(slave_state(&port).raw, Some(90 << 32));
}

/// Halves of -3 and 3, and the slip of halving by a shift: by the peer's way and by the
/// delay's.
#[test]
fn h() {
    for (difference, half) in [(-3, -1), (3, 1)] {
        let mut port = measuring();
        stamp(&mut port, ns(1000), Context::PDelayReq(0));
        let response = peer_resp(0, 5000);
        let receive = ns(1000).checked_add_signed(difference).unwrap();
        let answer = act(&mut port, response.on_event(receive));
        assert_eq!(answer.measurement, Some(peer(half, receive)));

        let mut port = slave();
        act(&mut port, sync(1).at(1000).on_event(ns(1000)));
        act(&mut port, Event::DelayTimer { draw: 0 });
        let send = ns(1000).checked_add_signed(-difference).unwrap();
        stamp(&mut port, send, Context::DelayReq(0));
        let answer = act(&mut port, delay_resp(0, 1000).on_general());
        assert_eq!(answer.measurement.unwrap().delay, Some(half));
    }
}

/// The id after 65535 is 0, for each of the three generators; the first is 0.
#[test]
fn i() {
    let ids = |port: &Port| [port.sync_id, port.delay_id, port.peer_id];
    let mut master = port(NewState::Master);
    let mut end = slave();
    let mut peer = Port::new(config(Mechanism::Peer));
    for (port, event, own) in [
        (&mut master, Event::SyncTimer, 0),
        (&mut end, Event::DelayTimer { draw: 0 }, 1),
        (&mut peer, Event::DelayTimer { draw: 0 }, 2),
    ] {
        assert_eq!(ids(port), [0; 3]);
        for turn in 0..=65536u32 {
            let mut packet = [0; 64];
            let answer = port.handle(&event, &mut packet);
            assert_eq!(answer.number, 0);
            assert_eq!(packet[30..32], (turn as u16).to_be_bytes());
        }
        let mut after = [0; 3];
        after[own] = 1;
        assert_eq!(ids(port), after);
    }
}

/// The draw 2^51 - 1 with log interval 0 gives a second.
#[test]
fn j() {
    let mut port = slave();
    port.config.delay_interval = 0;
    let draw = (1 << 51) - 1;
    let answer = act(&mut port, Event::DelayTimer { draw });
    let timer = Action::DelayTimer { ns: 1_000_000_000 };
    assert_eq!(answer.actions[0], Some(timer));
}

/// Slip: a one-step response taken for a send time of zero. Both of its times must be
/// the request's receive time, so where that lies does not matter.
#[test]
fn slip_one_step_response_sent_at_zero() {
    for received in [0, 1, 5000, 77_000_000_000] {
        let mut port = measuring();
        let response = peer_resp(0, received);
        act(&mut port, response.on_event(ns(1101)));
        let Peer::Measuring { times, .. } = port.peer else {
            panic!("{:?}", port.peer);
        };
        assert_eq!(times.request_receive, Some(ns(received.into())));
        assert_eq!(times.response_send, Some(ns(received.into())));
        let answer = stamp(&mut port, ns(1000), Context::PDelayReq(0));
        assert_eq!(answer.measurement, Some(peer(101 << 31, ns(1101))));
    }
}

/// Slip: duplicates tested before a second responder. Here both tests would hit.
#[test]
fn slip_duplicate_before_second_responder() {
    let response = peer_resp(0, 5000).two_step();
    let tail = peer_follow_up(0, 5040);
    for (first, second) in [
        (
            response.on_event(ns(9)),
            response.clone().from(OTHER).on_event(ns(9)),
        ),
        (tail.on_general(), tail.clone().from(OTHER).on_general()),
    ] {
        let mut port = measuring();
        act(&mut port, first);
        ignored(&mut port, first);
        let peer = port.peer;
        let answer = act(&mut port, second);
        assert!(answer.reset && answer.number == 0);
        assert_eq!((port.state, port.peer), (State::Faulty, peer));
    }
}

fn peer(value: i128, event_time: u128) -> Measurement {
    Measurement {
        kind: Kind::Peer,
        value,
        event_time,
        offset: None,
        delay: None,
    }
}

fn stamp(port: &mut Port, time: u128, context: Context) -> Answer {
    act(port, Event::Stamp { time, context })
}
