//! The peer exchange: guards, a second responder, healing (readings 11, 17, 18).

use crate::common::*;
use plain::*;

fn stamp(id: u16, time: u128) -> Event<'static> {
    Event::Stamp {
        time,
        context: Context::PDelayReq(id),
    }
}

fn times(port: &Port) -> [Option<u128>; 4] {
    let Peer::Measuring { times, .. } = port.peer else {
        panic!("{:?}", port.peer);
    };
    [
        times.request_send,
        times.request_receive,
        times.response_send,
        times.response_receive,
    ]
}

/// What does nothing is not worked out either.
#[test]
fn nothing_and_no_sum() {
    let response = peer_resp(0, 0).correct(i64::MAX);
    let tail = peer_follow_up(0, 0).correct(i64::MIN);
    let mut empty = Port::new(config(Mechanism::Peer));
    ignored(&mut empty, response.on_event(0));
    ignored(&mut empty, tail.on_general());
    let mut port = measuring();
    ignored(&mut port, response.clone().to(OTHER).on_event(0));
    ignored(&mut port, tail.clone().to(OTHER).on_general());
    ignored(&mut port, response.clone().id(1).on_event(0));
    ignored(&mut port, tail.clone().id(1).on_general());
    assert_eq!(refused(&mut port, response.on_event(0)), 7);
    assert_eq!(refused(&mut port, tail.on_general()), 7);
    act(&mut port, peer_resp(0, 5).two_step().on_event(ns(6)));
    ignored(&mut port, response.on_event(0));
    act(&mut port, peer_follow_up(0, 5).on_general());
    ignored(&mut port, tail.on_general());
    act(&mut port, stamp(0, 1));
    // Measured: the same responder again does nothing.
    ignored(&mut port, response.on_event(0));
    ignored(&mut port, tail.on_general());
}

/// A second responder counts in an open exchange and in a measured one, in every state,
/// even with a correction that no sum could take.
#[test]
fn second_responder() {
    let mut open = measuring();
    act(&mut open, peer_resp(0, 5).two_step().on_event(ns(6)));
    let mut done = open;
    act(&mut done, peer_follow_up(0, 5).on_general());
    act(&mut done, stamp(0, 1));
    let response = peer_resp(0, 0).from(OTHER).correct(i64::MAX);
    let tail = peer_follow_up(0, 0).from(OTHER).correct(i64::MIN);
    for event in [response.on_event(0), tail.on_general(), tail.on_event(0)] {
        for start in [open, done] {
            for state in [
                NewState::Listening,
                NewState::Master,
                NewState::Passive,
                NewState::Faulty,
                NewState::Slave(MASTER),
            ] {
                let mut port = start;
                act(&mut port, Event::SetState(state));
                let mut expected = port;
                expected.state = State::Faulty;
                let answer = act(&mut port, event);
                assert!(answer.reset);
                assert_eq!(
                    Answer {
                        reset: false,
                        ..answer
                    },
                    nothing(0)
                );
                assert_eq!(port, expected);
            }
        }
    }
}

/// Without a responder there can be no second one: the stamp alone names nobody.
#[test]
fn first_responder_may_be_anyone() {
    let mut port = measuring();
    act(&mut port, stamp(0, 1));
    act(&mut port, peer_follow_up(0, 5).from(OTHER).on_general());
    let Peer::Measuring { responder, .. } = port.peer else {
        panic!("{:?}", port.peer);
    };
    assert_eq!(responder, Some(OTHER));
    assert_eq!(port.state, State::Listening);
}

/// A record may know its responder and no time at all; he alone may answer then.
#[test]
fn responder_without_a_time() {
    let mut port = measuring();
    let Peer::Measuring { responder, .. } = &mut port.peer else {
        panic!("{:?}", port.peer);
    };
    *responder = Some(OTHER);
    let mut other = port;
    assert!(act(&mut other, peer_resp(0, 5).on_event(9)).reset);
    act(&mut port, peer_resp(0, 5).from(OTHER).on_event(9));
    assert_eq!(times(&port), [None, Some(ns(5)), Some(ns(5)), Some(9)]);
}

/// The first responder can still complete the exchange, which heals the port.
#[test]
fn faulty_heals() {
    let mut port = measuring();
    act(&mut port, stamp(0, ns(1)));
    act(&mut port, peer_resp(0, 5).two_step().on_event(ns(6)));
    act(&mut port, peer_resp(0, 5).from(OTHER).on_event(ns(6)));
    assert_eq!(port.state, State::Faulty);
    let answer = act(&mut port, peer_follow_up(0, 5).on_general());
    assert!(answer.reset);
    assert_eq!(answer.measurement.unwrap().value, 5 << 31);
    assert_eq!(port.state, State::Listening);
    // A stamp heals as well.
    let mut port = measuring();
    act(&mut port, Event::SetState(NewState::Faulty));
    act(&mut port, peer_resp(0, 5).on_event(ns(6)));
    assert_eq!(port.state, State::Faulty);
    assert!(act(&mut port, stamp(0, ns(1))).reset);
    assert_eq!(port.state, State::Listening);
}

/// Any other state is left alone by a measurement.
#[test]
fn measured_in_every_state() {
    for state in [
        NewState::Listening,
        NewState::Master,
        NewState::Passive,
        NewState::Slave(OTHER),
    ] {
        let mut port = measuring();
        act(&mut port, Event::SetState(state));
        let before = port.state;
        act(&mut port, stamp(0, ns(1)));
        let answer = act(&mut port, peer_resp(0, 5).on_event(ns(6)));
        assert!(answer.measurement.is_some() && !answer.reset);
        assert_eq!(port.state, before);
    }
}

/// A one-step response puts its own send time over one that a follow-up left.
#[test]
fn one_step_overwrites() {
    let mut port = measuring();
    act(&mut port, peer_follow_up(0, 77).correct(-1).on_general());
    assert_eq!(times(&port)[2], Some(ns(77) - 65_536));
    act(&mut port, peer_resp(0, 5).on_event(ns(6)));
    assert_eq!(times(&port), [None, Some(ns(5)), Some(ns(5)), Some(ns(6))]);
    // The send time now stands, so a later follow-up does nothing.
    ignored(&mut port, peer_follow_up(0, 78).on_general());
    // A two-step response leaves the follow-up's time.
    let mut port = measuring();
    act(&mut port, peer_follow_up(0, 77).on_general());
    act(&mut port, peer_resp(0, 5).two_step().on_event(ns(6)));
    assert_eq!(times(&port), [None, Some(ns(5)), Some(ns(77)), Some(ns(6))]);
}

/// A record may hold a request receive time without the response's: it is replaced.
#[test]
fn request_receive_time_is_taken_from_the_body() {
    let mut port = measuring();
    if let Peer::Measuring {
        responder, times, ..
    } = &mut port.peer
    {
        *responder = Some(MASTER);
        times.request_receive = Some(1);
    }
    act(&mut port, peer_resp(0, 5).two_step().on_event(ns(6)));
    assert_eq!(times(&port)[1], Some(ns(5)));
}

#[test]
fn stamp_guards() {
    let mut port = measuring();
    ignored(&mut port, stamp(1, 5));
    act(&mut port, stamp(0, 5));
    assert_eq!(times(&port), [Some(5), None, None, None]);
    ignored(&mut port, stamp(0, 6));
    act(&mut port, peer_resp(0, 5).on_event(ns(6)));
    ignored(&mut port, stamp(0, 6));
    ignored(&mut Port::new(config(Mechanism::Peer)), stamp(0, 5));
}

/// A new request begins afresh, also over an exchange that is done.
#[test]
fn request_replaces() {
    let mut port = measuring();
    act(&mut port, stamp(0, 5));
    act(&mut port, peer_resp(0, 5).on_event(ns(6)));
    assert!(matches!(port.peer, Peer::Measured { id: 0, .. }));
    act(&mut port, Event::DelayTimer { draw: 0 });
    assert_eq!(times(&port), [None; 4]);
    assert!(matches!(
        port.peer,
        Peer::Measuring {
            id: 1,
            responder: None,
            ..
        }
    ));
    // The old id is forgotten, second responder and all.
    ignored(&mut port, peer_resp(0, 5).from(OTHER).on_event(ns(6)));
}
