//! Sync, FollowUp and DelayResp: guards, duplicates, replacement (reading 11, 12).

use crate::common::*;
use plain::*;

fn open(port: &Port) -> (u16, Option<u128>, Option<u128>) {
    let open = slave_state(port).sync.expect("an open sync");
    (open.id, open.send, open.receive)
}

/// Outside the guard no number can be wrong.
#[test]
fn guard_before_sum() {
    for state in [
        NewState::Listening,
        NewState::Master,
        NewState::Passive,
        NewState::Faulty,
        NewState::Slave(OTHER),
    ] {
        let mut port = port(state);
        ignored(&mut port, sync(7).correct(i64::MAX).on_event(0));
        ignored(&mut port, sync(7).two_step().correct(i64::MAX).on_event(0));
        ignored(&mut port, follow_up(7, 0).correct(i64::MIN).on_general());
        ignored(&mut port, delay_resp(0, 0).correct(i64::MAX).on_general());
    }
}

/// The port number is part of an identity.
#[test]
fn another_port_of_the_masters_clock_is_not_the_master() {
    let mut port = slave();
    let mut near = MASTER;
    near[9] ^= 1;
    ignored(&mut port, sync(7).two_step().from(near).on_event(0));
    ignored(&mut port, follow_up(7, 0).from(near).on_general());
}

#[test]
fn two_step_sync() {
    let mut port = slave();
    act(&mut port, sync(7).two_step().on_event(ns(10)));
    assert_eq!(open(&port), (7, None, Some(ns(10))));
    // A duplicate keeps the first receive time, and is refused for its sum all the same.
    ignored(&mut port, sync(7).two_step().on_event(ns(11)));
    ignored(&mut port, sync(7).on_event(ns(11)));
    let impossible = sync(7).correct(i64::MAX);
    assert_eq!(refused(&mut port, impossible.on_event(0)), 7);
    assert_eq!(refused(&mut port, impossible.two_step().on_event(0)), 7);
    // Another id takes the place, with nothing kept of the old one.
    act(
        &mut port,
        sync(8).two_step().correct(-65_536).on_event(ns(12)),
    );
    assert_eq!(open(&port), (8, None, Some(ns(13))));
    act(&mut port, follow_up(9, 5).on_general());
    assert_eq!(open(&port), (9, Some(ns(5)), None));
    act(&mut port, sync(7).two_step().on_event(ns(14)));
    assert_eq!(open(&port), (7, None, Some(ns(14))));
}

#[test]
fn one_step_sync() {
    let mut port = slave();
    act(&mut port, sync(7).two_step().on_event(ns(10)));
    // Another id: the old exchange goes, and the new one is taken out at once.
    let message = sync(8).at(15).correct(2 << 16);
    let answer = act(&mut port, message.on_event(ns(20)));
    let measurement = answer.measurement.unwrap();
    assert_eq!(
        (measurement.value, measurement.event_time),
        (3 << 32, ns(18))
    );
    assert_eq!(slave_state(&port).sync, None);
    // Nothing remembers a measured id: the same message measures again.
    assert_eq!(act(&mut port, message.on_event(ns(20))), answer);
}

#[test]
fn follow_up_first_and_again() {
    let mut port = slave();
    act(&mut port, follow_up(7, 10).correct(-1).on_general());
    assert_eq!(open(&port), (7, Some(ns(10) - 65_536), None));
    ignored(&mut port, follow_up(7, 11).on_general());
    assert_eq!(
        refused(&mut port, follow_up(7, 0).correct(-1).on_general()),
        7
    );
    act(&mut port, follow_up(8, 11).on_general());
    assert_eq!(open(&port), (8, Some(ns(11)), None));
    let answer = act(&mut port, sync(8).two_step().on_event(ns(9)));
    assert_eq!(answer.measurement.unwrap().value, -2 << 32);
    assert_eq!(slave_state(&port).sync, None);
}

/// The offset needs a mean delay; the raw value is kept either way.
#[test]
fn offset() {
    let mut port = slave();
    let message = sync(7).at(100);
    let answer = act(&mut port, message.on_event(ns(140)));
    assert_eq!(answer.measurement.unwrap().offset, None);
    let event = Event::Filter {
        mean: Some(50 << 32),
        next: None,
    };
    act(&mut port, event);
    let measurement = act(&mut port, message.on_event(ns(140))).measurement;
    let measurement = measurement.unwrap();
    assert_eq!(measurement.offset, Some(-10 << 32));
    assert_eq!((measurement.value, measurement.delay), (40 << 32, None));
    assert_eq!(slave_state(&port).raw, Some(40 << 32));
}

/// Only the two-step flag of the flags counts, and neither minor version, reserved
/// bytes, control, log interval nor anything behind the body does (reading 15).
#[test]
fn bytes_that_are_not_read() {
    let plain = sync(7).at(100);
    let noisy = plain.clone().byte(1, 0xF2).byte(6, 0xFD).byte(7, 0xFF);
    let noisy = noisy.bytes(16, &[9; 4]).byte(32, 77).byte(33, 0x80);
    let noisy = noisy.byte(3, 60).tail(&[0xEE; 20]);
    let (mut first, mut second) = (slave(), slave());
    let answer = act(&mut first, plain.on_event(ns(140)));
    assert!(answer.measurement.is_some());
    assert_eq!(act(&mut second, noisy.on_event(ns(140))), answer);
}

/// A delay response needs all of: our identity, our master, the open id, no earlier one.
#[test]
fn delay_resp_guards() {
    let impossible = delay_resp(0, 0).correct(1);
    let mut port = slave();
    ignored(&mut port, impossible.on_general());
    act(&mut port, Event::DelayTimer { draw: 0 });
    ignored(&mut port, impossible.clone().from(OTHER).on_general());
    ignored(&mut port, impossible.clone().to(OTHER).on_general());
    ignored(&mut port, impossible.clone().id(1).on_general());
    assert_eq!(refused(&mut port, impossible.on_general()), 7);
    act(&mut port, delay_resp(0, 50).correct(1 << 16).on_general());
    let open = slave_state(&port).delay.unwrap();
    assert_eq!((open.send, open.receive), (None, Some(ns(49))));
    // Now a response stands, so the impossible one is no longer looked at.
    ignored(&mut port, impossible.on_general());
    // The stamp completes it. No raw sync offset, so no delay.
    let context = Context::DelayReq(0);
    let time = ns(60);
    let answer = act(&mut port, Event::Stamp { time, context });
    let measurement = answer.measurement.unwrap();
    assert_eq!(
        (measurement.kind, measurement.value),
        (Kind::Delay, 11 << 32)
    );
    assert_eq!((measurement.event_time, measurement.delay), (ns(60), None));
    assert_eq!(slave_state(&port).delay, None);
    ignored(&mut port, delay_resp(0, 50).on_general());
}

#[test]
fn delay_stamp_guards() {
    let stamp = |id, time| Event::Stamp {
        time,
        context: Context::DelayReq(id),
    };
    let mut port = slave();
    ignored(&mut port, stamp(0, 5));
    act(&mut port, Event::DelayTimer { draw: 0 });
    ignored(&mut port, stamp(1, 5));
    act(&mut port, stamp(0, 5));
    ignored(&mut port, stamp(0, 6));
    // A new request takes the place of the old one, stamp and all.
    act(&mut port, Event::DelayTimer { draw: 0 });
    let open = Exchange {
        id: 1,
        send: None,
        receive: None,
    };
    assert_eq!(slave_state(&port).delay, Some(open));
    ignored(&mut port, stamp(0, 5));
    // In another state there is no request to stamp.
    for state in [NewState::Listening, NewState::Master, NewState::Faulty] {
        ignored(&mut crate::common::port(state), stamp(0, 5));
    }
}

/// Our own identity as master and as sender is nothing special (reading 15).
#[test]
fn messages_of_our_own() {
    let mut port = port(NewState::Slave(US));
    let answer = act(&mut port, sync(7).from(US).at(1).on_event(ns(2)));
    assert_eq!(answer.measurement.unwrap().value, 1 << 32);
}
