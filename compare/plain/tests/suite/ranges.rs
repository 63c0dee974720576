//! Row 7 at the very edge of each range (readings 12 and 13). A refusal leaves the
//! exchange open as it was, which `refused` checks.

use crate::common::*;
use plain::*;

fn edit(port: &mut Port, change: impl Fn(&mut Slave)) {
    let mut state = slave_state(port);
    change(&mut state);
    port.state = State::Slave(state);
}

/// An open sync with this send time, to be completed by the Sync that follows.
fn waiting(send: u128, asymmetry: i128, mean: Option<i128>) -> Port {
    let mut port = slave();
    port.config.asymmetry = asymmetry;
    port.mean = mean;
    edit(&mut port, |slave| {
        slave.sync = Some(Exchange {
            id: 7,
            send: Some(send),
            receive: None,
        })
    });
    port
}

fn complete(mut port: Port, receive: u128) -> Result<(i128, Option<i128>), u8> {
    let message = sync(7).two_step();
    let answer = act(&mut port.clone(), message.on_event(receive));
    match answer.measurement {
        Some(measurement) => Ok((measurement.value, measurement.offset)),
        None => Err(refused(&mut port, message.on_event(receive))),
    }
}

#[test]
fn raw_sync_offset() {
    assert_eq!(complete(waiting(0, 0, None), LAST), Ok((i128::MAX, None)));
    assert_eq!(complete(waiting(0, -1, None), LAST), Err(7));
    assert_eq!(
        complete(waiting(0, -1, None), LAST - 1),
        Ok((i128::MAX, None))
    );
    assert_eq!(complete(waiting(LAST, 1, None), 0), Ok((i128::MIN, None)));
    assert_eq!(complete(waiting(LAST, 2, None), 0), Err(7));
    // receive - send comes first, so an asymmetry that cancels later is no trouble ...
    let all = complete(waiting(0, i128::MAX, None), LAST);
    assert_eq!(all, Ok((0, None)));
    // ... and one that is out of reach of the difference is.
    assert_eq!(complete(waiting(0, i128::MIN, None), 0), Err(7));
    assert_eq!(
        complete(waiting(1, i128::MIN, None), 0),
        Ok((i128::MAX, None))
    );
}

#[test]
fn offset() {
    let port = |mean| waiting(0, 0, Some(mean));
    assert_eq!(complete(port(-1), LAST), Err(7));
    assert_eq!(complete(port(0), LAST), Ok((i128::MAX, Some(i128::MAX))));
    assert_eq!(complete(port(i128::MIN), 0), Err(7));
    let low = waiting(1, 0, Some(i128::MAX));
    assert_eq!(complete(low, 0), Ok((-1, Some(i128::MIN))));
    let low = waiting(2, 0, Some(i128::MAX));
    assert_eq!(complete(low, 0), Err(7));
}

/// The difference counts before it is halved.
#[test]
fn delay() {
    let delay = |kept, send, asymmetry| {
        let mut port = slave();
        port.config.asymmetry = asymmetry;
        edit(&mut port, |slave| {
            slave.raw = kept;
            slave.delay = Some(Exchange {
                id: 0,
                send: Some(send),
                receive: None,
            })
        });
        let message = delay_resp(0, 0);
        let answer = act(&mut port.clone(), message.on_general());
        match answer.measurement {
            Some(measurement) => Ok((measurement.value, measurement.delay)),
            None => Err(refused(&mut port, message.on_general())),
        }
    };
    assert_eq!(delay(Some(i128::MAX), 0, 0), Ok((0, Some(i128::MAX / 2))));
    assert_eq!(delay(Some(i128::MAX), 0, 1), Err(7));
    assert_eq!(delay(None, 0, 1), Ok((-1, None)));
    assert_eq!(delay(Some(i128::MIN), 0, 0), Ok((0, Some(-(1 << 126)))));
    assert_eq!(delay(Some(i128::MIN), 1, 0), Err(7));
    assert_eq!(delay(Some(-1), LAST, 0), Ok((i128::MAX, Some(-(1 << 126)))));
    assert_eq!(delay(None, LAST, -1), Err(7));
    assert_eq!(delay(None, 0, i128::MIN), Err(7));
}

/// A peer exchange with these times: request send and receive, response send and receive.
fn answered(times: [Option<u128>; 4]) -> Port {
    let mut port = measuring();
    port.peer = Peer::Measuring {
        id: 0,
        responder: Some(MASTER),
        times: PeerTimes {
            request_send: times[0],
            request_receive: times[1],
            response_send: times[2],
            response_receive: times[3],
        },
    };
    port
}

/// The peer's difference of differences, completed by each of its three events.
#[test]
fn peer() {
    let stamp = |time| Event::Stamp {
        time,
        context: Context::PDelayReq(0),
    };
    // LAST - (0 - 1) leaves the range; LAST - 1 - (0 - 1) does not.
    let mut over = answered([None, Some(1), Some(0), Some(LAST)]);
    assert_eq!(refused(&mut over, stamp(0)), 7);
    let value = act(&mut over, stamp(1)).measurement.unwrap().value;
    assert_eq!(value, i128::MAX / 2);
    let mut over = answered([Some(0), None, Some(ns(1) - 1), None]);
    let response = peer_resp(0, 1).two_step();
    assert_eq!(refused(&mut over, response.on_event(LAST)), 7);
    let answer = act(&mut over, response.on_event(LAST - 1));
    assert_eq!(answer.measurement.unwrap().value, i128::MAX / 2);
    let mut over = answered([Some(0), Some(1), None, Some(LAST)]);
    assert_eq!(refused(&mut over, peer_follow_up(0, 0).on_general()), 7);
    assert_eq!(act(&mut over, peer_follow_up(0, 1).on_general()).number, 0);
    // At the other end the least duration is still one.
    let mut under = answered([None, Some(0), Some(1), Some(0)]);
    let value = act(&mut under, stamp(LAST)).measurement.unwrap().value;
    assert_eq!(value, -(1 << 126));
    let mut under = answered([None, Some(0), Some(2), Some(0)]);
    assert_eq!(refused(&mut under, stamp(LAST)), 7);
}

/// 48-bit seconds in each of the four messages that carry a time.
#[test]
fn seconds() {
    let end = ns((1 << 48) * 1_000_000_000);
    let (delay, peer) = (Wire::new(1), Wire::new(2));
    let mut port = port(NewState::Master);
    for time in [end - 1, end, LAST] {
        let sync = Context::Sync(0);
        let response = Context::PDelayResp(0, OTHER);
        for event in [
            Event::Stamp {
                time,
                context: sync,
            },
            Event::Stamp {
                time,
                context: response,
            },
            delay.on_event(time),
            peer.on_event(time),
        ] {
            if time < end {
                assert_eq!(act(&mut port, event).number, 0);
            } else {
                assert_eq!(refused(&mut port, event), 7);
            }
        }
    }
}

/// 64-bit corrections: the least one bears no fraction. Only 16 bits of it count.
#[test]
fn corrections() {
    let mut port = port(NewState::Master);
    for kind in [1, 2] {
        let least = Wire::new(kind).correct(i64::MIN);
        assert_eq!(act(&mut port, least.on_event(65_535)).number, 0);
        assert_eq!(refused(&mut port, least.on_event(65_536)), 7);
        let next = Wire::new(kind).correct(i64::MIN + 0xFFFF);
        assert_eq!(act(&mut port, next.on_event(0xFFFF_FFFF)).number, 0);
        let next = Wire::new(kind).correct(i64::MIN + 0xFFFE);
        assert_eq!(refused(&mut port, next.on_event(0xFFFF_0000)), 7);
        let most = Wire::new(kind).correct(i64::MAX);
        assert_eq!(act(&mut port, most.on_event(0xFFFF_FFFF)).number, 0);
    }
}
