//! Row 2, clause by clause, and what stands next to each clause and is fit (reading 14).

use crate::common::*;
use plain::*;

fn is_fit(mut port: Port) -> bool {
    let event = Event::Filter {
        mean: None,
        next: None,
    };
    if act(&mut port, event).number == 0 {
        return true;
    }
    assert_eq!(refused(&mut port, event), 2);
    false
}

fn with_config(change: impl Fn(&mut Config)) -> bool {
    let mut port = port(NewState::Listening);
    change(&mut port.config);
    is_fit(port)
}

fn with_exchanges(sync: Option<Exchange>, delay: Option<Exchange>) -> bool {
    let mut port = slave();
    let mut state = slave_state(&port);
    (state.sync, state.delay) = (sync, delay);
    port.state = State::Slave(state);
    is_fit(port)
}

fn exchange(send: Option<u128>, receive: Option<u128>) -> Option<Exchange> {
    Some(Exchange {
        id: 3,
        send,
        receive,
    })
}

/// Request send, request receive, response send, response receive.
fn with_peer(responder: Option<Identity>, times: [Option<u128>; 4]) -> bool {
    let mut fit = [false; 2];
    for (mechanism, fit) in [Mechanism::Peer, Mechanism::EndToEnd]
        .into_iter()
        .zip(&mut fit)
    {
        let mut port = Port::new(config(mechanism));
        port.peer = Peer::Measuring {
            id: 3,
            responder,
            times: PeerTimes {
                request_send: times[0],
                request_receive: times[1],
                response_send: times[2],
                response_receive: times[3],
            },
        };
        *fit = is_fit(port);
    }
    assert_eq!(fit[0], fit[1]);
    fit[0]
}

#[test]
fn configuration() {
    for interval in i8::MIN..=i8::MAX {
        let good = (-9..=16).contains(&interval);
        assert_eq!(with_config(|c| c.delay_interval = interval), good);
        assert_eq!(with_config(|c| c.sync_interval = interval), good);
    }
    for sdo in [0, 1, 4095, 4096, u16::MAX] {
        assert_eq!(with_config(|c| c.sdo = sdo), sdo <= 4095);
    }
    for minor in 0..=255 {
        assert_eq!(with_config(|c| c.minor = minor), minor <= 1);
    }
    for asymmetry in [i128::MIN, i128::MAX] {
        assert!(with_config(|c| c.asymmetry = asymmetry));
    }
}

#[test]
fn sync_exchange() {
    for time in [0, LAST] {
        assert!(with_exchanges(exchange(Some(time), None), None));
        assert!(with_exchanges(exchange(None, Some(time)), None));
    }
    for time in [LAST + 1, u128::MAX] {
        assert!(!with_exchanges(exchange(Some(time), None), None));
        assert!(!with_exchanges(exchange(None, Some(time)), None));
    }
    assert!(!with_exchanges(exchange(None, None), None));
    assert!(!with_exchanges(exchange(Some(0), Some(0)), None));
}

#[test]
fn delay_exchange() {
    assert!(with_exchanges(None, exchange(None, None)));
    for time in [0, LAST] {
        assert!(with_exchanges(None, exchange(Some(time), None)));
        assert!(with_exchanges(None, exchange(None, Some(time))));
    }
    for time in [LAST + 1, u128::MAX] {
        assert!(!with_exchanges(None, exchange(Some(time), None)));
        assert!(!with_exchanges(None, exchange(None, Some(time))));
    }
    assert!(!with_exchanges(None, exchange(Some(0), Some(0))));
}

/// All sixteen patterns of times, with and without a responder.
#[test]
fn peer_exchange() {
    for pattern in 0..16 {
        let times = |time| [1, 2, 4, 8].map(|bit| (pattern & bit != 0).then_some(time));
        assert_eq!(with_peer(Some(OTHER), times(LAST)), pattern != 15);
        assert_eq!(with_peer(None, times(LAST)), pattern <= 1);
        assert_eq!(with_peer(Some(OTHER), times(LAST + 1)), pattern == 0);
    }
    for place in 0..4 {
        let mut times = [None; 4];
        times[place] = Some(LAST + 1);
        assert!(!with_peer(Some(OTHER), times));
    }
}

#[test]
fn any_duration_and_any_id_is_fit() {
    for value in [i128::MIN, -1, 0, i128::MAX] {
        let mut port = slave();
        port.mean = Some(value);
        let mut state = slave_state(&port);
        state.raw = Some(value);
        port.state = State::Slave(state);
        (port.sync_id, port.delay_id, port.peer_id) = (65535, 65535, 65535);
        port.peer = Peer::Measured {
            id: 9,
            responder: US,
        };
        assert!(is_fit(port));
    }
}

/// A Slave with a delay exchange although the peer mechanism is configured.
#[test]
fn exchange_of_the_other_mechanism() {
    let mut port = slave();
    act(&mut port, Event::DelayTimer { draw: 0 });
    port.config.mechanism = Mechanism::Peer;
    assert!(is_fit(port));
    // It still works.
    let context = Context::DelayReq(0);
    let time = ns(5);
    act(&mut port, Event::Stamp { time, context });
    let answer = act(&mut port, delay_resp(0, 3).on_general());
    assert_eq!(answer.measurement.unwrap().value, 2 << 32);
}
