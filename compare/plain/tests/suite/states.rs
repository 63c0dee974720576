//! Set state, filter answers, timers and who answers in which state (readings 16, 17).

use crate::common::*;
use plain::*;

const STATES: [NewState; 5] = [
    NewState::Listening,
    NewState::Master,
    NewState::Passive,
    NewState::Faulty,
    NewState::Slave(MASTER),
];

/// All changes of state: which of them reset the filter, and that no other does.
#[test]
fn resets() {
    for (old, from) in STATES.into_iter().enumerate() {
        for (new, to) in STATES.into_iter().enumerate() {
            let mut port = port(from);
            let answer = act(&mut port, Event::SetState(to));
            assert_eq!(answer.reset, old >= 3 || new == 3, "{from:?} {to:?}");
            assert_eq!(
                Answer {
                    reset: false,
                    ..answer
                },
                nothing(0)
            );
            assert_eq!(port, crate::common::port(to));
        }
    }
}

/// To become Slave is to begin anew, also for one that is Slave of that master already.
#[test]
fn slave_again() {
    let mut port = slave();
    act(&mut port, sync(1).at(1).on_event(ns(2)));
    act(&mut port, sync(2).two_step().on_event(ns(2)));
    act(&mut port, Event::DelayTimer { draw: 0 });
    let event = Event::Filter {
        mean: Some(-7),
        next: None,
    };
    act(&mut port, event);
    port.peer = measuring().peer;
    port.sync_id = 12;
    let mut expected = port;
    expected.state = slave().state;
    assert_ne!(port, expected);
    assert!(act(&mut port, Event::SetState(NewState::Slave(MASTER))).reset);
    assert_eq!(port, expected);
    assert_eq!((port.delay_id, port.mean), (1, Some(-7)));
}

#[test]
fn filter_answers() {
    for mean in [None, Some(0), Some(i128::MIN), Some(i128::MAX)] {
        for next in [None, Some(0), Some(u64::MAX)] {
            let mut port = slave();
            port.mean = Some(5);
            let answer = act(&mut port, Event::Filter { mean, next });
            assert_eq!(port.mean, mean.or(Some(5)));
            let timer = next.map(|ns| Action::FilterTimer { ns });
            let expected = Answer {
                actions: [timer, None],
                ..nothing(0)
            };
            assert_eq!(answer, expected);
        }
    }
}

/// The sync timer and a Sync stamp are the master's alone.
#[test]
fn master_only() {
    let stamp = Event::Stamp {
        time: u128::MAX >> 1,
        context: Context::Sync(9),
    };
    let request = Wire::new(1).correct(i64::MIN);
    for state in STATES {
        let mut port = port(state);
        if state == NewState::Master {
            // Seconds and correction leave their range, for here they are sent.
            assert_eq!(refused(&mut port, stamp), 7);
            assert_eq!(refused(&mut port, request.on_event(65_536)), 7);
            assert_eq!(act(&mut port, Event::SyncTimer).length, 44);
        } else {
            ignored(&mut port, stamp);
            ignored(&mut port, request.on_event(65_536));
            ignored(&mut port, Event::SyncTimer);
        }
    }
}

/// A Sync stamp is followed up for whatever id it names, as often as it comes.
#[test]
fn any_stamp_is_followed_up() {
    let mut port = port(NewState::Master);
    for id in [9, 9, 0, 65535] {
        let mut packet = [0; 64];
        let context = Context::Sync(id);
        let answer = port.handle(&Event::Stamp { time: 0, context }, &mut packet);
        assert_eq!(answer.length, 44);
        assert_eq!(packet[30..32], id.to_be_bytes());
    }
    assert_eq!(port, crate::common::port(NewState::Master));
}

/// End-to-end requests are the slave's; peer requests are everybody's.
#[test]
fn delay_timer() {
    for state in STATES {
        let mut end = port(state);
        let timer = Event::DelayTimer { draw: 1 };
        if matches!(state, NewState::Slave(_)) {
            let answer = act(&mut end, timer);
            let sent = Action::SendEvent {
                context: Context::DelayReq(0),
                link: false,
            };
            assert_eq!((answer.length, answer.actions[1]), (44, Some(sent)));
            assert_eq!(end.delay_id, 1);
        } else {
            ignored(&mut end, timer);
        }
        let mut peer = port(state);
        peer.config.mechanism = Mechanism::Peer;
        let answer = act(&mut peer, timer);
        let sent = Action::SendEvent {
            context: Context::PDelayReq(0),
            link: true,
        };
        assert_eq!((answer.length, answer.actions[1]), (54, Some(sent)));
        assert_eq!((peer.peer_id, peer.delay_id), (1, 0));
    }
}

/// A timer of no time at all is possible, and the timer stands before the packet.
#[test]
fn timers() {
    let mut port = slave();
    port.config.delay_interval = -9;
    let answer = act(&mut port, Event::DelayTimer { draw: 0 });
    assert_eq!(answer.actions[0], Some(Action::DelayTimer { ns: 0 }));
    let mut port = crate::common::port(NewState::Master);
    for (interval, ns) in [(-9, 1_953_125), (-1, 500_000_000), (16, 65_536_000_000_000)] {
        port.config.sync_interval = interval;
        let answer = act(&mut port, Event::SyncTimer);
        assert_eq!(answer.actions[0], Some(Action::SyncTimer { ns }));
    }
}

/// The mechanism has no say in who is answered, nor has the asker, be it ourselves; the
/// state has for DelayReq.
#[test]
fn answers() {
    for mechanism in [Mechanism::EndToEnd, Mechanism::Peer] {
        for state in STATES {
            for source in [OTHER, US] {
                let mut port = port(state);
                port.config.mechanism = mechanism;
                let before = port;
                let answer = act(&mut port, Wire::new(1).from(source).on_event(5));
                let expected = if state == NewState::Master { 54 } else { 0 };
                assert_eq!(answer.length, expected);
                let answer = act(&mut port, Wire::new(2).from(source).on_event(5));
                assert_eq!(answer.length, 54);
                let context = Context::PDelayResp(4, source);
                let answer = act(&mut port, Event::Stamp { time: 5, context });
                assert_eq!(answer.length, 54);
                assert_eq!(port, before);
            }
        }
    }
}
