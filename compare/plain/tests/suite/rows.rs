//! The table of numbers, row by row, and its order (readings 8 to 10). Row 2 has a
//! module of its own.

use crate::common::*;
use plain::*;

/// One event of each kind, all of them good.
fn every_event(message: &[u8]) -> [Event<'_>; 7] {
    [
        Event::Event { time: 0, message },
        Event::General { message },
        Event::Stamp {
            time: 0,
            context: Context::Sync(0),
        },
        Event::SyncTimer,
        Event::DelayTimer { draw: 0 },
        Event::Filter {
            mean: Some(1),
            next: Some(1),
        },
        Event::SetState(NewState::Passive),
    ]
}

#[test]
fn row_1_before_all_and_for_every_event() {
    let message = Wire::new(0);
    for event in every_event(message.raw()) {
        for length in [0, 1, 53, 54, 63] {
            let mut port = port(NewState::Master);
            let before = port;
            let mut packet = vec![7; length];
            assert_eq!(port.handle(&event, &mut packet), nothing(1));
            assert_eq!((port, packet), (before, vec![7; length]));
            // An unfit record makes no difference.
            port.config.minor = 9;
            assert_eq!(port.handle(&event, &mut vec![7; length]), nothing(1));
        }
        for length in [64, 65, 2000] {
            let mut port = port(NewState::Master);
            assert_eq!(port.handle(&event, &mut vec![7; length]).number, 0);
        }
    }
}

#[test]
fn row_2_before_3_and_for_every_event() {
    let message = Wire::new(0).byte(1, 0);
    for event in every_event(message.raw()) {
        let mut port = slave();
        port.config.sdo = 0x1000;
        assert_eq!(refused(&mut port, event), 2);
    }
    let mut port = slave();
    port.config.sdo = 0x1000;
    assert_eq!(refused(&mut port, Event::DelayTimer { draw: u64::MAX }), 2);
}

/// Row 3 comes ahead of row 4 and asks nobody whether the time or draw is of use.
#[test]
fn row_3() {
    let mut port = port(NewState::Listening);
    for time in [LAST + 1, u128::MAX] {
        let event = Event::Event { time, message: &[] };
        assert_eq!(refused(&mut port, event), 3);
        for context in [
            Context::Sync(0),
            Context::DelayReq(0),
            Context::PDelayReq(0),
            Context::PDelayResp(0, US),
        ] {
            assert_eq!(refused(&mut port, Event::Stamp { time, context }), 3);
        }
    }
    for draw in [1 << 52, u64::MAX] {
        assert_eq!(refused(&mut port, Event::DelayTimer { draw }), 3);
    }
    let draw = (1 << 52) - 1;
    ignored(&mut port, Event::DelayTimer { draw });
    let context = Context::Sync(0);
    let time = LAST;
    ignored(&mut port, Event::Stamp { time, context });
    ignored(&mut port, Wire::new(0).on_event(LAST));
}

/// Rows 4 and 5 on both entries.
fn both(message: &[u8]) -> u8 {
    let mut port = slave();
    let number = refused(&mut port, Event::General { message });
    assert_eq!(
        refused(&mut port, Event::Event { time: 0, message }),
        number
    );
    number
}

#[test]
fn row_4() {
    assert_eq!(both(&[]), 4);
    assert_eq!(both(&[0]), 4);
    assert_eq!(both(&[0, 0]), 4);
    for version in (0..16).filter(|version| *version != 2) {
        assert_eq!(both(Wire::new(8).byte(1, 0x10 | version).raw()), 4);
        // Even where row 5 would refuse as well.
        assert_eq!(both(Wire::new(4).byte(1, version).raw()), 4);
    }
    assert_eq!(both(&[0, 2]), 5);
}

#[test]
fn row_5() {
    assert_eq!(both(&Wire::new(11).raw()[..33]), 5);
    assert_eq!(both(&[0x10, 0x12]), 5);
    for kind in [4, 5, 6, 7, 14, 15] {
        assert_eq!(both(Wire::new(kind).raw()), 5);
        // A foreign domain does not come first.
        assert_eq!(both(Wire::new(kind).byte(4, 99).raw()), 5);
    }
    for (kind, length) in [
        (0, 44),
        (1, 44),
        (8, 44),
        (2, 54),
        (3, 54),
        (9, 54),
        (10, 54),
    ] {
        let short = Wire::new(kind).byte(3, length - 1);
        assert_eq!(both(short.raw()), 5);
        assert_eq!(both(&Wire::new(kind).raw()[..usize::from(length) - 1]), 5);
        let long = Wire::new(kind).byte(3, length + 1);
        assert_eq!(both(long.raw()), 5);
        taken(&long.tail(&[0]));
        taken(&Wire::new(kind).tail(&[0xFF; 100]));
    }
    for stated in [0, 33, 35] {
        assert_eq!(both(Wire::new(11).byte(3, stated).raw()), 5);
    }
    assert_eq!(both(Wire::new(11).byte(2, 1).raw()), 5);
}

fn taken(message: &Wire) {
    let mut port = port(NewState::Passive);
    assert_eq!(act(&mut port, message.on_event(0)).number, 0);
    assert_eq!(act(&mut port, message.on_general()).number, 0);
}

/// All twelve bits of the sdo id count, on both entries and for all types.
#[test]
fn row_6() {
    for kind in [0, 1, 2, 3, 8, 9, 10, 11, 12, 13] {
        assert_eq!(both(Wire::new(kind).byte(4, 6).raw()), 6);
        assert_eq!(both(Wire::new(kind).byte(5, 0x22).raw()), 6);
        assert_eq!(both(Wire::new(kind).byte(0, 0x20 | kind).raw()), 6);
        assert_eq!(both(Wire::new(kind).byte(0, kind).raw()), 6);
    }
}

/// The host's types need no more than a header, and may be longer.
#[test]
fn row_8() {
    for kind in [11, 12, 13] {
        assert_eq!(both(Wire::new(kind).raw()), 8);
        assert_eq!(both(Wire::new(kind).tail(&[0; 30]).raw()), 8);
        assert_eq!(both(Wire::new(kind).tail(&[0; 30]).byte(3, 64).raw()), 8);
        assert_eq!(both(Wire::new(kind).tail(&[0; 30]).byte(3, 50).raw()), 8);
    }
}

/// Row 7 and its neighbours: see also the module on ranges.
#[test]
fn row_7() {
    let mut port = slave();
    let message = sync(7).two_step().correct(1);
    assert_eq!(refused(&mut port, message.on_event(65_535)), 7);
    assert_eq!(act(&mut port, message.on_event(65_536)).number, 0);
    assert_eq!(slave_state(&port).sync.unwrap().receive, Some(0));
}

/// Types 0 to 3 on the general entry do nothing, not even where they would be answered
/// or tell of a second responder.
#[test]
fn event_messages_on_the_general_entry() {
    let mut master = port(NewState::Master);
    let mut slave = slave();
    for kind in [0, 1, 2, 3] {
        ignored(&mut master, Wire::new(kind).on_general());
        ignored(&mut slave, Wire::new(kind).on_general());
        ignored(&mut slave, Wire::new(kind).correct(i64::MIN).on_general());
    }
    let mut peer = measuring();
    act(&mut peer, peer_resp(0, 1).two_step().on_event(0));
    ignored(&mut peer, peer_resp(0, 1).from(OTHER).on_general());
}

/// Types 8, 9 and 10 work on the event entry as on the general one.
#[test]
fn general_messages_on_the_event_entry() {
    let mut end = slave();
    act(&mut end, Event::DelayTimer { draw: 0 });
    let peer = measuring();
    for (port, message) in [
        (&end, follow_up(7, 900).correct(3)),
        (&end, delay_resp(0, 900).correct(3)),
        (&peer, peer_follow_up(0, 900).correct(3)),
    ] {
        let (mut general, mut event) = (*port, *port);
        let answer = act(&mut general, message.on_general());
        assert_eq!(act(&mut event, message.on_event(ns(5))), answer);
        assert_eq!(general, event);
        assert_ne!(general, *port);
    }
}
