//! Good and damaged logs (readings 1 to 6): which fields are bad, and where.

use crate::common::*;
use plain::*;

const HEAD: usize = 36;

fn start() -> Vec<u8> {
    config_field(&config(Mechanism::EndToEnd))
}

/// What a replay writes for one outer field behind a good configuration and one event.
fn second(field: &[u8]) -> String {
    let log = [start(), event_field(&Event::SyncTimer), field.to_vec()].concat();
    let written = replay(&log);
    let rest = written.strip_prefix("1 0 - -\n").expect("the first line");
    let (_, events, bad) = parse(&log);
    assert_eq!(bad.is_none(), events.len() == 2);
    rest.to_string()
}

fn bad(field: &[u8]) {
    assert_eq!(
        second(field),
        format!("bad at {}\n", HEAD + 3),
        "{field:02x?}"
    );
}

fn good(field: &[u8], number: u8) {
    assert_eq!(second(field), format!("2 {number} - -\n"), "{field:02x?}");
}

fn time(time: u128) -> Vec<u8> {
    field(1, &time.to_be_bytes())
}

#[test]
fn empty_log() {
    assert_eq!(replay(&[]), "bad at 0\n");
    assert_eq!(trace(&[]), "bad at 0\n");
    assert_eq!(parse(&[]), (None, vec![], Some(0)));
}

#[test]
fn configuration_alone() {
    assert_eq!(replay(&start()), "");
    assert_eq!(trace(&start()), "end 0 - - - - - - 0:0:0\n");
    let expected = config(Mechanism::EndToEnd);
    assert_eq!(parse(&start()), (Some(expected), vec![], None));
}

#[test]
fn configuration_damaged() {
    for cut in 0..HEAD {
        assert_eq!(replay(&start()[..cut]), "bad at 0\n");
    }
    for length in [0, 32, 34] {
        assert_eq!(replay(&field(0x0F, &vec![0; length])), "bad at 0\n");
    }
    let mut log = start();
    for mechanism in 2..=255 {
        log[3 + 14] = mechanism;
        assert_eq!(replay(&log), "bad at 0\n");
    }
    // Something else first, even with the value of a configuration, and one too many.
    for tag in (0..=255).filter(|tag| *tag != 0x0F) {
        let value = &start()[3..];
        assert_eq!(replay(&field(tag, value)), "bad at 0\n");
        assert_eq!(parse(&field(tag, value)), (None, vec![], Some(0)));
    }
    assert_eq!(replay(&event_field(&Event::SyncTimer)), "bad at 0\n");
    bad(&start());
    assert_eq!(replay(&[start(), start()].concat()), "bad at 36\n");
}

/// Signs and places of the configuration's numbers; values out of limits are good fields.
#[test]
fn configuration_values() {
    let odd = Config {
        identity: OTHER,
        sdo: 0xFEDC,
        domain: 0x87,
        minor: 0x65,
        mechanism: Mechanism::Peer,
        delay_interval: -10,
        sync_interval: 17,
        asymmetry: -2,
    };
    let log = log_of(&odd, &[Event::SyncTimer, Event::SetState(NewState::Master)]);
    assert_eq!(parse(&log).0, Some(odd));
    assert_eq!(replay(&log), "1 2 - -\n2 2 - -\n");
}

#[test]
fn tags() {
    for tag in (0..=0x0F).chain(0x17..=0xFF) {
        bad(&field(tag, &[]));
        bad(&field(tag, &[0; 33]));
    }
}

#[test]
fn trailing_bytes() {
    for tag in [0x13, 0x10, 0x0F, 0xFF] {
        bad(&[tag]);
        bad(&[tag, 0]);
    }
    let whole = event_field(&Wire::new(0).on_event(5));
    for cut in 1..whole.len() {
        bad(&whole[..cut]);
    }
    bad(&[0x10, 0xFF, 0xFF]);
    bad(&[0x13, 0, 1, 0]);
}

#[test]
fn event_message() {
    let message = |length| field(2, &vec![0; length]);
    good(&field(0x10, &[time(0), message(0)].concat()), 4);
    good(&field(0x10, &[time(LAST + 1), message(0)].concat()), 3);
    good(&field(0x10, &[time(0), message(1024)].concat()), 4);
    bad(&field(0x10, &[time(0), message(1025)].concat()));
    bad(&field(0x10, &[message(0), time(0)].concat()));
    bad(&field(0x10, &time(0)));
    bad(&field(0x10, &message(0)));
    bad(&field(0x10, &[]));
    bad(&field(0x10, &[time(0), time(0), message(0)].concat()));
    bad(&field(0x10, &[time(0), message(0), message(0)].concat()));
    bad(&field(0x10, &[field(1, &[0; 15]), message(0)].concat()));
    bad(&field(0x10, &[field(1, &[0; 17]), message(0)].concat()));
    bad(&field(
        0x10,
        &[time(0), message(0), field(3, &[0; 3])].concat(),
    ));
    bad(&field(0x10, &[time(0), message(0), vec![0]].concat()));
    // An inner length that runs out of the event, into what would be the next one.
    let short = field(0x10, &[&time(0)[..], &[2, 0, 3]].concat());
    bad(&[short, vec![0x13, 0, 0]].concat());
    let short = field(0x10, &[&time(0)[..], &[2, 0]].concat());
    bad(&[short, vec![0; 3]].concat());
}

#[test]
fn general_message() {
    good(&field(0x11, &field(2, &[])), 4);
    good(&field(0x11, &field(2, &[0; 1024])), 4);
    bad(&field(0x11, &field(2, &[0; 1025])));
    bad(&field(0x11, &[]));
    bad(&field(0x11, &[time(0), field(2, &[])].concat()));
}

#[test]
fn stamps() {
    let stamp = |value: &[u8]| field(0x12, &[time(0), field(3, value)].concat());
    for kind in 0..=2 {
        good(&stamp(&[kind, 0, 7]), 0);
        bad(&stamp(&[kind, 0]));
        bad(&stamp(&[kind, 0, 7, 0]));
        bad(&stamp(&[&[kind, 0, 7], &US[..]].concat()));
    }
    good(&stamp(&[&[3, 0, 7], &US[..]].concat()), 0);
    bad(&stamp(&[3, 0, 7]));
    bad(&stamp(&[&[3, 0, 7], &US[1..]].concat()));
    bad(&stamp(&[&[3, 0, 7], &US[..], &[0]].concat()));
    for kind in 4..=255 {
        bad(&stamp(&[kind, 0, 7]));
        bad(&stamp(&[&[kind, 0, 7], &US[..]].concat()));
    }
    bad(&stamp(&[]));
    bad(&field(0x12, &time(0)));
    bad(&field(0x12, &field(3, &[0; 3])));
    bad(&field(0x12, &[field(3, &[0; 3]), time(0)].concat()));
    good(
        &field(0x12, &[time(u128::MAX), field(3, &[0; 3])].concat()),
        3,
    );
}

#[test]
fn timers() {
    good(&field(0x13, &[]), 0);
    bad(&field(0x13, &[0]));
    bad(&field(0x13, &field(4, &[0; 8])));
    good(&field(0x14, &field(4, &[0; 8])), 0);
    good(&field(0x14, &field(4, &(1u64 << 52).to_be_bytes())), 3);
    bad(&field(0x14, &field(4, &[0; 7])));
    bad(&field(0x14, &field(4, &[0; 9])));
    bad(&field(0x14, &[]));
}

#[test]
fn filter_answers() {
    let (mean, next) = (field(5, &[0xFF; 16]), field(6, &[0xFF; 8]));
    good(&field(0x15, &[]), 0);
    good(&field(0x15, &mean), 0);
    good(&field(0x15, &next), 0);
    good(&field(0x15, &[mean.clone(), next.clone()].concat()), 0);
    bad(&field(0x15, &[next.clone(), mean.clone()].concat()));
    bad(&field(0x15, &[mean.clone(), mean.clone()].concat()));
    bad(&field(0x15, &[next.clone(), next.clone()].concat()));
    bad(&field(0x15, &[mean.clone(), next, mean].concat()));
    bad(&field(0x15, &field(5, &[0; 15])));
    bad(&field(0x15, &field(6, &[0; 16])));
    bad(&field(0x15, &field(7, &[0])));
    let log = [start(), field(0x15, &field(5, &[0xFF; 16]))].concat();
    let event = Event::Filter {
        mean: Some(-1),
        next: None,
    };
    assert_eq!(parse(&log).1, vec![event]);
}

#[test]
fn states() {
    let set = |value: &[u8]| field(0x16, &field(7, value));
    for state in 0..=3 {
        good(&set(&[state]), 0);
        bad(&set(&[state, 0]));
        bad(&set(&[&[state], &US[..]].concat()));
    }
    good(&set(&[&[4], &US[..]].concat()), 0);
    bad(&set(&[4]));
    bad(&set(&[&[4], &US[1..]].concat()));
    bad(&set(&[&[4], &US[..], &[0]].concat()));
    for state in 5..=255 {
        bad(&set(&[state]));
        bad(&set(&[&[state], &US[..]].concat()));
    }
    bad(&set(&[]));
    bad(&field(0x16, &[]));
    bad(&field(0x16, &[field(7, &[0]), field(7, &[0])].concat()));
}

/// Everything that can be written reads back.
#[test]
fn read_back() {
    let message = [9; 1024];
    let events = [
        Event::Event {
            time: u128::MAX,
            message: &message,
        },
        Event::General { message: &[] },
        Event::Stamp {
            time: 1 << 99,
            context: Context::PDelayResp(0x1234, OTHER),
        },
        Event::Stamp {
            time: 0,
            context: Context::PDelayReq(0xFFFF),
        },
        Event::SyncTimer,
        Event::DelayTimer { draw: u64::MAX },
        Event::Filter {
            mean: Some(i128::MIN),
            next: Some(u64::MAX),
        },
        Event::SetState(NewState::Slave(OTHER)),
        Event::SetState(NewState::Faulty),
    ];
    let config = config(Mechanism::Peer);
    let log = log_of(&config, &events);
    assert_eq!(parse(&log), (Some(config), events.to_vec(), None));
}
