//! The exact lines of a trace (TRACE; the four first fields are those of a replay).

use crate::common::*;
use plain::*;

const MASTER_HEX: &str = "b0b1b2b3b4b5b6b70002";
const OTHER_HEX: &str = "c0c1c2c3c4c5c6c70003";

/// The lines of a trace of these events.
fn traced(mechanism: Mechanism, events: &[Event]) -> Vec<String> {
    let written = trace(&log_of(&config(mechanism), events));
    assert!(written.ends_with('\n'));
    written.lines().map(str::to_string).collect()
}

/// Our packets in hex: the bytes that differ around our identity.
fn packet(start: &str, id_to_interval: &str, body: &str) -> String {
    let us = "a0a1a2a3a4a5a6a70001";
    format!("{start}000000000000000000000000{us}{id_to_interval}{body}")
}

/// Every form of an action.
#[test]
fn actions() {
    let request = Wire::new(2).id(9).from(OTHER);
    let stamp = |time, context| Event::Stamp { time, context };
    let events = [
        request.on_event(ns(7)),
        stamp(ns(8), Context::PDelayResp(9, OTHER)),
        Event::DelayTimer { draw: 0 },
        Event::SetState(NewState::Master),
        Event::SyncTimer,
        stamp(LAST, Context::Sync(3)),
        stamp(ns(1), Context::Sync(3)),
    ];
    let lines = traced(Mechanism::Peer, &events);
    let body = format!("00000000000000000007{OTHER_HEX}");
    let sent = packet("1312003605230200", "0009057f", &body);
    let action = format!("event:3:9:{OTHER_HEX}:link");
    assert_eq!(lines[0], format!("1 0 - - - - - {sent} {action} -"));
    let body = format!("00000000000000000008{OTHER_HEX}");
    let sent = packet("1a12003605230000", "0009057f", &body);
    assert_eq!(lines[1], format!("2 0 - - - - - {sent} general:link -"));
    let sent = packet("1212003605230000", "0000057f", &"0".repeat(40));
    let action = "delay-timer:0,event:2:0:link";
    assert_eq!(lines[2], format!("3 0 - - - - - {sent} {action} -"));
    let sent = packet("1012002c05230200", "000000fe", &"0".repeat(20));
    let action = "sync-timer:250000000,event:0:0";
    assert_eq!(lines[4], format!("5 0 - - - - - {sent} {action} -"));
    assert_eq!(lines[5], "6 7 - - - - - - - -");
    let sent = packet("1812002c05230000", "000302fe", "00000000000000000001");
    assert_eq!(lines[6], format!("7 0 - - - - - {sent} general -"));
    assert_eq!(lines[7], "end 1 - - - - open:0:-:-:-:-:- - 1:0:1");
}

/// Resets, a filter timer, and an open peer exchange with a responder at the end.
#[test]
fn resets_and_an_open_peer_exchange() {
    let response = peer_resp(0, 5000).two_step();
    let second = response.clone().from(OTHER);
    let events = [
        Event::DelayTimer { draw: 0 },
        Event::Filter {
            mean: Some(-1),
            next: Some(10),
        },
        response.on_event(ns(1101)),
        second.on_event(0),
        Event::SetState(NewState::Passive),
    ];
    let lines = traced(Mechanism::Peer, &events);
    assert_eq!(lines[1], "2 0 - - - - - - filter-timer:10 -");
    assert_eq!(lines[2], "3 0 - - - - - - - -");
    assert_eq!(lines[3], "4 0 - - - - - - - reset");
    assert_eq!(lines[4], "5 0 - - - - - - - reset");
    let times = format!("-:{:032x}:-:{:032x}", ns(5000), ns(1101));
    let (peer, mean) = (format!("open:0:{MASTER_HEX}:{times}"), "f".repeat(32));
    assert_eq!(lines[5], format!("end 2 - - - - {peer} {mean} 0:0:1"));
}

/// The measurement's parts, and the record of a slave at the end.
#[test]
fn slave() {
    let (one, two, three) = (sync(6).at(1000), sync(7).two_step(), delay_resp(0, 1990));
    let events = [
        Event::SetState(NewState::Slave(MASTER)),
        Event::Filter {
            mean: Some(1),
            next: None,
        },
        one.on_event(ns(1100)),
        Event::DelayTimer { draw: 1 << 51 },
        three.on_general(),
        Event::Stamp {
            time: ns(2000),
            context: Context::DelayReq(0),
        },
        two.on_event(ns(3)),
        Event::DelayTimer { draw: 1 << 51 },
    ];
    let lines = traced(Mechanism::EndToEnd, &events);
    let (raw, offset) = (100i128 << 32, (100i128 << 32) - 1);
    let value = |value: i128| format!("{value:032x}");
    let (first, at) = (value(raw), value(1100 << 32));
    assert_eq!(
        lines[2],
        format!("3 0 S {first} {at} {} - - - -", value(offset))
    );
    // Log interval 1: about two seconds.
    assert!(lines[3].ends_with(" delay-timer:2000000000,event:1:0 -"));
    let (raw, at, delay) = (value(10 << 32), value(2000 << 32), value(45 << 32));
    assert_eq!(lines[5], format!("6 0 D {raw} {at} - {delay} - - -"));
    let (at, mean) = (value(3 << 32), value(1));
    let end = format!("end 4 b0b1b2b3b4b5b6b70002 7:-:{at} 1:-:- {first} - {mean} 0:2:0");
    assert_eq!(lines[8], end);
    assert_eq!(lines.len(), 9);
}

/// A peer exchange that is done.
#[test]
fn done_peer_exchange() {
    let response = peer_resp(0, 5000);
    let events = [
        Event::DelayTimer { draw: 0 },
        Event::Stamp {
            time: ns(1000),
            context: Context::PDelayReq(0),
        },
        Event::SetState(NewState::Faulty),
        response.on_event(ns(1003)),
    ];
    let lines = traced(Mechanism::Peer, &events);
    let (half, at) = (3u128 << 31, ns(1003));
    assert_eq!(
        lines[3],
        format!("4 0 P {half:032x} {at:032x} - - - - reset")
    );
    assert_eq!(
        lines[4],
        "end 0 - - - - done:0:b0b1b2b3b4b5b6b70002 - 0:0:1"
    );
}
