//! The seven messages that are sent, byte by byte, and the bytes behind them.

use crate::common::*;
use plain::*;

/// 3 s + 5 ns and a fraction of 0xABCD / 2^16 ns and a bit that is cut off.
const TIME: u128 = (3_000_000_005 << 32) | 0xABCD_1234;
const STAMP: [u8; 10] = [0, 0, 0, 0, 0, 3, 0, 0, 0, 5];
const ZERO: [u8; 10] = [0; 10];

/// Hands the event over with a long buffer, checks that nothing behind the packet was
/// touched, and gives the packet and the action that sends it.
fn sent(port: &mut Port, event: Event) -> (Vec<u8>, Action) {
    let mut packet = [0x5A; 100];
    let answer = port.handle(&event, &mut packet);
    assert_eq!(answer.number, 0);
    assert!(packet[answer.length..].iter().all(|byte| *byte == 0x5A));
    let action = answer.actions[1].or(answer.actions[0]).unwrap();
    (packet[..answer.length].to_vec(), action)
}

/// Type, control, two-step flag, correction, id and log interval around our identity.
fn header(kind: u8, control: u8, flag: u8, correction: i64, id: u16, interval: u8) -> Vec<u8> {
    let length = if matches!(kind, 0 | 1 | 8) { 44 } else { 54 };
    let mut bytes = vec![0x10 | kind, 0x12, 0, length, 5, 0x23, flag, 0];
    bytes.extend(correction.to_be_bytes());
    bytes.extend([0; 4]);
    bytes.extend(US);
    bytes.extend(id.to_be_bytes());
    bytes.extend([control, interval]);
    assert_eq!(bytes.len(), 34);
    bytes
}

fn with(header: Vec<u8>, parts: &[[u8; 10]]) -> Vec<u8> {
    [header, parts.concat()].concat()
}

fn master() -> Port {
    let mut port = port(NewState::Master);
    port.sync_id = 0x0102;
    port
}

fn stamp(context: Context) -> Event<'static> {
    let time = TIME;
    Event::Stamp { time, context }
}

#[test]
fn sync_and_follow_up() {
    let (packet, action) = sent(&mut master(), Event::SyncTimer);
    // The sync interval is -2.
    assert_eq!(packet, with(header(0, 0, 2, 0, 0x0102, 0xFE), &[ZERO]));
    let context = Context::Sync(0x0102);
    let link = false;
    assert_eq!(action, Action::SendEvent { context, link });
    let (packet, action) = sent(&mut master(), stamp(context));
    let expected = with(header(8, 2, 0, 0xABCD, 0x0102, 0xFE), &[STAMP]);
    assert_eq!(packet, expected);
    assert_eq!(action, Action::SendGeneral { link });
}

#[test]
fn delay_request() {
    let mut port = slave();
    port.delay_id = 0x0304;
    let (packet, action) = sent(&mut port, Event::DelayTimer { draw: 0 });
    assert_eq!(packet, with(header(1, 1, 0, 0, 0x0304, 0x7F), &[ZERO]));
    let context = Context::DelayReq(0x0304);
    let link = false;
    assert_eq!(action, Action::SendEvent { context, link });
}

#[test]
fn peer_request() {
    let mut port = Port::new(config(Mechanism::Peer));
    port.peer_id = 0x0506;
    let (packet, action) = sent(&mut port, Event::DelayTimer { draw: 0 });
    assert_eq!(
        packet,
        with(header(2, 5, 0, 0, 0x0506, 0x7F), &[ZERO, ZERO])
    );
    let context = Context::PDelayReq(0x0506);
    let link = true;
    assert_eq!(action, Action::SendEvent { context, link });
}

/// The request's flags, minor version and log interval are not copied.
#[test]
fn delay_response() {
    let request = Wire::new(1).id(0x0708).from(OTHER).correct(0x1_0000);
    let request = request.byte(1, 0x02).bytes(6, &[0xFF, 0xFF]).byte(33, 0x44);
    let (packet, action) = sent(&mut master(), request.on_event(TIME));
    let correction = 0x1_0000 - 0xABCD;
    let expected = with(header(9, 3, 0, correction, 0x0708, 1), &[STAMP, OTHER]);
    assert_eq!(packet, expected);
    assert_eq!(action, Action::SendGeneral { link: false });
}

#[test]
fn peer_response_and_follow_up() {
    let request = Wire::new(2).id(0x090A).from(OTHER).correct(-3);
    let (packet, action) = sent(&mut master(), request.on_event(TIME));
    let correction = -3 - 0xABCD;
    let expected = with(header(3, 5, 2, correction, 0x090A, 0x7F), &[STAMP, OTHER]);
    assert_eq!(packet, expected);
    let context = Context::PDelayResp(0x090A, OTHER);
    let link = true;
    assert_eq!(action, Action::SendEvent { context, link });
    let (packet, action) = sent(&mut master(), stamp(context));
    let expected = with(header(10, 5, 0, 0xABCD, 0x090A, 0x7F), &[STAMP, OTHER]);
    assert_eq!(packet, expected);
    assert_eq!(action, Action::SendGeneral { link });
}

/// Minor version 0 and the ends of the sdo id.
#[test]
fn own_sdo_and_minor_version() {
    for (sdo, bytes) in [
        (0, [0x00, 0x00]),
        (0xFFF, [0xF0, 0xFF]),
        (0xA05, [0xA0, 0x05]),
    ] {
        for minor in [0, 1] {
            let mut port = master();
            (port.config.sdo, port.config.minor) = (sdo, minor);
            let (packet, _) = sent(&mut port, Event::SyncTimer);
            assert_eq!([packet[0], packet[5]], bytes);
            assert_eq!(packet[1], minor << 4 | 2);
        }
    }
}

/// An event that sends nothing leaves the whole buffer as it was.
#[test]
fn nothing_sent_nothing_written() {
    let mut port = slave();
    let (first, second) = (sync(1).two_step(), follow_up(1, 3));
    for event in [
        first.on_event(5),
        second.on_general(),
        Event::SetState(NewState::Faulty),
        Event::Filter {
            mean: Some(1),
            next: Some(1),
        },
    ] {
        let mut packet = [0x5A; 64];
        let answer = port.handle(&event, &mut packet);
        assert_eq!((answer.number, answer.length), (0, 0));
        assert_eq!(packet, [0x5A; 64]);
    }
}

/// Two of our own ports, joined by hand, measure what they should: sent corrections and
/// timestamps mean what received ones do.
#[test]
fn two_ports_agree() {
    let mut master = port(NewState::Master);
    let mut slave = port(NewState::Slave(US));
    let carry = |bytes: Vec<u8>, port: &mut Port, time| {
        act(
            port,
            Event::Event {
                time,
                message: &bytes,
            },
        )
    };
    // A frame takes 7 ns and 0x4321 / 2^16 ns on the way.
    let way = (7 << 32) | 0x4321_0000;
    let start = TIME & !0xFFFF;
    let (sync, _) = sent(&mut master, Event::SyncTimer);
    carry(sync, &mut slave, start + way);
    let context = Context::Sync(0);
    let event = Event::Stamp {
        time: start,
        context,
    };
    let (tail, _) = sent(&mut master, event);
    let answer = carry(tail, &mut slave, 0);
    assert_eq!(answer.measurement.unwrap().value, way as i128);
    let (request, _) = sent(&mut slave, Event::DelayTimer { draw: 0 });
    let context = Context::DelayReq(0);
    act(&mut slave, Event::Stamp { time: 0, context });
    let mut packet = [0; 64];
    let event = Event::Event {
        time: start,
        message: &request,
    };
    let length = master.handle(&event, &mut packet).length;
    let answer = carry(packet[..length].to_vec(), &mut slave, 0);
    assert_eq!(answer.measurement.unwrap().value, -(start as i128));
}
