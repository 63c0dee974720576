//! Readings 1 to 6: the event log.

use crate::cast::*;
use crate::record::End;
use crate::script::Script;
use crate::Case;
use generate::build::{config_bytes, field, joined, Log, CONFIG, STAMP};

pub fn all() -> Vec<Case> {
    vec![
        out_of_limits(),
        unfit(),
        mechanism(),
        signed(),
        widths(),
        config_twice(),
        config_alone(),
        lines_stay(),
        one_byte_left(),
        two_bytes_left(),
        past_the_end(),
        empty_fields(),
        largest_message(),
        message_too_large(),
    ]
}

fn out_of_limits() -> Case {
    let mut s = Script::new(end_to_end(0));
    s.slave(MASTER).nothing();
    for time in [1 << 127, 1 << 127 | 77, u128::MAX] {
        s.event(time, &sync(1)).refused(3);
        s.stamp(time, Context::DelayReq(0)).refused(3);
    }
    for draw in [1 << 52, 1 << 63, u64::MAX] {
        s.delay_timer(draw).refused(3);
    }
    s.event(TOP, &two_step_sync(2)).nothing();
    s.stamp(TOP, Context::DelayReq(0)).nothing();
    // (2^53 - 1) / 2^53 of twice 2^-3 s, rounded.
    s.delay_timer((1 << 52) - 1)
        .sends(&sent(1, 0), "delay-timer:250000000,event:1:0");
    s.end(
        "reading-01-time-and-draw",
        "Reading 1: a time of 2^127 and a draw of 2^52 are answered 3 and the log goes on; a strict \
         reader calls the log bad.",
        End::slave(MASTER)
            .sync(2, None, Some(TOP))
            .delay(0, None, None)
            .ids(0, 1, 0),
    )
}

fn unfit() -> Case {
    let config = Config {
        sdo: 0xFFFF,
        minor: 0x80,
        delay_interval: i8::MIN,
        sync_interval: i8::MAX,
        ..end_to_end(0)
    };
    let mut s = Script::new(config);
    s.set(NewState::Master).refused(2);
    s.sync_timer().refused(2);
    s.filter(None, None).refused(2);
    s.general_bytes(&[]).refused(2);
    s.end(
        "reading-02-unfit-configuration",
        "Reading 2: configuration values out of limits make every answer 2; a strict reader calls \
         the log bad.",
        End::listening(),
    )
}

fn mechanism() -> Case {
    // Out of limits as well, which does not matter.
    let sdo = 0xFFFF;
    let mut bytes = config_bytes(&Config { sdo, ..peer(0) });
    bytes[14] = 2;
    Script::on(Log::empty()).bad_at(
        0,
        &[field(CONFIG, &bytes), field(0x13, &[])].concat(),
        "reading-02-mechanism",
        "Reading 2: mechanism 2 makes the first field bad; a lax reader answers 2 or takes it for \
         peer.",
    )
}

fn signed() -> Case {
    let config = Config {
        delay_interval: -9,
        sync_interval: -1,
        ..end_to_end(-1)
    };
    let mut s = Script::new(config);
    s.set(NewState::Master).nothing();
    s.sync_timer()
        .sends(&sent_under(&config, 0, 0), "sync-timer:500000000,event:0:0");
    s.mean(-1);
    s.slave(MASTER).nothing();
    s.event(units(9), &sync(1).with_ns(9))
        .sync(1, units(9), Some(2));
    // 10^9 / 512.
    s.delay_timer(MIDDLE)
        .sends(&sent(1, 0), "delay-timer:1953125,event:1:0");
    s.end(
        "reading-03-signed",
        "Reading 3: intervals, asymmetry and mean delay are signed; unsigned, the record is unfit \
         or the sums leave their range.",
        End::slave(MASTER)
            .delay(0, None, None)
            .raw(1)
            .mean(-1)
            .ids(1, 1, 0),
    )
}

fn widths() -> Case {
    let mut s = Script::new(end_to_end(0));
    s.stamp(5, Context::Sync(0x0102)).nothing();
    s.stamp(5, Context::DelayReq(0x0102)).nothing();
    s.stamp(5, Context::PDelayReq(0x0102)).nothing();
    s.stamp(units(5), Context::PDelayResp(0x0102, CLIENT))
        .answers(10, 0x0102, 5);
    s.set(NewState::Listening).nothing();
    s.set(NewState::Master).nothing();
    s.set(NewState::Passive).nothing();
    s.slave(MASTER).nothing();
    s.set(NewState::Faulty).reset();
    // 36 of configuration, three stamps of 28, one of 38, four states of 7, one of 17.
    let inner = joined(&[(1, vec![0; 16]), (3, vec![3, 1, 2])]);
    s.bad_at(
        203,
        &field(STAMP, &inner),
        "reading-03-widths",
        "Reading 3: a context has 3 bytes or, for kind 3, 13; a state 1 or, for Slave, 11; other \
         widths move every offset.",
    )
}

fn config_twice() -> Case {
    let mut s = Script::new(end_to_end(0));
    s.set(NewState::Master).nothing();
    s.send_sync(0);
    let again = field(CONFIG, &config_bytes(&end_to_end(0)));
    // 36 + 7 + 3
    s.bad_at(
        46,
        &again,
        "reading-04-second-configuration",
        "Reading 4: a configuration comes first and once; a lax reader starts afresh or ignores \
         the second.",
    )
}

fn config_alone() -> Case {
    Script::new(peer(-1)).end(
        "reading-04-configuration-alone",
        "Reading 4: a configuration alone is a good log without an event; a strict reader calls it \
         bad.",
        End::listening(),
    )
}

/// A log of 43 good bytes.
fn one_event() -> Script {
    let mut s = Script::new(end_to_end(0));
    s.set(NewState::Faulty).reset();
    s
}

fn lines_stay() -> Case {
    let mut s = one_event();
    s.general_bytes(&[1]).refused(4);
    // 43 + 3 + 3 + 1
    s.bad_at(
        50,
        &field(0x17, &[]),
        "reading-05-lines-stay",
        "Reading 5: the lines before a bad field stay; a reader that checks the log as a whole \
         writes none.",
    )
}

fn one_byte_left() -> Case {
    one_event().bad_at(
        43,
        &[0x13],
        "reading-05-one-byte-left",
        "Reading 5: a single byte behind the last event makes the log bad there; a lax reader \
         drops it.",
    )
}

fn two_bytes_left() -> Case {
    one_event().bad_at(
        43,
        &[0x13, 0],
        "reading-05-two-bytes-left",
        "Reading 5: two bytes behind the last event do so as well; a lax reader drops them.",
    )
}

fn past_the_end() -> Case {
    one_event().bad_at(
        43,
        &[0x16, 0, 5, 7, 0, 1, 0],
        "reading-05-length-past-the-end",
        "Reading 5: a field that wants more bytes than follow is bad, even where those that do \
         would make a good event.",
    )
}

fn empty_fields() -> Case {
    let mut s = Script::new(end_to_end(0));
    s.event_bytes(5, &[]).refused(4);
    s.general_bytes(&[]).refused(4);
    s.filter(None, None).nothing();
    s.sync_timer().nothing();
    s.end(
        "reading-06-empty-fields",
        "Reading 6: an empty message is answered 4, an empty filter answer 0; a strict reader \
         calls them bad.",
        End::listening(),
    )
}

fn largest_message() -> Case {
    let mut s = Script::new(end_to_end(0));
    s.slave(MASTER).nothing();
    let rest = [0xAB; 980];
    s.event(units(9), &two_step_sync(3).with_extra(&rest))
        .nothing();
    s.general(&follow_up(3).with_ns(2).with_extra(&rest))
        .sync(duration(7), units(9), None);
    s.end(
        "reading-06-message-of-1024",
        "Reading 6: 1024 bytes are allowed, and those behind the body are not read; a small buffer \
         refuses them.",
        End::slave(MASTER).raw(duration(7)),
    )
}

fn message_too_large() -> Case {
    let message = two_step_sync(3).with_extra(&[0xAB; 981]);
    let inner = joined(&[(1, vec![0; 16]), (2, message.to_bytes())]);
    one_event().bad_at(
        43,
        &field(0x10, &inner),
        "reading-06-message-of-1025",
        "Reading 6: 1025 bytes are a bad field; a lax reader takes the Sync.",
    )
}
