//! Rows 2 and 3: the record and the event's own numbers.

use crate::cast::*;
use crate::record::End;
use crate::script::Script;
use crate::Case;

pub fn all() -> Vec<Case> {
    let unfit = UNFIT.map(|(name, config)| unfit(name, config));
    let fit = vec![
        highest_but_delay(),
        lowest_but_delay(),
        event_times(),
        stamps(),
        draws(),
    ];
    [unfit.to_vec(), fit].concat()
}

/// Each value just out of its limits, and some far out.
const UNFIT: [(&str, Config); 8] = [
    (
        "row-2-sdo-4096",
        Config {
            sdo: 0x1000,
            ..BASE
        },
    ),
    (
        "row-2-sdo-top-bits",
        Config {
            sdo: 0xFA5C,
            ..BASE
        },
    ),
    ("row-2-minor-2", Config { minor: 2, ..BASE }),
    (
        "row-2-minor-low-nibble",
        Config {
            minor: 0x10,
            ..BASE
        },
    ),
    (
        "row-2-delay-interval-17",
        Config {
            delay_interval: 17,
            ..BASE
        },
    ),
    (
        "row-2-delay-interval-under",
        Config {
            delay_interval: -10,
            ..BASE
        },
    ),
    (
        "row-2-sync-interval-17",
        Config {
            sync_interval: 17,
            ..BASE
        },
    ),
    (
        "row-2-sync-interval-under",
        Config {
            sync_interval: -10,
            ..BASE
        },
    ),
];

/// Every kind of event, among them such as rows 3 to 8 would refuse.
fn unfit(name: &'static str, config: Config) -> Case {
    let mut s = Script::new(config);
    s.set(NewState::Master).refused(2);
    s.event(units(9), &sync(1)).refused(2);
    s.event(1 << 127, &sync(1)).refused(2);
    s.event_bytes(units(9), &[]).refused(2);
    s.general(&follow_up(1).with_length(43)).refused(2);
    s.general(&foreign(follow_up(1))).refused(2);
    s.general(&of_type(11, follow_up(1))).refused(2);
    s.stamp(LATE, Context::PDelayResp(1, PEER)).refused(2);
    s.sync_timer().refused(2);
    s.delay_timer(MIDDLE).refused(2);
    s.delay_timer(1 << 52).refused(2);
    s.filter(Some(7), Some(7)).refused(2);
    s.end(
        name,
        "Row 2: one value out of its limits makes every answer 2, before any other row; a port \
         that looks only where it uses the value answers 0, 3, 4, 5, 6, 7 or 8.",
        End::listening(),
    )
}

/// All that a port of this configuration sends of its own accord. The delay timers are
/// those of the first and the last draw.
fn speaks(config: Config, sync_timer: u64, delay_timer: u64) -> Script {
    let mut s = Script::new(config);
    s.set(NewState::Master).nothing();
    for id in [0, 1] {
        s.sync_timer().sends(
            &sent_under(&config, 0, id),
            &format!("sync-timer:{sync_timer},event:0:{id}"),
        );
    }
    for (id, draw, ns) in [(0, 0, 0), (1, (1 << 52) - 1, delay_timer)] {
        s.delay_timer(draw).sends(
            &sent_under(&config, 2, id),
            &format!("delay-timer:{ns},event:2:{id}:link"),
        );
    }
    let request = Message::of(1, &config, CLIENT, 0x0908);
    s.event(units(77), &request).sends(
        &sent_under(&config, 9, 0x0908)
            .with_ns(77)
            .with_requester(CLIENT),
        "general",
    );
    s
}

fn highest_but_delay() -> Case {
    let config = Config {
        sdo: 4095,
        domain: 255,
        minor: 1,
        delay_interval: -9,
        sync_interval: 16,
        ..peer(i128::MAX)
    };
    // 2^16 s, and 2 * 10^9 / 512 less a little.
    speaks(config, 65_536_000_000_000, 3_906_250).end(
        "row-2-edge-high",
        "Row 2, just inside: sdo id 4095, minor 1, sync interval 16, delay interval -9 and the \
         largest asymmetry are fit; a limit one too tight answers 2.",
        End::master().open(1, None, [None; 4]).ids(2, 0, 2),
    )
}

fn lowest_but_delay() -> Case {
    let config = Config {
        sdo: 0,
        domain: 0,
        minor: 0,
        delay_interval: 16,
        sync_interval: -9,
        ..peer(i128::MIN)
    };
    // 10^9 / 512, and 2^17 s less a little.
    speaks(config, 1_953_125, 131_072_000_000_000).end(
        "row-2-edge-low",
        "Row 2, just inside: sdo id 0, minor 0, sync interval -9, delay interval 16 and the lowest \
         asymmetry are fit; a limit one too tight answers 2.",
        End::master().open(1, None, [None; 4]).ids(2, 0, 2),
    )
}

fn event_times() -> Case {
    let mut s = Script::new(end_to_end(0));
    s.slave(MASTER).nothing();
    for time in [1 << 127, u128::MAX] {
        // Taken, unused, and such as later rows refuse.
        for message in [
            two_step_sync(1),
            follow_up(1),
            by(RIVAL, sync(1)),
            delay_req(1),
            pdelay_req(1),
            foreign(sync(1)),
            of_type(12, sync(1)),
            sync(1).with_correction(-1),
        ] {
            s.event(time, &message).refused(3);
        }
        s.event_bytes(time, &[0]).refused(3);
        s.event_bytes(time, &[0, 2]).refused(3);
    }
    s.event(TOP, &two_step_sync(1)).nothing();
    s.event(TOP, &by(RIVAL, sync(1))).nothing();
    s.event(TOP, &follow_up(1).with_ns(3))
        .sync(i128::MAX - duration(3), TOP, None);
    s.event(0, &sync(2)).sync(0, 0, None);
    s.end(
        "row-3-event-times",
        "Row 3: a receive time of 2^127 is out of limits whatever the message, 2^127 - 1 and 0 are \
         in; a port that reads the message first answers 0, 4, 5, 6, 7 or 8.",
        End::slave(MASTER).raw(0),
    )
}

fn stamps() -> Case {
    let mut s = Script::new(end_to_end(0));
    s.slave(MASTER).nothing();
    s.request_delay(0);
    for time in [1 << 127, u128::MAX] {
        s.stamp(time, Context::Sync(0)).refused(3);
        s.stamp(time, Context::DelayReq(0)).refused(3);
        s.stamp(time, Context::DelayReq(7)).refused(3);
        s.stamp(time, Context::PDelayReq(0)).refused(3);
        s.stamp(time, Context::PDelayResp(0, PEER)).refused(3);
    }
    s.stamp(TOP, Context::PDelayResp(0, PEER)).refused(7);
    s.stamp(TOP, Context::DelayReq(0)).nothing();
    s.end(
        "row-3-stamps",
        "Row 3: a stamp of 2^127 is refused for every context and fills nothing; 2^127 - 1 fills \
         the request, or is 7 where it would be sent.",
        End::slave(MASTER).delay(0, Some(TOP), None).ids(0, 1, 0),
    )
}

fn draws() -> Case {
    let mut s = Script::new(end_to_end(0));
    s.delay_timer(1 << 52).refused(3);
    s.delay_timer((1 << 52) - 1).nothing();
    s.slave(MASTER).nothing();
    s.delay_timer(1 << 52).refused(3);
    s.delay_timer(u64::MAX).refused(3);
    s.delay_timer((1 << 52) - 1)
        .sends(&sent(1, 0), "delay-timer:250000000,event:1:0");
    s.delay_timer(0)
        .sends(&sent(1, 1), "delay-timer:0,event:1:1");
    s.end(
        "row-3-draws",
        "Row 3: a draw of 2^52 is out of limits and takes no id, also where no request would be \
         sent; a port that cuts it sends a request.",
        End::slave(MASTER).delay(1, None, None).ids(0, 2, 0),
    )
}
