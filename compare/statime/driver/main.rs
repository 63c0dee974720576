//! Plays an event log to the supplied port and writes the lines of `trace`.
//!
//! It is given good logs of document 01's differential domain only, and does not test that they
//! are: what it writes of another means nothing.

mod log;
mod text;

use std::{
    cell::{Cell, RefCell},
    io::{BufWriter, Read, Write},
    rc::Rc,
};

use log::{Config, Event};
use rand::RngCore;
use statime::{
    config::{AcceptAnyMaster, DelayMechanism, PortConfig, PtpMinorVersion},
    filters::{Filter, FilterEstimate, FilterUpdate},
    observability::open::Filtered,
    port::{Measurement, Port, Running, TimestampContext},
    time::{Duration, Interval, Time},
    Clock, PtpInstance,
};
use text::Line;

/// What passes between the driver and the filter that the port holds.
#[derive(Debug, Default)]
struct Seen {
    measurement: Option<Measurement>,
    answer: FilterUpdate,
    made: u32,
    put_away: u32,
}

/// Writes down the measurements, answers what the log says, counts its resets.
#[derive(Debug)]
struct Stub(Rc<RefCell<Seen>>);

impl Filter for Stub {
    type Config = Rc<RefCell<Seen>>;

    fn new(seen: Self::Config) -> Self {
        seen.borrow_mut().made += 1;
        Stub(seen)
    }

    fn measurement<C: Clock>(&mut self, m: Measurement, _: &mut C) -> FilterUpdate {
        let before = self.0.borrow_mut().measurement.replace(m);
        assert!(before.is_none(), "two measurements in one event");
        FilterUpdate::default()
    }

    fn update<C: Clock>(&mut self, _: &mut C) -> FilterUpdate {
        self.0.borrow().answer
    }

    fn demobilize<C: Clock>(self, _: &mut C) {
        self.0.borrow_mut().put_away += 1;
    }

    fn current_estimates(&self) -> FilterEstimate {
        FilterEstimate
    }
}

#[derive(Debug)]
struct NoClock;

impl Clock for NoClock {}

/// The one draw of the next request: k stands in the upper 52 of 64 bits.
#[derive(Debug, Clone, Default)]
struct Draw(Rc<Cell<u64>>);

impl RngCore for Draw {
    fn next_u32(&mut self) -> u32 {
        unreachable!("the port draws 64 bits")
    }

    fn next_u64(&mut self) -> u64 {
        self.0.get() << 12
    }

    fn fill_bytes(&mut self, _: &mut [u8]) {
        unreachable!("the port draws 64 bits")
    }

    fn try_fill_bytes(&mut self, _: &mut [u8]) -> Result<(), rand::Error> {
        unreachable!("the port draws 64 bits")
    }
}

type Judged<'a> = Port<'a, Running, AcceptAnyMaster, Draw, NoClock, Stub>;

fn port_config(config: &Config) -> PortConfig<AcceptAnyMaster> {
    let interval = Interval::from_log_2(config.delay_interval);
    PortConfig {
        acceptable_master_list: AcceptAnyMaster,
        delay_mechanism: match config.mechanism {
            0 => DelayMechanism::E2E { interval },
            1 => DelayMechanism::P2P { interval },
            other => panic!("bad log: mechanism {other}"),
        },
        announce_interval: Interval::from_log_2(0),
        announce_receipt_timeout: 3,
        sync_interval: Interval::from_log_2(config.sync_interval),
        master_only: false,
        delay_asymmetry: Duration::from_units(config.asymmetry),
        minor_ptp_version: match config.minor {
            0 => PtpMinorVersion::Zero,
            1 => PtpMinorVersion::One,
            other => panic!("outside the domain: minor version {other}"),
        },
    }
}

fn number(filtered: Filtered) -> u8 {
    match filtered {
        Filtered::Passed => 0,
        Filtered::Incompatible => 4,
        Filtered::Unparsed => 5,
        Filtered::Foreign => 6,
    }
}

/// Plays one event. What the port asks for is written down while its packet stands.
fn play(port: &mut Judged, seen: &RefCell<Seen>, draw: &Draw, event: Event) -> Line {
    let mut line = Line::default();
    let time = Time::from_units;
    match event {
        Event::Event { at, message } => {
            line.number = number(port.filtered(message));
            line.take(port.handle_event_receive(message, time(at)));
        }
        Event::General { message } => {
            line.number = number(port.filtered(message));
            line.take(port.handle_general_receive(message));
        }
        Event::Stamp { at, context } => {
            line.take(port.handle_send_timestamp(TimestampContext::of(context), time(at)));
        }
        Event::SyncTimer => line.take(port.handle_sync_timer()),
        Event::DelayTimer { draw: k } => {
            draw.0.set(k);
            line.take(port.handle_delay_request_timer());
        }
        Event::Filter { mean, next } => {
            seen.borrow_mut().answer = FilterUpdate {
                next_update: next.map(core::time::Duration::from_nanos),
                mean_delay: mean.map(Duration::from_units),
            };
            line.take(port.handle_filter_update_timer());
        }
        Event::SetState(state) => port.force_state(state),
    }
    let mut seen = seen.borrow_mut();
    assert_eq!(
        seen.made, seen.put_away,
        "each reset makes one filter and puts one away"
    );
    line.measurement = seen.measurement.take();
    line.reset = seen.put_away > 0;
    (seen.made, seen.put_away) = (0, 0);
    line
}

fn run(bytes: &[u8], out: &mut impl Write) -> std::io::Result<()> {
    let (config, events) = log::read(bytes);
    let seen = Rc::<RefCell<Seen>>::default();
    let draw = Draw::default();
    let state = PtpInstance::state(config.sdo, config.domain);
    let (mut port, _) = PtpInstance::fresh_port::<_, _, _, Stub>(
        &state,
        port_config(&config),
        seen.clone(),
        NoClock,
        config.identity,
        draw.clone(),
    )
    .end_bmca();
    // The port makes its first filter with itself; only later ones are resets.
    seen.borrow_mut().made = 0;
    for (index, event) in events.enumerate() {
        writeln!(
            out,
            "{} {}",
            index + 1,
            play(&mut port, &seen, &draw, event)
        )?;
    }
    writeln!(out, "end {}", text::Record(port.open()))
}

fn main() -> std::io::Result<()> {
    let mut bytes = Vec::new();
    match std::env::args_os().nth(1) {
        Some(path) => std::fs::File::open(path)?.read_to_end(&mut bytes)?,
        None => std::io::stdin().read_to_end(&mut bytes)?,
    };
    let mut out = BufWriter::with_capacity(1 << 16, std::io::stdout().lock());
    run(&bytes, &mut out)?;
    out.flush()
}
