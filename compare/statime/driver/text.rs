//! The text of `trace`: one line for what the port did, one for its record at the end.

use std::fmt::{self, Display, Formatter, Write};

use statime::{
    observability::open::{OpenContext, OpenExchange, OpenPeer, OpenPort, OpenState},
    port::{Measurement, PortAction, PortActionIterator},
    time::{Duration, Time},
};

#[derive(Default)]
pub struct Line {
    pub number: u8,
    pub measurement: Option<Measurement>,
    packet: Option<String>,
    actions: Vec<String>,
    pub reset: bool,
}

fn hex(bytes: &[u8]) -> String {
    bytes.iter().fold(String::new(), |mut text, byte| {
        write!(text, "{byte:02x}").unwrap();
        text
    })
}

fn or_dash<T: Display>(value: Option<T>) -> String {
    value.map_or("-".into(), |value| value.to_string())
}

fn duration(value: Duration) -> String {
    format!("{:032x}", value.units())
}

fn time(value: Time) -> String {
    format!("{:032x}", value.units())
}

fn context(context: OpenContext) -> String {
    match context {
        OpenContext::Sync(id) => format!("event:0:{id}"),
        OpenContext::DelayReq(id) => format!("event:1:{id}"),
        OpenContext::PDelayReq(id) => format!("event:2:{id}"),
        OpenContext::PDelayResp(id, identity) => format!("event:3:{id}:{}", hex(&identity)),
    }
}

impl Line {
    pub fn take(&mut self, actions: PortActionIterator) {
        for action in actions {
            let text = self.action(action);
            self.actions.push(text);
        }
    }

    fn action(&mut self, action: PortAction) -> String {
        match action {
            PortAction::SendEvent {
                context: of,
                data,
                link_local,
            } => {
                self.packet(data);
                context(of.open()) + if link_local { ":link" } else { "" }
            }
            PortAction::SendGeneral { data, link_local } => {
                self.packet(data);
                String::from("general") + if link_local { ":link" } else { "" }
            }
            PortAction::ResetSyncTimer { duration } => {
                format!("sync-timer:{}", duration.as_nanos())
            }
            PortAction::ResetDelayRequestTimer { duration } => {
                format!("delay-timer:{}", duration.as_nanos())
            }
            PortAction::ResetFilterUpdateTimer { duration } => {
                format!("filter-timer:{}", duration.as_nanos())
            }
            other => panic!("outside the domain: {other:?}"),
        }
    }

    fn packet(&mut self, data: &[u8]) {
        assert!(
            self.packet.replace(hex(data)).is_none(),
            "two packets in one event"
        );
    }
}

/// Letter and value: the port fills exactly one of the three.
fn value(m: &Measurement) -> (char, Duration) {
    match (m.raw_sync_offset, m.raw_delay_offset, m.peer_delay) {
        (Some(raw), None, None) => ('S', raw),
        (None, Some(raw), None) => ('D', raw),
        (None, None, Some(delay)) => ('P', delay),
        _ => panic!("a measurement of no kind or two: {m:?}"),
    }
}

impl Display for Line {
    fn fmt(&self, f: &mut Formatter<'_>) -> fmt::Result {
        let m = self.measurement.as_ref();
        let found = m.map(value);
        write!(
            f,
            "{} {} {} {} {} {} {} {} {}",
            self.number,
            or_dash(found.map(|(letter, _)| letter)),
            or_dash(found.map(|(_, value)| duration(value))),
            or_dash(m.map(|m| time(m.event_time))),
            or_dash(m.and_then(|m| m.offset).map(duration)),
            or_dash(m.and_then(|m| m.delay).map(duration)),
            self.packet.as_deref().unwrap_or("-"),
            if self.actions.is_empty() {
                "-".into()
            } else {
                self.actions.join(",")
            },
            if self.reset { "reset" } else { "-" },
        )
    }
}

pub struct Record(pub OpenPort);

fn exchange(exchange: OpenExchange) -> String {
    or_dash(exchange.map(|(id, send, receive)| {
        format!(
            "{id}:{}:{}",
            or_dash(send.map(time)),
            or_dash(receive.map(time))
        )
    }))
}

fn peer(peer: OpenPeer) -> String {
    match peer {
        OpenPeer::Empty => "-".into(),
        OpenPeer::Measuring(id, responder, times) => {
            let times = times.map(|at| or_dash(at.map(time)));
            format!(
                "open:{id}:{}:{}",
                or_dash(responder.map(|r| hex(&r))),
                times.join(":")
            )
        }
        OpenPeer::Measured(id, responder) => format!("done:{id}:{}", hex(&responder)),
    }
}

impl Display for Record {
    fn fmt(&self, f: &mut Formatter<'_>) -> fmt::Result {
        let port = &self.0;
        let (state, master) = match port.state {
            OpenState::Listening => (0, None),
            OpenState::Master => (1, None),
            OpenState::Passive => (2, None),
            OpenState::Faulty => (3, None),
            OpenState::Slave(master) => (4, Some(hex(&master))),
        };
        write!(
            f,
            "{state} {} {} {} {} {} {} {}",
            or_dash(master),
            exchange(port.sync),
            exchange(port.delay),
            or_dash(port.raw.map(duration)),
            peer(port.peer),
            or_dash(port.mean.map(duration)),
            port.ids.map(|id| id.to_string()).join(":"),
        )
    }
}
