//! Row 2 of the table: is the record one that the rules can have left behind?
//!
//! Only what the row lists is unfit (reading 14). A mean delay, a raw offset and the
//! asymmetry may be any duration, and an exchange may stand open although the other
//! mechanism is configured.

use crate::time::is_time;
use crate::{Config, Exchange, Peer, PeerTimes, Port, State};

impl Port {
    pub(crate) fn is_fit(&self) -> bool {
        config_is_fit(&self.config) && state_is_fit(&self.state) && peer_is_fit(&self.peer)
    }
}

fn config_is_fit(config: &Config) -> bool {
    config.sdo <= 0x0FFF
        && config.minor <= 1
        && (-9..=16).contains(&config.delay_interval)
        && (-9..=16).contains(&config.sync_interval)
}

fn state_is_fit(state: &State) -> bool {
    match state {
        State::Slave(slave) => {
            slave.sync.as_ref().is_none_or(sync_is_fit)
                && slave.delay.as_ref().is_none_or(delay_is_fit)
        }
        _ => true,
    }
}

/// A sync opens with its first time and is taken out with its second.
fn sync_is_fit(sync: &Exchange) -> bool {
    sync.send.is_some() != sync.receive.is_some() && times_are_fit([sync.send, sync.receive])
}

/// A delay exchange opens empty, with the request.
fn delay_is_fit(delay: &Exchange) -> bool {
    !(delay.send.is_some() && delay.receive.is_some()) && times_are_fit([delay.send, delay.receive])
}

fn peer_is_fit(peer: &Peer) -> bool {
    let Peer::Measuring {
        responder, times, ..
    } = peer
    else {
        return true;
    };
    let PeerTimes {
        request_send,
        request_receive,
        response_send,
        response_receive,
    } = *times;
    let answers = [request_receive, response_send, response_receive];
    let answered = answers.iter().any(Option::is_some);
    let complete = request_send.is_some() && answers.iter().all(Option::is_some);
    !complete
        && (responder.is_some() || !answered)
        && times_are_fit([request_send])
        && times_are_fit(answers)
}

fn times_are_fit<const N: usize>(times: [Option<u128>; N]) -> bool {
    times.into_iter().all(|time| time.is_none_or(is_time))
}
