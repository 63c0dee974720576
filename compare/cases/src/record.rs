//! The last line of a good log: the final record.

use crate::cast::*;

/// The final record, which starts out with nothing stored and ids 0.
#[derive(Clone)]
pub struct End {
    state: u8,
    master: Option<Identity>,
    sync: Option<String>,
    delay: Option<String>,
    raw: Option<i128>,
    peer: Option<String>,
    mean: Option<i128>,
    ids: [u16; 3],
}

pub fn or_dash(text: Option<String>) -> String {
    text.unwrap_or_else(|| "-".to_string())
}

fn wide(value: u128) -> String {
    hex(&value.to_be_bytes())
}

pub fn time(value: Option<u128>) -> String {
    or_dash(value.map(wide))
}

pub fn span(value: Option<i128>) -> String {
    or_dash(value.map(|value| wide(value as u128)))
}

impl End {
    fn in_state(state: u8, master: Option<Identity>) -> End {
        End {
            state,
            master,
            sync: None,
            delay: None,
            raw: None,
            peer: None,
            mean: None,
            ids: [0; 3],
        }
    }

    pub fn listening() -> End {
        End::in_state(0, None)
    }

    pub fn master() -> End {
        End::in_state(1, None)
    }

    pub fn passive() -> End {
        End::in_state(2, None)
    }

    pub fn faulty() -> End {
        End::in_state(3, None)
    }

    pub fn slave(master: Identity) -> End {
        End::in_state(4, Some(master))
    }

    pub fn sync(self, id: u16, send: Option<u128>, receive: Option<u128>) -> End {
        let sync = Some(exchange(id, &[send, receive]));
        End { sync, ..self }
    }

    pub fn delay(self, id: u16, send: Option<u128>, receive: Option<u128>) -> End {
        let delay = Some(exchange(id, &[send, receive]));
        End { delay, ..self }
    }

    pub fn raw(self, raw: i128) -> End {
        let raw = Some(raw);
        End { raw, ..self }
    }

    /// Times in the order request send, request receive, response send, response receive.
    pub fn open(self, id: u16, responder: Option<Identity>, times: [Option<u128>; 4]) -> End {
        let responder = or_dash(responder.map(|responder| hex(&responder)));
        let times = times.map(time).join(":");
        let peer = Some(format!("open:{id}:{responder}:{times}"));
        End { peer, ..self }
    }

    pub fn done(self, id: u16, responder: Identity) -> End {
        let peer = Some(format!("done:{id}:{}", hex(&responder)));
        End { peer, ..self }
    }

    pub fn mean(self, mean: i128) -> End {
        let mean = Some(mean);
        End { mean, ..self }
    }

    /// The next ids.
    pub fn ids(self, sync: u16, delay: u16, peer: u16) -> End {
        let ids = [sync, delay, peer];
        End { ids, ..self }
    }

    pub fn line(&self) -> String {
        let columns = [
            "end".to_string(),
            self.state.to_string(),
            or_dash(self.master.map(|master| hex(&master))),
            or_dash(self.sync.clone()),
            or_dash(self.delay.clone()),
            span(self.raw),
            or_dash(self.peer.clone()),
            span(self.mean),
            self.ids.map(|id| id.to_string()).join(":"),
        ];
        columns.join(" ")
    }
}

fn exchange(id: u16, times: &[Option<u128>; 2]) -> String {
    format!("{id}:{}", times.map(time).join(":"))
}
