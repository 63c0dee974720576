//! A story told once, from which the log and the expected lines both grow.

use crate::cast::*;
use crate::record::End;
use crate::step::Step;
use crate::Case;
use generate::build::{table_length, Log};
use plain::Event;

pub struct Script {
    log: Log,
    pub(crate) lines: Vec<String>,
    pub(crate) domain: bool,
}

impl Script {
    pub fn new(config: Config) -> Script {
        Script::on(Log::new(&config))
    }

    /// Over a first field of the caller's own making.
    pub fn on(log: Log) -> Script {
        Script {
            log,
            lines: Vec::new(),
            domain: true,
        }
    }

    pub fn event(&mut self, at: u128, message: &Message) -> Step<'_> {
        self.event_bytes(at, &message.to_bytes())
    }

    pub fn event_bytes(&mut self, at: u128, message: &[u8]) -> Step<'_> {
        self.look(message);
        self.push(Event::Event { time: at, message })
    }

    pub fn general(&mut self, message: &Message) -> Step<'_> {
        self.general_bytes(&message.to_bytes())
    }

    pub fn general_bytes(&mut self, message: &[u8]) -> Step<'_> {
        self.look(message);
        self.push(Event::General { message })
    }

    pub fn stamp(&mut self, at: u128, context: Context) -> Step<'_> {
        self.push(Event::Stamp { time: at, context })
    }

    pub fn sync_timer(&mut self) -> Step<'_> {
        self.push(Event::SyncTimer)
    }

    pub fn delay_timer(&mut self, draw: u64) -> Step<'_> {
        self.push(Event::DelayTimer { draw })
    }

    pub fn filter(&mut self, mean: Option<i128>, next: Option<u64>) -> Step<'_> {
        self.push(Event::Filter { mean, next })
    }

    pub fn set(&mut self, state: NewState) -> Step<'_> {
        self.push(Event::SetState(state))
    }

    pub fn slave(&mut self, master: Identity) -> Step<'_> {
        self.set(NewState::Slave(master))
    }

    /// The mean delay, which is stored and does no more.
    pub fn mean(&mut self, mean: i128) {
        self.filter(Some(mean), None).nothing();
    }

    /// A delay timer with the middle draw, where it sends an end-to-end request. The
    /// interval of `BASE` is 2^-3 s.
    pub fn request_delay(&mut self, id: u16) {
        self.delay_timer(MIDDLE)
            .sends(&sent(1, id), &format!("delay-timer:125000000,event:1:{id}"));
    }

    /// The same where it sends a peer request.
    pub fn request_peer(&mut self, id: u16) {
        self.delay_timer(MIDDLE).sends(
            &sent(2, id),
            &format!("delay-timer:125000000,event:2:{id}:link"),
        );
    }

    /// A sync timer as Master. The interval of `BASE` is 2^2 s.
    pub fn send_sync(&mut self, id: u16) {
        self.sync_timer()
            .sends(&sent(0, id), &format!("sync-timer:4000000000,event:0:{id}"));
    }

    /// The good log with its final record.
    pub fn end(mut self, name: &'static str, about: &'static str, end: End) -> Case {
        self.lines.push(end.line());
        self.case(name, about)
    }

    /// A log that goes bad at `offset`, where `rest` follows.
    pub fn bad_at(
        mut self,
        offset: usize,
        rest: &[u8],
        name: &'static str,
        about: &'static str,
    ) -> Case {
        self.domain = false;
        self.log.raw(rest);
        self.lines.push(format!("bad at {offset}"));
        self.case(name, about)
    }

    fn case(self, name: &'static str, about: &'static str) -> Case {
        Case {
            name,
            about,
            domain: self.domain,
            log: self.log.bytes,
            lines: self.lines,
        }
    }

    fn push(&mut self, event: Event) -> Step<'_> {
        self.log.push(&event);
        Step { script: self }
    }

    /// Takes note of messages outside the differential domain.
    fn look(&mut self, message: &[u8]) {
        let kind = message.first().map_or(0, |byte| byte & 15);
        let stated = message
            .get(2..4)
            .map_or(0, |at| usize::from(at[0]) << 8 | usize::from(at[1]));
        let listed = matches!(kind, 0..=3 | 8..=10);
        if matches!(kind, 11..=13) || listed && stated > table_length(kind) {
            self.domain = false;
        }
    }
}
