//! Where a rule puts what it has to say, and the reasons for which it may refuse.

use crate::wire::Draft;
use crate::{Action, Answer, Config};

/// A reason to refuse, with its number in the table of 01, "Numbers the port answers".
#[derive(Clone, Copy, Debug, PartialEq, Eq)]
pub enum Refusal {
    Buffer = 1,
    Unfit = 2,
    Limits = 3,
    Version = 4,
    Malformed = 5,
    Foreign = 6,
    Range = 7,
    Host = 8,
}

/// What a rule comes to. One that refuses must not have stored or said anything yet.
pub type Outcome = Result<(), Refusal>;

/// An answer in the making and the packet buffer that goes with it. Rules fill it in
/// instead of handing answers up, because an answer is large and most have little in it.
pub struct Reply<'a> {
    pub answer: &'a mut Answer,
    packet: &'a mut [u8],
}

impl Answer {
    /// Taken, with nothing to say. No constant: that would be copied whole each time,
    /// the room for a measurement included.
    pub(crate) fn nothing() -> Answer {
        Answer {
            number: 0,
            measurement: None,
            length: 0,
            actions: [None, None],
            reset: false,
        }
    }
}

impl<'a> Reply<'a> {
    pub fn new(answer: &'a mut Answer, packet: &'a mut [u8]) -> Reply<'a> {
        Reply { answer, packet }
    }

    pub fn buffer_length(&self) -> usize {
        self.packet.len()
    }

    /// No rule sets two timers, and the timer stands before the packet.
    pub fn set_timer(&mut self, timer: Action) {
        self.answer.actions[0] = Some(timer);
    }

    /// Writes the packet; `action` says how it is to go out.
    pub fn send(&mut self, config: &Config, draft: &Draft, action: Action) {
        self.answer.length = draft.write(config, self.packet);
        let place = usize::from(self.answer.actions[0].is_some());
        self.answer.actions[place] = Some(action);
    }
}
