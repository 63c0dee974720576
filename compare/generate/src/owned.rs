//! Events that own their message, so that they can be kept and played later.

use plain::{Context, Event, NewState};

#[derive(Clone, Debug, PartialEq, Eq)]
pub enum Owned {
    Event {
        time: u128,
        message: Vec<u8>,
    },
    General {
        message: Vec<u8>,
    },
    Stamp {
        time: u128,
        context: Context,
    },
    SyncTimer,
    DelayTimer {
        draw: u64,
    },
    Filter {
        mean: Option<i128>,
        next: Option<u64>,
    },
    SetState(NewState),
}

impl Owned {
    pub fn lend(&self) -> Event<'_> {
        match self {
            Owned::Event { time, message } => Event::Event {
                time: *time,
                message,
            },
            Owned::General { message } => Event::General { message },
            Owned::Stamp { time, context } => Event::Stamp {
                time: *time,
                context: *context,
            },
            Owned::SyncTimer => Event::SyncTimer,
            Owned::DelayTimer { draw } => Event::DelayTimer { draw: *draw },
            Owned::Filter { mean, next } => Event::Filter {
                mean: *mean,
                next: *next,
            },
            Owned::SetState(state) => Event::SetState(*state),
        }
    }
}
