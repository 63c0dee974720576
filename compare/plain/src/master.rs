//! What the port sends for others to measure by: Sync and its FollowUp, and the answers
//! to delay and peer requests.

use crate::reply::{Outcome, Refusal, Reply};
use crate::time;
use crate::wire::{Draft, Message, Type, NO_INTERVAL};
use crate::{Action, Context, Identity, Port, State};

impl Port {
    /// The sync timer ran out.
    pub(crate) fn send_sync(&mut self, reply: &mut Reply) {
        if self.state != State::Master {
            return;
        }
        let id = self.sync_id;
        self.sync_id = id.wrapping_add(1);
        let interval = self.config.sync_interval;
        let ns = time::sync_timer(interval);
        reply.set_timer(Action::SyncTimer { ns });
        let draft = Draft::blank(Type::Sync, id, interval);
        let (context, link) = (Context::Sync(id), false);
        reply.send(&self.config, &draft, Action::SendEvent { context, link });
    }

    /// A Sync was stamped. Nothing remembers which ids went out, so any id is followed
    /// up, as often as it is stamped (reading 16).
    pub(crate) fn send_follow_up(&self, stamp: u128, id: u16, reply: &mut Reply) -> Outcome {
        if self.state != State::Master {
            return Ok(());
        }
        let draft = Draft {
            stamp: time::to_wire(stamp)?,
            correction: time::fraction(stamp),
            ..Draft::blank(Type::FollowUp, id, self.config.sync_interval)
        };
        reply.send(&self.config, &draft, Action::SendGeneral { link: false });
        Ok(())
    }

    /// A DelayReq came, which only a master answers, under either mechanism.
    pub(crate) fn answer_delay(&self, time: u128, request: &Message, reply: &mut Reply) -> Outcome {
        if self.state != State::Master {
            return Ok(());
        }
        let interval = self.config.delay_interval;
        let draft = answer_to(request, time, Type::DelayResp, interval)?;
        reply.send(&self.config, &draft, Action::SendGeneral { link: false });
        Ok(())
    }

    /// A PDelayReq came, which is answered in every state.
    pub(crate) fn answer_peer(&self, time: u128, request: &Message, reply: &mut Reply) -> Outcome {
        let draft = answer_to(request, time, Type::PDelayResp, NO_INTERVAL)?;
        let context = Context::PDelayResp(draft.id, draft.requester);
        let link = true;
        reply.send(&self.config, &draft, Action::SendEvent { context, link });
        Ok(())
    }

    /// A PDelayResp was stamped.
    pub(crate) fn send_peer_follow_up(
        &self,
        stamp: u128,
        id: u16,
        requester: Identity,
        reply: &mut Reply,
    ) -> Outcome {
        let draft = Draft {
            stamp: time::to_wire(stamp)?,
            correction: time::fraction(stamp),
            requester,
            ..Draft::blank(Type::PDelayRespFollowUp, id, NO_INTERVAL)
        };
        reply.send(&self.config, &draft, Action::SendGeneral { link: true });
        Ok(())
    }
}

/// The answer to a request received at `time`. What the timestamp drops of that time is
/// taken off the request's correction, because the asker subtracts the correction.
fn answer_to(request: &Message, time: u128, kind: Type, interval: i8) -> Result<Draft, Refusal> {
    let correction = request
        .correction()
        .checked_sub(time::fraction(time))
        .ok_or(Refusal::Range)?;
    Ok(Draft {
        stamp: time::to_wire(time)?,
        correction,
        requester: *request.source(),
        ..Draft::blank(kind, request.id(), interval)
    })
}
