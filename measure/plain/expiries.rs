//! The expiry of a timer (Q.774, invocation timer and reject timer).

use crate::dialogues::{Dialogue, Kind, LocalId};
use crate::invocations::InvocationState;
use crate::steps::Step;

impl Step<'_> {
    /// The first timer that is due expires, if there is one. In Wait for Reject the invocation is
    /// forgotten, and nothing else happens.
    pub fn expire(&mut self) {
        let Some(timer) = self.state.dialogues.due(self.state.clock) else { return };
        let Some(mut dialogue) = self.state.dialogues.get(timer.id).copied() else { return };
        self.place = self.state.place_of(dialogue.subscriber);
        match dialogue.invocations.get(timer.invoke).map(|invocation| invocation.state) {
            Some(InvocationState::OperationSent) => self.give_up(timer.id, &dialogue),
            Some(InvocationState::WaitForReject) | None => {
                dialogue.invocations.end(timer.invoke);
                self.state.dialogues.replace(timer.id, dialogue);
            }
        }
    }

    /// An operation was not answered in time (Q.771, TC-L-CANCEL), which ends the dialogue. New
    /// subscriber data is not sent again (profile).
    fn give_up(&mut self, id: LocalId, dialogue: &Dialogue) {
        match dialogue.kind {
            Kind::Update(update) => self.fail_update(id, dialogue, update.invoke, &[]),
            Kind::Data => self.end(id, dialogue, &[], None),
            Kind::Cancel(cancel) => {
                self.end(id, dialogue, &[], None);
                self.repeat_cancel(dialogue.subscriber, cancel);
            }
        }
    }
}
