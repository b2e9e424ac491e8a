//! What is received for an open dialogue (Q.774; TS 29.002).

use crate::arguments::UPDATE_LOCATION;
use crate::dialogues::{Dialogue, Kind, LocalId};
use crate::digits::Digits;
use crate::invocations::{Heard, Offer};
use crate::messages::{Continue, TransactionId, UNRECOGNIZED_TRANSACTION_ID};
use crate::sent::{Head, Reason};
use crate::steps::Step;

impl Step<'_> {
    /// A Continue is for the dialogue with its destination id, if that is in Initiation Sent or has
    /// the Continue's originating id. Sources are not compared (profile).
    pub fn continue_dialogue(&mut self, from: Digits, received: &Continue) {
        let &Continue { origin, components, .. } = received;
        let Some((id, mut dialogue)) = self.find(&received.destination, Some(origin)) else {
            let cause = Reason::Cause(UNRECOGNIZED_TRANSACTION_ID);
            return self.send_abort(from, origin, cause);
        };
        if dialogue.remote.is_none() {
            dialogue.peer = from;
            dialogue.remote = Some(origin);
        }
        let offer = offer_to(&dialogue.kind);
        let heard = dialogue.invocations.hear(components, &offer, self.state.clock);
        if heard.has_failed || !dialogue.invocations.any_sent() {
            return self.conclude(id, &dialogue, heard);
        }
        self.state.dialogues.replace(id, dialogue);
        if !heard.rejects.is_empty() {
            let head = Head::Continue { own: id, remote: origin, accepted: None };
            self.send(dialogue.peer, head, &heard.rejects, None);
        }
    }

    /// Success and failure end a cancel and new subscriber data alike.
    fn conclude(&mut self, id: LocalId, dialogue: &Dialogue, heard: Heard) {
        match dialogue.kind {
            Kind::Update(update) if heard.has_failed => {
                self.fail_update(id, dialogue, update.invoke, &heard.rejects);
            }
            Kind::Update(update) => self.complete_update(id, dialogue, update, &heard.rejects),
            Kind::Cancel(_) | Kind::Data => self.end(id, dialogue, &heard.rejects, None),
        }
    }

    /// An End or an Abort closes its dialogue, and is never answered.
    pub fn close(&mut self, destination: &TransactionId) {
        if let Some((id, _)) = self.find(destination, None) {
            self.clear_current(id);
            self.state.dialogues.close(id);
        }
    }

    /// The open dialogue with an id, whose subscriber the event is about. Where the peer's id is
    /// given, it is not another one than is known.
    fn find(
        &mut self,
        id: &TransactionId,
        remote: Option<TransactionId>,
    ) -> Option<(LocalId, Dialogue)> {
        let id = LocalId::read(id)?;
        let dialogue = *self.state.dialogues.get(id)?;
        if remote.is_some() && dialogue.remote.is_some() && remote != dialogue.remote {
            return None;
        }
        self.place = self.state.place_of(dialogue.subscriber);
        Some((id, dialogue))
    }
}

/// In an update the peer's own Invoke is still open, and nothing else may start; elsewhere the peer
/// may invoke nothing.
fn offer_to(kind: &Kind) -> Offer {
    let (open, operation) = match kind {
        Kind::Update(update) => (Some(update.invoke), Some(UPDATE_LOCATION)),
        Kind::Cancel(_) | Kind::Data => (None, None),
    };
    Offer { open, operation, may_start: false, is_typed: false }
}
