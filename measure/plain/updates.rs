//! updateLocation (TS 29.002, 8.1.2; TS 23.012, Location updating): from its Begin, which is
//! answered with the subscriber data, to its End.

use crate::begins::{Initiator, UNKNOWN_SUBSCRIBER};
use crate::dialogues::{Cancel, Dialogue, Kind, LocalId, Update};
use crate::digits::Digits;
use crate::invocations::Invocations;
use crate::messages::RESOURCE_LIMITATION;
use crate::sent::{
    count_inserts, inserts, CancellationType, Content, Head, Reason, Rejection, SentComponent,
    ROAMING_NOT_ALLOWED,
};
use crate::steps::{Frame, Step};

const SYSTEM_FAILURE: u8 = 34;

impl Step<'_> {
    pub fn may_update(&self, vlr: Digits) -> Result<(), u8> {
        let record = self.record().filter(|record| !record.is_withdrawn);
        if record.ok_or(UNKNOWN_SUBSCRIBER)?.allows(vlr) {
            Ok(())
        } else {
            Err(ROAMING_NOT_ALLOWED)
        }
    }

    /// The update becomes the current one in place of any other. In a full shard it is aborted, and
    /// nothing changes (profile).
    pub fn open_update(&mut self, initiator: &Initiator, update: Update) {
        let &Initiator { from, origin, context, ref rejects } = initiator;
        let Some(place) = self.place else { return };
        let record = &self.state.records[place];
        let dialogue = Dialogue {
            subscriber: record.imsi,
            peer: from,
            remote: Some(origin),
            kind: Kind::Update(update),
            invocations: Invocations::sent(count_inserts(&record.codes), self.state.clock),
        };
        let Some(own) = self.open(dialogue) else {
            return self.send_abort(from, origin, Reason::Cause(RESOURCE_LIMITATION));
        };
        let record = &mut self.state.records[place];
        record.current = Some(own);
        let head = Head::Continue { own, remote: origin, accepted: Some(context) };
        let components = inserts(None, record.msisdn, &record.codes);
        let octets = self.writer.write_message(head, rejects, components);
        self.sent.push(Frame { peer: from, octets });
    }

    /// All inserts have succeeded. Only the current update completes; the register before it is
    /// sent a cancel behind the End, also where it has purged the subscriber (profile).
    pub fn complete_update(
        &mut self,
        id: LocalId,
        dialogue: &Dialogue,
        update: Update,
        rejects: &[Rejection],
    ) {
        let Update { location, invoke } = update;
        let number = self.number;
        let Some(record) = self.record_mut().filter(|record| record.current == Some(id)) else {
            return self.fail_update(id, dialogue, invoke, rejects);
        };
        record.current = None;
        let old = record.location.replace(location).filter(|old| old.vlr != location.vlr);
        let content = Content::Updated { number };
        self.end(id, dialogue, rejects, Some(SentComponent { invoke, content }));
        if let Some(old) = old {
            let cancellation = CancellationType::UpdateProcedure;
            let cancel = Cancel { vlr: old.vlr, attempt: 1, cancellation };
            self.send_cancel(dialogue.subscriber, cancel);
        }
    }

    /// The register stays as it is (profile).
    pub fn fail_update(
        &mut self,
        id: LocalId,
        dialogue: &Dialogue,
        invoke: u8,
        rejects: &[Rejection],
    ) {
        self.clear_current(id);
        let content = Content::Error(SYSTEM_FAILURE);
        self.end(id, dialogue, rejects, Some(SentComponent { invoke, content }));
    }

    /// The dialogue is not the current update any more.
    pub fn clear_current(&mut self, id: LocalId) {
        if let Some(record) = self.record_mut().filter(|record| record.current == Some(id)) {
            record.current = None;
        }
    }
}
