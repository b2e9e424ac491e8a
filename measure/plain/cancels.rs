//! cancelLocation (TS 29.002, 8.1.3), and its repetition.

use crate::dialogues::{Cancel, Dialogue, Kind, LocalId};
use crate::digits::Digits;
use crate::invocations::Invocations;
use crate::portions::Context;
use crate::sent::{Content, Head, SentComponent};
use crate::steps::Step;

const MAX_ATTEMPTS: u8 = 3;

impl Step<'_> {
    /// Opens a dialogue with a Begin that carries the cancel. None where the shard is full.
    pub fn send_cancel(&mut self, imsi: Digits, cancel: Cancel) -> Option<LocalId> {
        let Cancel { vlr, cancellation, .. } = cancel;
        let own = self.open(Dialogue {
            subscriber: imsi,
            peer: vlr,
            remote: None,
            kind: Kind::Cancel(cancel),
            invocations: Invocations::sent(1, self.state.clock),
        })?;
        let head = Head::Begin { own, context: Context::LocationCancellation };
        let content = Content::Cancel { imsi, cancellation };
        self.send(vlr, head, &[], Some(SentComponent { invoke: 1, content }));
        Some(own)
    }

    /// A cancel that was not answered is sent again to the same register, unless that is wanted by
    /// now (profile). The dialogue before it has closed, so there is room.
    pub fn repeat_cancel(&mut self, imsi: Digits, last: Cancel) {
        if last.attempt < MAX_ATTEMPTS && !self.is_wanted(last.vlr) {
            let attempt = last.attempt + 1;
            self.send_cancel(imsi, Cancel { attempt, ..last });
        }
    }

    /// Whether a VLR is that of the serving register, purged or not, or that of the current update.
    fn is_wanted(&self, vlr: Digits) -> bool {
        let Some(record) = self.record() else { return false };
        let updating = record.current.and_then(|id| match self.state.dialogues.get(id)?.kind {
            Kind::Update(update) => Some(update.location),
            Kind::Cancel(_) | Kind::Data => None,
        });
        [record.location, updating].into_iter().flatten().any(|location| location.vlr == vlr)
    }
}
