//! An operator's changes of a subscriber (profile): new subscriber data (TS 29.002, 8.8.1), or the
//! end of the subscription (8.1.3). They are refused where they would open a dialogue in a full
//! shard. A change of nobody that is known, or of a withdrawn subscriber, changes nothing.

use crate::codes::Codes;
use crate::dialogues::{Cancel, Dialogue, Kind};
use crate::digits::Digits;
use crate::invocations::Invocations;
use crate::portions::Context;
use crate::records::Record;
use crate::sent::{count_inserts, inserts, CancellationType, Head};
use crate::steps::{Frame, Step};
use crate::Outcome;

impl Step<'_> {
    /// An update in progress is no longer current, and a register that is not purged is sent the
    /// codes.
    pub fn change_codes(&mut self, codes: Codes) -> Outcome<()> {
        let Some(record) = self.record().filter(|record| !record.is_withdrawn) else {
            return Ok(());
        };
        if let Some(location) = record.location.filter(|location| !location.is_purged) {
            let (imsi, msisdn) = (record.imsi, record.msisdn);
            self.send_data(location.vlr, imsi, msisdn, &codes)?;
        }
        self.update_record(|record| record.codes = codes);
        Ok(())
    }

    fn send_data(
        &mut self,
        vlr: Digits,
        imsi: Digits,
        msisdn: Digits,
        codes: &[u8],
    ) -> Outcome<()> {
        let dialogue = Dialogue {
            subscriber: imsi,
            peer: vlr,
            remote: None,
            kind: Kind::Data,
            invocations: Invocations::sent(count_inserts(codes), self.state.clock),
        };
        let own = self.open(dialogue).ok_or("no room")?;
        let head = Head::Begin { own, context: Context::SubscriberDataMngt };
        let octets = self.writer.write_message(head, &[], inserts(Some(imsi), msisdn, codes));
        self.sent.push(Frame { peer: vlr, octets });
        Ok(())
    }

    /// The register, purged or not, is sent a cancel.
    pub fn withdraw(&mut self) -> Outcome<()> {
        let Some(record) = self.record().filter(|record| !record.is_withdrawn) else {
            return Ok(());
        };
        if let Some(location) = record.location {
            let cancellation = CancellationType::SubscriptionWithdraw;
            let cancel = Cancel { vlr: location.vlr, attempt: 1, cancellation };
            self.send_cancel(record.imsi, cancel).ok_or("no room")?;
        }
        self.update_record(|record| {
            record.location = None;
            record.is_withdrawn = true;
        });
        Ok(())
    }

    /// Changes the record, of which no update is current any more.
    fn update_record(&mut self, change: impl FnOnce(&mut Record)) {
        if let Some(record) = self.record_mut() {
            record.current = None;
            change(record);
        }
    }
}
