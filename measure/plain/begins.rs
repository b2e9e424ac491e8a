//! A received Begin, and the procedures that end with its answer: purgeMS (TS 23.012, Purge MS) and
//! sendRoutingInfoForSM (TS 29.002, 12.1).

use crate::arguments::{Argument, PURGE_MS, SEND_ROUTING_INFO_FOR_SM, UPDATE_LOCATION};
use crate::dialogues::Update;
use crate::digits::Digits;
use crate::invocations::{Invocations, Offer};
use crate::messages::{Begin, TransactionId};
use crate::portions::Context;
use crate::sent::{Content, Head, Reason, Rejection, SentComponent};
use crate::steps::Step;

// Errors (TS 29.002, MAP-Errors).
pub const UNKNOWN_SUBSCRIBER: u8 = 1;
const ABSENT_SUBSCRIBER_SM: u8 = 6;
const TELESERVICE_NOT_PROVISIONED: u8 = 11;
const DATA_MISSING: u8 = 35;
const UNEXPECTED_DATA_VALUE: u8 = 36;

/// Where a Begin comes from, and what is rejected of it.
pub struct Initiator {
    pub from: Digits,
    pub origin: TransactionId,
    pub context: Context,
    pub rejects: Vec<Rejection>,
}

impl Step<'_> {
    /// A Begin without a dialogue portion, without an accepted context or without a component is
    /// aborted; that is looked at in this order (profile).
    pub fn begin(&mut self, from: Digits, begin: &Begin, argument: Option<Argument>) {
        let origin = begin.origin;
        let Some(name) = begin.context else {
            return self.send_abort(from, origin, Reason::Nothing);
        };
        let Some(context) = Context::accepted(name) else {
            return self.send_abort(from, origin, Reason::Refusal(name));
        };
        if begin.components.is_empty() {
            return self.send_abort(from, origin, Reason::Nothing);
        }
        let (operation, is_typed) = (operation_in(context), argument.is_some());
        let offer = Offer { open: None, operation, may_start: true, is_typed };
        let heard = Invocations::default().hear(begin.components, &offer, self.state.clock);
        let initiator = Initiator { from, origin, context, rejects: heard.rejects };
        match heard.started.zip(argument) {
            Some((invoke, argument)) => self.start(&initiator, invoke, argument),
            None => self.answer(&initiator, None),
        }
    }

    fn start(&mut self, initiator: &Initiator, invoke: u8, argument: Argument) {
        let result = match argument {
            Argument::BadValue => Err(UNEXPECTED_DATA_VALUE),
            Argument::Purge { vlr, .. } => self.purge(vlr),
            Argument::Route { .. } => self.route(),
            Argument::Update { location, .. } => match self.may_update(location.vlr) {
                Ok(()) => return self.open_update(initiator, Update { location, invoke }),
                Err(error) => Err(error),
            },
        };
        let content = result.unwrap_or_else(Content::Error);
        self.answer(initiator, Some(SentComponent { invoke, content }));
    }

    /// The End that answers a Begin.
    fn answer(&mut self, initiator: &Initiator, component: Option<SentComponent>) {
        let accepted = Some(initiator.context);
        let head = Head::End { remote: initiator.origin, accepted };
        self.send(initiator.from, head, &initiator.rejects, component);
    }

    /// The serving register purges the subscriber; a purge by another one changes nothing. A
    /// missing VLR number is told even of an unknown subscriber (profile).
    fn purge(&mut self, vlr: Option<Digits>) -> Result<Content<'static>, u8> {
        let vlr = vlr.ok_or(DATA_MISSING)?;
        let record = self.record_mut().filter(|record| !record.is_withdrawn);
        match &mut record.ok_or(UNKNOWN_SUBSCRIBER)?.location {
            Some(location) if location.vlr == vlr => {
                location.is_purged = true;
                Ok(Content::Purged { is_frozen: true })
            }
            _ => Ok(Content::Purged { is_frozen: false }),
        }
    }

    fn route(&self) -> Result<Content<'static>, u8> {
        let record = self.record().filter(|record| !record.is_withdrawn);
        let record = record.ok_or(UNKNOWN_SUBSCRIBER)?;
        if !record.has_short_messages() {
            return Err(TELESERVICE_NOT_PROVISIONED);
        }
        let location = record.location.filter(|location| !location.is_purged);
        let location = location.ok_or(ABSENT_SUBSCRIBER_SM)?;
        Ok(Content::Routed { imsi: record.imsi, location })
    }
}

/// The operation that a peer may invoke in a context. In the others no peer may begin.
fn operation_in(context: Context) -> Option<u8> {
    match context {
        Context::NetworkLocUp => Some(UPDATE_LOCATION),
        Context::ShortMsgGateway => Some(SEND_ROUTING_INFO_FOR_SM),
        Context::MsPurging => Some(PURGE_MS),
        Context::LocationCancellation | Context::SubscriberDataMngt => None,
    }
}
