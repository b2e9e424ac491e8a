//! What is sent: messages with their components (Q.773), and parameters (TS 29.002, 17.7).

use crate::arguments::*;
use crate::components::Side;
use crate::dialogues::LocalId;
use crate::digits::Digits;
use crate::messages::TransactionId;
use crate::portions::{put_accepting, put_asking, put_refusing, Context};
use crate::records::Location;
use crate::tags::*;
use crate::writer::Writer;

/// The error that is sent with a parameter (TS 29.002, MAP-Errors).
pub const ROAMING_NOT_ALLOWED: u8 = 8;
/// RoamingNotAllowedParam: plmnRoamingNotAllowed.
const ROAMING_PARAMETER: &[u8] = &[SEQUENCE, 3, ENUMERATED, 1, 0];

// Tags of parameters.
const INSERT_IMSI: u8 = 0x80;
const INSERT_MSISDN: u8 = 0x81;
const SUBSCRIBER_STATUS: u8 = 0x83;
const SERVICE_GRANTED: u8 = 0;
const TELESERVICE_LIST: u8 = 0xA6;
const CANCEL_ARGUMENT: u8 = 0xA3;
const FREEZE_TMSI: u8 = 0x80;
const LOCATION_INFO: u8 = 0xA0;
const NETWORK_NODE_NUMBER: u8 = 0x81;

const MAX_CODES_IN_INSERT: usize = 8;

/// A message that can have components, with the context that its dialogue portion asks for or
/// accepts.
pub enum Head {
    Begin { own: LocalId, context: Context },
    Continue { own: LocalId, remote: TransactionId, accepted: Option<Context> },
    End { remote: TransactionId, accepted: Option<Context> },
}

/// What an Abort carries: nothing, a P-Abort cause, or the refusal of a context's name.
pub enum Reason<'a> {
    Nothing,
    Cause(u8),
    Refusal(&'a [u8]),
}

/// A Reject, without an id where the rejected component had none.
pub struct Rejection {
    pub id: Option<u8>,
    pub side: Side,
    pub problem: u8,
}

/// Why a location is cancelled (TS 29.002, CancellationType).
#[derive(Clone, Copy)]
pub enum CancellationType {
    UpdateProcedure = 0,
    SubscriptionWithdraw = 1,
}

/// A component of a procedure: its invoke id, and what it says.
pub struct SentComponent<'a> {
    pub invoke: u8,
    pub content: Content<'a>,
}

/// The MSISDN goes with the status serviceGranted (profile).
pub enum Content<'a> {
    Insert { imsi: Option<Digits>, msisdn: Option<Digits>, codes: &'a [u8] },
    Cancel { imsi: Digits, cancellation: CancellationType },
    Updated { number: Digits },
    Purged { is_frozen: bool },
    Routed { imsi: Digits, location: Location },
    Error(u8),
}

/// How many inserts bring these codes: there is always one.
pub fn count_inserts(codes: &[u8]) -> usize {
    codes.len().div_ceil(MAX_CODES_IN_INSERT).max(1)
}

/// The inserts that bring these codes, eight to an insert (TS 29.002, 8.8.1).
pub fn inserts(
    imsi: Option<Digits>,
    msisdn: Digits,
    codes: &[u8],
) -> impl DoubleEndedIterator<Item = SentComponent<'_>> {
    (0..count_inserts(codes)).map(move |place| {
        let msisdn = Some(msisdn).filter(|_| place == 0);
        let codes = codes.chunks(MAX_CODES_IN_INSERT).nth(place).unwrap_or_default();
        let content = Content::Insert { imsi, msisdn, codes };
        SentComponent { invoke: place as u8 + 1, content }
    })
}

impl Writer {
    /// The Rejects come before the components of the procedure (profile).
    pub fn write_message<'a, C>(
        &mut self,
        head: Head,
        rejects: &[Rejection],
        components: C,
    ) -> Vec<u8>
    where
        C: IntoIterator<Item = SentComponent<'a>, IntoIter: DoubleEndedIterator>,
    {
        let end = self.place();
        components.into_iter().rev().for_each(|component| self.put_component(&component));
        rejects.iter().rev().for_each(|rejection| self.put_reject(rejection));
        if self.place() != end {
            self.wrap(COMPONENT_PORTION, end);
        }
        self.put_head(head);
        self.take()
    }

    fn put_head(&mut self, head: Head) {
        let end = self.end();
        match head {
            Head::Begin { own, context } => {
                put_asking(self, context);
                self.put_element(ORIGIN, &own.octets());
                self.wrap(BEGIN, end);
            }
            Head::Continue { own, remote, accepted } => {
                accepted.into_iter().for_each(|context| put_accepting(self, context));
                self.put_element(DESTINATION, remote.as_slice());
                self.put_element(ORIGIN, &own.octets());
                self.wrap(CONTINUE, end);
            }
            Head::End { remote, accepted } => {
                accepted.into_iter().for_each(|context| put_accepting(self, context));
                self.put_element(DESTINATION, remote.as_slice());
                self.wrap(END, end);
            }
        }
    }

    pub fn write_abort(&mut self, remote: TransactionId, reason: Reason) -> Vec<u8> {
        let end = self.place();
        match reason {
            Reason::Nothing => {}
            Reason::Cause(cause) => self.put_element(ABORT_CAUSE, &[cause]),
            Reason::Refusal(name) => put_refusing(self, name),
        }
        self.put_element(DESTINATION, remote.as_slice());
        self.wrap(ABORT, end);
        self.take()
    }

    fn put_reject(&mut self, rejection: &Rejection) {
        let end = self.place();
        self.put_element(rejection.side as u8, &[rejection.problem]);
        match rejection.id {
            Some(id) => self.put_element(INTEGER, &[id]),
            None => self.put_element(NULL, &[]),
        }
        self.wrap(REJECT, end);
    }

    fn put_component(&mut self, component: &SentComponent) {
        let (end, invoke) = (self.place(), component.invoke);
        match component.content {
            Content::Insert { imsi, msisdn, codes } => {
                self.put_insert_argument(imsi, msisdn, codes);
                self.end_invoke(invoke, INSERT_SUBSCRIBER_DATA, end);
            }
            Content::Cancel { imsi, cancellation } => {
                self.put_element(ENUMERATED, &[cancellation as u8]);
                self.put_identity(OCTET_STRING, imsi);
                self.wrap(CANCEL_ARGUMENT, end);
                self.end_invoke(invoke, CANCEL_LOCATION, end);
            }
            Content::Updated { number } => {
                self.put_address(OCTET_STRING, number);
                self.end_result(invoke, UPDATE_LOCATION, end);
            }
            Content::Purged { is_frozen: true } => {
                self.put_element(FREEZE_TMSI, &[]);
                self.end_result(invoke, PURGE_MS, end);
            }
            Content::Purged { is_frozen: false } => {
                self.put_element(INTEGER, &[invoke]);
                self.wrap(RESULT_LAST, end);
            }
            Content::Routed { imsi, location } => {
                self.put_route(imsi, &location);
                self.end_result(invoke, SEND_ROUTING_INFO_FOR_SM, end);
            }
            Content::Error(code) => self.put_error(invoke, code),
        }
    }

    /// Puts the front of an Invoke before its parameter.
    fn end_invoke(&mut self, invoke: u8, operation: u8, end: usize) {
        self.put(&[INTEGER, 1, invoke, INTEGER, 1, operation]);
        self.wrap(INVOKE, end);
    }

    /// Puts the front of a ReturnResultLast before the fields of its parameter.
    fn end_result(&mut self, invoke: u8, operation: u8, end: usize) {
        self.wrap(SEQUENCE, end);
        self.put_element(INTEGER, &[operation]);
        self.wrap(SEQUENCE, end);
        self.put_element(INTEGER, &[invoke]);
        self.wrap(RESULT_LAST, end);
    }

    fn put_error(&mut self, invoke: u8, code: u8) {
        let end = self.place();
        if code == ROAMING_NOT_ALLOWED {
            self.put(ROAMING_PARAMETER);
        }
        self.put(&[INTEGER, 1, invoke, INTEGER, 1, code]);
        self.wrap(RETURN_ERROR, end);
    }

    fn put_insert_argument(&mut self, imsi: Option<Digits>, msisdn: Option<Digits>, codes: &[u8]) {
        let end = self.place();
        if !codes.is_empty() {
            codes.iter().rev().for_each(|&code| self.put(&[OCTET_STRING, 1, code]));
            self.wrap(TELESERVICE_LIST, end);
        }
        if let Some(msisdn) = msisdn {
            self.put_element(SUBSCRIBER_STATUS, &[SERVICE_GRANTED]);
            self.put_address(INSERT_MSISDN, msisdn);
        }
        if let Some(imsi) = imsi {
            self.put_identity(INSERT_IMSI, imsi);
        }
        self.wrap(SEQUENCE, end);
    }

    fn put_route(&mut self, imsi: Digits, location: &Location) {
        let end = self.place();
        if let Some(lmsi) = location.lmsi {
            self.put_element(OCTET_STRING, &lmsi);
        }
        self.put_address(NETWORK_NODE_NUMBER, location.msc);
        self.wrap(LOCATION_INFO, end);
        self.put_identity(OCTET_STRING, imsi);
    }
}
