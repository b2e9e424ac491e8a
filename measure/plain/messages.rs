//! Received messages (Q.773, transaction portion), and the verdict on a frame that is none
//! (profile).

use crate::portions::{read_request, read_response};
use crate::tags::*;
use crate::trees::{Element, Elements};

const MAX_COMPONENTS: usize = 16;

// P-Abort causes (Q.773, P-AbortCause).
const UNRECOGNIZED_MESSAGE_TYPE: u8 = 0;
pub const UNRECOGNIZED_TRANSACTION_ID: u8 = 1;
const BADLY_FORMATTED_TRANSACTION_PORTION: u8 = 2;
const INCORRECT_TRANSACTION_PORTION: u8 = 3;
pub const RESOURCE_LIMITATION: u8 = 4;

/// A transaction id of one to four octets, as the peer spells it.
#[derive(Clone, Copy, PartialEq, Eq)]
pub struct TransactionId {
    octets: [u8; 4],
    count: usize,
}

impl TransactionId {
    fn new(octets: &[u8]) -> Option<TransactionId> {
        let mut id = TransactionId { octets: [0; 4], count: octets.len() };
        let own = id.octets.get_mut(..octets.len()).filter(|own| !own.is_empty())?;
        own.copy_from_slice(octets);
        Some(id)
    }

    pub fn as_slice(&self) -> &[u8] {
        &self.octets[..self.count]
    }
}

pub struct Begin<'a> {
    pub origin: TransactionId,
    /// The name of the application context, where there is a dialogue portion.
    pub context: Option<&'a [u8]>,
    pub components: Elements<'a>,
}

pub struct Continue<'a> {
    pub origin: TransactionId,
    pub destination: TransactionId,
    pub components: Elements<'a>,
}

/// A message. What an End or an Abort carries has no further effect.
pub enum Message<'a> {
    Begin(Begin<'a>),
    Continue(Continue<'a>),
    Close { destination: TransactionId },
}

/// What becomes of a frame that is no message: nothing, or an Abort with this cause.
#[derive(Clone, Copy)]
pub enum Unread {
    Discarded,
    Refused { origin: TransactionId, cause: u8 },
}

pub fn read_message(message: Element<'_>) -> Result<Message<'_>, Unread> {
    let mut children = message.children;
    match message.tag {
        BEGIN => read_begin(children).map(Message::Begin),
        CONTINUE => read_continue(children).map(Message::Continue),
        END => read_end(children).ok_or(Unread::Discarded),
        ABORT => read_abort(children).ok_or(Unread::Discarded),
        UNIDIRECTIONAL => Err(Unread::Discarded),
        _ => {
            let origin = take_id(&mut children, ORIGIN).ok_or(Unread::Discarded)?;
            Err(Unread::Refused { origin, cause: UNRECOGNIZED_MESSAGE_TYPE })
        }
    }
}

fn read_begin(mut children: Elements<'_>) -> Result<Begin<'_>, Unread> {
    let origin = take_id(&mut children, ORIGIN).ok_or(Unread::Discarded)?;
    let refused = |cause| Unread::Refused { origin, cause };
    let portions = read_portions(children).ok_or(refused(INCORRECT_TRANSACTION_PORTION))?;
    let context = portions.dialogue.map(|portion| read_request(portion.children));
    if context == Some(None) {
        return Err(refused(INCORRECT_TRANSACTION_PORTION));
    }
    if portions.has_too_many_components() {
        return Err(refused(RESOURCE_LIMITATION));
    }
    Ok(Begin { origin, context: context.flatten(), components: portions.components })
}

fn read_continue(mut children: Elements<'_>) -> Result<Continue<'_>, Unread> {
    let origin = take_id(&mut children, ORIGIN).ok_or(Unread::Discarded)?;
    let refused = |cause| Unread::Refused { origin, cause };
    let destination =
        take_id(&mut children, DESTINATION).ok_or(refused(BADLY_FORMATTED_TRANSACTION_PORTION))?;
    let portions = read_portions(children)
        .filter(Portions::has_good_response)
        .ok_or(refused(INCORRECT_TRANSACTION_PORTION))?;
    if portions.has_too_many_components() {
        return Err(refused(RESOURCE_LIMITATION));
    }
    Ok(Continue { origin, destination, components: portions.components })
}

/// The faults for which a Begin is answered make an End discarded (profile).
fn read_end(mut children: Elements<'_>) -> Option<Message<'_>> {
    let destination = take_id(&mut children, DESTINATION)?;
    read_portions(children)
        .filter(|portions| portions.has_good_response() && !portions.has_too_many_components())
        .map(|_| Message::Close { destination })
}

/// A cause or a dialogue portion may follow the id of an Abort, and neither is read (profile).
fn read_abort(mut children: Elements<'_>) -> Option<Message<'_>> {
    let destination = take_id(&mut children, DESTINATION)?;
    let _reason =
        children.take_element(ABORT_CAUSE).or_else(|| children.take_element(DIALOGUE_PORTION));
    children.is_empty().then_some(Message::Close { destination })
}

fn take_id(children: &mut Elements<'_>, tag: u8) -> Option<TransactionId> {
    TransactionId::new(children.take_octets(tag)?)
}

/// What may follow the ids of a message. An empty component portion counts as none (profile).
struct Portions<'a> {
    dialogue: Option<Element<'a>>,
    components: Elements<'a>,
}

fn read_portions(mut children: Elements<'_>) -> Option<Portions<'_>> {
    let dialogue = children.take_element(DIALOGUE_PORTION);
    let components = children.take_element(COMPONENT_PORTION).map(|portion| portion.children);
    children.is_empty().then_some(Portions { dialogue, components: components.unwrap_or_default() })
}

impl Portions<'_> {
    fn has_good_response(&self) -> bool {
        self.dialogue.is_none_or(|portion| read_response(portion.children).is_some())
    }

    fn has_too_many_components(&self) -> bool {
        self.components.count() > MAX_COMPONENTS
    }
}
