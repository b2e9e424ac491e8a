//! Received components (Q.773, component portion). What becomes of ill-formed ones is the profile's
//! choice.

use crate::tags::*;
use crate::trees::{Element, Elements};

// General problems (Q.773, GeneralProblem).
const UNRECOGNIZED_COMPONENT: u8 = 0;
const MISTYPED_COMPONENT: u8 = 1;

/// What kind of component a problem is of, by the tag of the problem (Q.773, Reject).
#[derive(Clone, Copy, PartialEq, Eq)]
pub enum Side {
    General = 0x80,
    Invoke = 0x81,
    Result = 0x82,
    Error = 0x83,
}

/// A component. Ids are octets. The code and the parameter of a result and of an error are accepted
/// unread. A bad one is ill-formed, and has the general problem that is answered; an ill-formed
/// Reject is ignored (profile).
pub enum Component<'a> {
    Invoke(Invoke<'a>),
    ResultLast { id: u8 },
    ResultNotLast { id: u8 },
    Error { id: u8 },
    Reject { id: Option<u8>, side: Side },
    Bad { id: Option<u8>, problem: u8 },
    Ignored,
}

pub struct Invoke<'a> {
    pub id: u8,
    pub linked: Option<u8>,
    /// The operation, where its code is a number of one octet.
    pub operation: Option<u8>,
    /// One element, or none.
    pub parameter: Elements<'a>,
}

pub fn read_component(component: Element<'_>) -> Component<'_> {
    let fields = component.children;
    match component.tag {
        INVOKE => read_identified(fields, read_invoke),
        RESULT_LAST => read_identified(fields, |id, fields| {
            ends_result(fields).then_some(Component::ResultLast { id })
        }),
        RESULT_NOT_LAST => read_identified(fields, |id, fields| {
            ends_result(fields).then_some(Component::ResultNotLast { id })
        }),
        RETURN_ERROR => read_identified(fields, |id, fields| {
            read_coded(fields).map(|_| Component::Error { id })
        }),
        REJECT => read_reject(fields).unwrap_or(Component::Ignored),
        _ => Component::Bad { id: None, problem: UNRECOGNIZED_COMPONENT },
    }
}

/// Reads what follows an id. Without a readable id, or with any other fault behind it, the
/// component is mistyped.
fn read_identified<'a>(
    mut fields: Elements<'a>,
    read: impl Fn(u8, Elements<'a>) -> Option<Component<'a>>,
) -> Component<'a> {
    let id = fields.take_octet(INTEGER);
    let read = id.and_then(|id| read(id, fields));
    read.unwrap_or(Component::Bad { id, problem: MISTYPED_COMPONENT })
}

fn read_invoke(id: u8, mut fields: Elements<'_>) -> Option<Component<'_>> {
    let linked = fields.take_octet(LINKED_ID);
    let (operation, parameter) = read_coded(fields)?;
    Some(Component::Invoke(Invoke { id, linked, operation, parameter }))
}

/// A code, which is a number where it is an INTEGER of one octet, and at most one parameter.
fn read_coded(mut fields: Elements<'_>) -> Option<(Option<u8>, Elements<'_>)> {
    let code = fields.next()?;
    let number = match (code.tag, code.octets) {
        (INTEGER, &[number]) => Some(number),
        (INTEGER | OBJECT_IDENTIFIER, &[_, ..]) => None,
        _ => return None,
    };
    (fields.count() <= 1).then_some((number, fields))
}

/// A result has nothing behind its id, or a SEQUENCE of a code and at most one parameter.
fn ends_result(fields: Elements<'_>) -> bool {
    let has_code = |outcome: Element| read_coded(outcome.children).is_some();
    fields.is_empty() || fields.only(SEQUENCE).is_some_and(has_code)
}

/// An id or a NULL, and a problem of one octet.
fn read_reject(mut fields: Elements<'_>) -> Option<Component<'_>> {
    let rejected = fields.next()?;
    let id = match (rejected.tag, rejected.octets) {
        (INTEGER, &[id]) => Some(id),
        (NULL, []) => None,
        _ => return None,
    };
    let problem = fields.next().filter(|problem| problem.octets.len() == 1)?;
    let side = [Side::General, Side::Invoke, Side::Result, Side::Error]
        .into_iter()
        .find(|&side| problem.tag == side as u8)?;
    fields.is_empty().then_some(Component::Reject { id, side })
}
