//! Application contexts (TS 29.002) and dialogue portions (Q.773), read and written.

use crate::tags::*;
use crate::trees::Elements;
use crate::writer::Writer;

/// The abstract syntax of dialogue portions: dialogue-as-id, version 1.
const DIALOGUE_AS_ID: &[u8] = &[0x00, 0x11, 0x86, 0x05, 0x01, 0x01, 0x01];
/// Version 1, which is sent: a BIT STRING.
const VERSION_1: &[u8] = &[0x07, 0x80];
/// The result reject-permanent and the diagnostic application-context-name-not-supported of the
/// user.
const REFUSED: &[u8] = b"\xa2\x03\x02\x01\x01\xa3\x05\xa1\x03\x02\x01\x02";

/// What stands around a context's name in the portion with the AARQ that asks for it.
const ASKING: &[u8] = b"\x6b\x1e\x28\x1c\x06\x07\x00\x11\x86\x05\x01\x01\x01\xa0\x11\x60\x0f\
    \x80\x02\x07\x80\xa1\x09\x06\x07";
/// The same before and behind it with the AARE that accepts it.
const ACCEPTING: &[u8] = b"\x6b\x2a\x28\x28\x06\x07\x00\x11\x86\x05\x01\x01\x01\xa0\x1d\x61\x1b\
    \x80\x02\x07\x80\xa1\x09\x06\x07";
const ACCEPTED: &[u8] = b"\xa2\x03\x02\x01\x00\xa3\x05\xa1\x03\x02\x01\x00";

const MAX_CONTEXT_NAME: usize = 32;

/// An application context of MAP, version 3, by the octet of its name that is its own.
#[derive(Clone, Copy)]
pub enum Context {
    NetworkLocUp = 0x01,
    LocationCancellation = 0x02,
    SubscriberDataMngt = 0x10,
    ShortMsgGateway = 0x14,
    MsPurging = 0x1B,
}

impl Context {
    fn name(self) -> [u8; 7] {
        [0x04, 0x00, 0x00, 0x01, 0x00, self as u8, 3]
    }

    /// The context in which a peer may begin, of whatever version.
    fn of_any_version(name: &[u8]) -> Option<Context> {
        match name {
            [0x04, 0x00, 0x00, 0x01, 0x00, 0x01, _] => Some(Context::NetworkLocUp),
            [0x04, 0x00, 0x00, 0x01, 0x00, 0x14, _] => Some(Context::ShortMsgGateway),
            [0x04, 0x00, 0x00, 0x01, 0x00, 0x1B, _] => Some(Context::MsPurging),
            _ => None,
        }
    }

    pub fn accepted(name: &[u8]) -> Option<Context> {
        Context::of_any_version(name).filter(|context| name == context.name())
    }
}

// --- Reading ---

/// The name of the application context that a dialogue portion with an AARQ asks for.
pub fn read_request(portion: Elements<'_>) -> Option<&[u8]> {
    let mut fields = read_apdu(portion, AARQ)?;
    let name = take_context(&mut fields)?;
    ends_apdu(fields).then_some(name)
}

/// The name in a dialogue portion with an AARE. Its result and its diagnostic may be any octets
/// (profile).
pub fn read_response(portion: Elements<'_>) -> Option<&[u8]> {
    let mut fields = read_apdu(portion, AARE)?;
    let name = take_context(&mut fields)?;
    fields.take_element(RESULT)?.children.only_octet(INTEGER)?;
    let source = fields.take_element(RESULT_SOURCE)?.children;
    let diagnostic =
        source.only(DIAGNOSTIC_OF_USER).or_else(|| source.only(DIAGNOSTIC_OF_PROVIDER))?;
    diagnostic.children.only_octet(INTEGER)?;
    ends_apdu(fields).then_some(name)
}

/// The fields of an APDU behind its version. One that is read has at most seven unused bits and its
/// first bit set (profile).
fn read_apdu(portion: Elements<'_>, tag: u8) -> Option<Elements<'_>> {
    let mut external = portion.only(EXTERNAL)?.children;
    external.take_octets(OBJECT_IDENTIFIER).filter(|&syntax| syntax == DIALOGUE_AS_ID)?;
    let mut fields = external.only(SINGLE_ASN1_TYPE)?.children.only(tag)?.children;
    match fields.take_octets(VERSION) {
        None | Some([0..=7, 0x80..=0xFF, ..]) => Some(fields),
        Some(_) => None,
    }
}

fn take_context<'a>(fields: &mut Elements<'a>) -> Option<&'a [u8]> {
    let name = fields.take_element(CONTEXT_NAME)?.children.only(OBJECT_IDENTIFIER)?.octets;
    (1..=MAX_CONTEXT_NAME).contains(&name.len()).then_some(name)
}

/// User information, which is not read, may end an APDU (profile).
fn ends_apdu(mut fields: Elements<'_>) -> bool {
    let _information = fields.take_element(USER_INFORMATION);
    fields.is_empty()
}

// --- Writing ---

pub fn put_asking(writer: &mut Writer, context: Context) {
    writer.put(&context.name());
    writer.put(ASKING);
}

pub fn put_accepting(writer: &mut Writer, context: Context) {
    writer.put(ACCEPTED);
    writer.put(&context.name());
    writer.put(ACCEPTING);
}

/// The portion with the AARE that refuses a name: it has the name of version 3 where that is
/// accepted (profile).
pub fn put_refusing(writer: &mut Writer, name: &[u8]) {
    let end = writer.place();
    writer.put(REFUSED);
    let behind = writer.place();
    match Context::of_any_version(name) {
        Some(context) => writer.put_element(OBJECT_IDENTIFIER, &context.name()),
        None => writer.put_element(OBJECT_IDENTIFIER, name),
    }
    writer.wrap(CONTEXT_NAME, behind);
    writer.put_element(VERSION, VERSION_1);
    writer.wrap(AARE, end);
    writer.wrap(SINGLE_ASN1_TYPE, end);
    writer.put_element(OBJECT_IDENTIFIER, DIALOGUE_AS_ID);
    writer.wrap(EXTERNAL, end);
    writer.wrap(DIALOGUE_PORTION, end);
}
