//! The arguments of the operations that a peer may invoke (TS 29.002, 17.7.1 and 17.7.6).

use crate::components::{read_component, Component};
use crate::digits::Digits;
use crate::records::Location;
use crate::tags::{OCTET_STRING, SEQUENCE};
use crate::trees::Elements;

// Operations (TS 29.002, MAP-MobileServiceOperations and MAP-ShortMessageServiceOperations).
pub const UPDATE_LOCATION: u8 = 2;
pub const CANCEL_LOCATION: u8 = 3;
pub const INSERT_SUBSCRIBER_DATA: u8 = 7;
pub const SEND_ROUTING_INFO_FOR_SM: u8 = 45;
pub const PURGE_MS: u8 = 67;

// Tags of the arguments.
const UPDATE_MSC_NUMBER: u8 = 0x81;
const UPDATE_LMSI: u8 = 0x8A;
const PURGE_ARGUMENT: u8 = 0xA3;
const PURGE_VLR_NUMBER: u8 = 0x80;
const ROUTE_MSISDN: u8 = 0x80;
const SM_RP_PRI: u8 = 0x81;
const SERVICE_CENTRE: u8 = 0x82;

/// An argument of its operation's type. One with an identity, a number or an LMSI that is none is a
/// bad value.
pub enum Argument {
    BadValue,
    Update { imsi: Digits, location: Location },
    Purge { imsi: Digits, vlr: Option<Digits> },
    Route { msisdn: Digits },
}

/// The argument of the first component, which alone can start a procedure: none where it is no
/// Invoke, or where its parameter is not of its operation's type.
pub fn read_argument(mut components: Elements<'_>) -> Option<Argument> {
    let Component::Invoke(mut invoke) = read_component(components.next()?) else { return None };
    match invoke.operation? {
        UPDATE_LOCATION => read_update(invoke.parameter.take_element(SEQUENCE)?.children),
        PURGE_MS => read_purge(invoke.parameter.take_element(PURGE_ARGUMENT)?.children),
        SEND_ROUTING_INFO_FOR_SM => read_route(invoke.parameter.take_element(SEQUENCE)?.children),
        _ => None,
    }
}

/// What follows what is read here are further elements, which are not read, in each of the
/// arguments (profile).
fn read_update(mut fields: Elements<'_>) -> Option<Argument> {
    let imsi = fields.take_octets(OCTET_STRING)?;
    let msc = fields.take_octets(UPDATE_MSC_NUMBER)?;
    let vlr = fields.take_octets(OCTET_STRING)?;
    let lmsi = fields.take_octets(UPDATE_LMSI);
    let value = || {
        let imsi = read_imsi(imsi)?;
        let (msc, vlr) = (read_address(msc)?, read_address(vlr)?);
        let lmsi = lmsi.map(<[u8; 4]>::try_from).transpose().ok()?;
        let location = Location { vlr, msc, lmsi, is_purged: false };
        Some(Argument::Update { imsi, location })
    };
    Some(value().unwrap_or(Argument::BadValue))
}

fn read_purge(mut fields: Elements<'_>) -> Option<Argument> {
    let imsi = fields.take_octets(OCTET_STRING)?;
    let vlr = fields.take_octets(PURGE_VLR_NUMBER);
    let value = || {
        let imsi = read_imsi(imsi)?;
        let vlr = vlr.map(|vlr| read_address(vlr).ok_or(())).transpose().ok()?;
        Some(Argument::Purge { imsi, vlr })
    };
    Some(value().unwrap_or(Argument::BadValue))
}

fn read_route(mut fields: Elements<'_>) -> Option<Argument> {
    let msisdn = fields.take_octets(ROUTE_MSISDN)?;
    let _priority = fields.take_octet(SM_RP_PRI)?;
    let _service_centre = fields.take_octets(SERVICE_CENTRE)?;
    let value = read_address(msisdn).map(|msisdn| Argument::Route { msisdn });
    Some(value.unwrap_or(Argument::BadValue))
}

fn read_imsi(octets: &[u8]) -> Option<Digits> {
    Digits::from_tbcd(octets).filter(|imsi| imsi.are_imsi())
}

/// The first octet of an address, its nature, has bit 8 set and is not kept (profile).
fn read_address(octets: &[u8]) -> Option<Digits> {
    let (nature, digits) = octets.split_first()?;
    Digits::from_tbcd(digits).filter(|_| nature & 0x80 != 0)
}
