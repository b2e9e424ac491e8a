//! The tags of Q.773 and TS 29.002 that are read and sent, as their identifier octets.

// Universal types (X.680).
pub const INTEGER: u8 = 0x02;
pub const OCTET_STRING: u8 = 0x04;
pub const NULL: u8 = 0x05;
pub const OBJECT_IDENTIFIER: u8 = 0x06;
pub const ENUMERATED: u8 = 0x0A;
pub const EXTERNAL: u8 = 0x28;
pub const SEQUENCE: u8 = 0x30;

// Messages and their parts (Q.773, transaction portion).
pub const UNIDIRECTIONAL: u8 = 0x61;
pub const BEGIN: u8 = 0x62;
pub const END: u8 = 0x64;
pub const CONTINUE: u8 = 0x65;
pub const ABORT: u8 = 0x67;
pub const ORIGIN: u8 = 0x48;
pub const DESTINATION: u8 = 0x49;
pub const ABORT_CAUSE: u8 = 0x4A;
pub const DIALOGUE_PORTION: u8 = 0x6B;
pub const COMPONENT_PORTION: u8 = 0x6C;

// Dialogue portions (Q.773).
pub const SINGLE_ASN1_TYPE: u8 = 0xA0;
pub const AARQ: u8 = 0x60;
pub const AARE: u8 = 0x61;
pub const VERSION: u8 = 0x80;
pub const CONTEXT_NAME: u8 = 0xA1;
pub const RESULT: u8 = 0xA2;
pub const RESULT_SOURCE: u8 = 0xA3;
pub const DIAGNOSTIC_OF_USER: u8 = 0xA1;
pub const DIAGNOSTIC_OF_PROVIDER: u8 = 0xA2;
pub const USER_INFORMATION: u8 = 0xBE;

// Components (Q.773, component portion).
pub const INVOKE: u8 = 0xA1;
pub const RESULT_LAST: u8 = 0xA2;
pub const RETURN_ERROR: u8 = 0xA3;
pub const REJECT: u8 = 0xA4;
pub const RESULT_NOT_LAST: u8 = 0xA7;
pub const LINKED_ID: u8 = 0x80;
