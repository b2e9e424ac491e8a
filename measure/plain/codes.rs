//! The teleservice codes of a subscriber (TS 29.002, TeleserviceCode).

use crate::digits::octet;
use std::ops::Deref;

const MAX_CODES: usize = 32;

/// Different codes, in the order in which they are given. They stand in the record.
#[derive(Clone, Copy)]
pub struct Codes {
    octets: [u8; MAX_CODES],
    count: u8,
}

impl Codes {
    pub fn read(field: &[u8]) -> Option<Codes> {
        let mut codes = Codes { octets: [0; MAX_CODES], count: 0 };
        for code in field.split(|&octet| octet == b',').filter(|_| field != b"-") {
            let code = octet(code).filter(|code| !codes.contains(code))?;
            *codes.octets.get_mut(usize::from(codes.count))? = code;
            codes.count += 1;
        }
        Some(codes)
    }
}

impl Deref for Codes {
    type Target = [u8];

    fn deref(&self) -> &[u8] {
        &self.octets[..usize::from(self.count)]
    }
}
