//! Octets of a frame (X.690), written from its end, so that each length is known when it is
//! written.

use crate::digits::Digits;
use crate::MAX_FRAME;

/// The first octet of an address that is sent: international, of E.164.
const INTERNATIONAL_E164: u8 = 0x91;

/// Room for one frame, used again for each. What is sent never has more octets than a frame that is
/// read.
pub struct Writer {
    octets: Vec<u8>,
    start: usize,
}

impl Writer {
    pub fn new() -> Writer {
        Writer { octets: vec![0; MAX_FRAME], start: MAX_FRAME }
    }

    /// The place before which is written next.
    pub fn place(&self) -> usize {
        self.start
    }

    /// The end of the frame.
    pub fn end(&self) -> usize {
        self.octets.len()
    }

    pub fn put(&mut self, octets: &[u8]) {
        let end = self.start;
        self.start -= octets.len();
        self.octets[self.start..end].copy_from_slice(octets);
    }

    /// Makes an element of what was written before an end, with the shortest length.
    pub fn wrap(&mut self, tag: u8, end: usize) {
        match end - self.start {
            length @ 0..=0x7F => self.put(&[tag, length as u8]),
            length @ 0x80..=0xFF => self.put(&[tag, 0x81, length as u8]),
            length => self.put(&[tag, 0x82, (length >> 8) as u8, length as u8]),
        }
    }

    pub fn put_element(&mut self, tag: u8, octets: &[u8]) {
        let end = self.start;
        self.put(octets);
        self.wrap(tag, end);
    }

    /// Digits as a TBCD string: an identity.
    pub fn put_identity(&mut self, tag: u8, digits: Digits) {
        let end = self.start;
        self.put_digits(digits);
        self.wrap(tag, end);
    }

    /// An address (TS 29.002, ISDN-AddressString).
    pub fn put_address(&mut self, tag: u8, digits: Digits) {
        let end = self.start;
        self.put_digits(digits);
        self.put(&[INTERNATIONAL_E164]);
        self.wrap(tag, end);
    }

    fn put_digits(&mut self, digits: Digits) {
        for place in (0..digits.count()).step_by(2).rev() {
            let high = if place == 15 { 15 } else { digits.at(place + 1) };
            self.put(&[high << 4 | digits.at(place)]);
        }
    }

    /// The frame that was written. The next one begins.
    pub fn take(&mut self) -> Vec<u8> {
        let frame = self.octets[self.start..].to_vec();
        self.start = self.octets.len();
        frame
    }
}
