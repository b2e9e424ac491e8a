//! Digits of subscribers and addresses, and hexadecimal octets.

use crate::SHARDS;
use std::num::NonZeroU64;

/// 1 to 16 decimal digits, each and 1 in four bits, from the left: words stand in the order of
/// texts.
#[derive(Clone, Copy, PartialEq, Eq, PartialOrd, Ord)]
pub struct Digits(NonZeroU64);

impl Digits {
    fn new(digits: &[u8]) -> Option<Digits> {
        if !(1..=16).contains(&digits.len()) || digits.iter().any(|&digit| digit > 9) {
            return None;
        }
        let word = digits.iter().fold(0, |word, &digit| word << 4 | u64::from(digit + 1));
        NonZeroU64::new(word << (64 - 4 * digits.len())).map(Digits)
    }

    pub fn from_text(text: &[u8]) -> Option<Digits> {
        let mut buffer = [0; 16];
        let digits = buffer.get_mut(..text.len())?;
        for (digit, character) in digits.iter_mut().zip(text) {
            *digit = character.wrapping_sub(b'0');
        }
        Digits::new(digits)
    }

    /// Of a TBCD string: the low half of an octet first; the last high half is 15 for an odd count.
    pub fn from_tbcd(octets: &[u8]) -> Option<Digits> {
        let mut buffer = [0; 16];
        let digits = buffer.get_mut(..2 * octets.len())?;
        for (pair, octet) in digits.chunks_exact_mut(2).zip(octets) {
            pair.copy_from_slice(&[octet & 15, octet >> 4]);
        }
        Digits::new(digits.strip_suffix(&[15]).unwrap_or(digits))
    }

    pub fn count(self) -> usize {
        16 - self.0.trailing_zeros() as usize / 4
    }

    /// The digit at a place below 16, and 15 behind the last one.
    pub fn at(self, place: usize) -> u8 {
        ((self.0.get() >> (60 - 4 * place)) as u8).wrapping_sub(1) & 15
    }

    /// Whether they are as many as an IMSI has.
    pub fn are_imsi(self) -> bool {
        (5..=15).contains(&self.count())
    }

    pub fn starts_with(self, prefix: Digits) -> bool {
        let behind = 64 - 4 * prefix.count();
        self.0.get() >> behind == prefix.0.get() >> behind
    }

    /// The shard of an IMSI: its last two digits, modulo 16.
    pub fn shard(self) -> usize {
        let count = self.count();
        usize::from(10 * self.at(count - 2) + self.at(count - 1)) % SHARDS
    }
}

/// The value of each character that is a hexadecimal digit, of either case.
const VALUES: [u8; 256] = {
    let mut values = [0xFF; 256];
    let mut digit = 0;
    while digit < 16 {
        values[b"0123456789abcdef"[digit] as usize] = digit as u8;
        values[b"0123456789ABCDEF"[digit] as usize] = digit as u8;
        digit += 1;
    }
    values
};

fn value(character: u8) -> u8 {
    VALUES[usize::from(character)]
}

/// The octet of a text that is one pair of hexadecimal digits.
pub fn octet(text: &[u8]) -> Option<u8> {
    let &[high, low] = text else { return None };
    are_octets(text).then(|| value(high) << 4 | value(low))
}

/// Whether a text is pairs of hexadecimal digits.
pub fn are_octets(text: &[u8]) -> bool {
    text.len() % 2 == 0 && text.iter().fold(0, |all, &character| all | value(character)) < 16
}

/// The octets of a text that is pairs of hexadecimal digits.
#[cfg(not(crate_hex))]
pub fn octets(text: &[u8]) -> Option<Vec<u8>> {
    let pairs = text.chunks_exact(2);
    are_octets(text).then(|| pairs.map(|pair| value(pair[0]) << 4 | value(pair[1])).collect())
}

/// The same as the function `decode` of the crate `hex` 0.4.3 has it: branches for each digit.
#[cfg(crate_hex)]
pub fn octets(text: &[u8]) -> Option<Vec<u8>> {
    if text.len() % 2 != 0 {
        return None;
    }
    let octet = |pair: &[u8]| Some(branched_value(pair[0])? << 4 | branched_value(pair[1])?);
    text.chunks(2).map(octet).collect()
}

#[cfg(crate_hex)]
fn branched_value(character: u8) -> Option<u8> {
    match character {
        b'A'..=b'F' => Some(character - b'A' + 10),
        b'a'..=b'f' => Some(character - b'a' + 10),
        b'0'..=b'9' => Some(character - b'0'),
        _ => None,
    }
}

/// Appends octets in upper case.
pub fn push_octets(text: &mut Vec<u8>, octets: &[u8]) {
    let start = text.len();
    text.resize(start + 2 * octets.len(), 0);
    let digit = |value: u8| b"0123456789ABCDEF"[usize::from(value)];
    for (pair, octet) in text[start..].chunks_exact_mut(2).zip(octets) {
        pair.copy_from_slice(&[digit(octet >> 4), digit(octet & 15)]);
    }
}
