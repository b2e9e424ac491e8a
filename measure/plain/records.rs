//! The records file.

use crate::codes::Codes;
use crate::dialogues::LocalId;
use crate::digits::{octets, Digits};
use crate::Outcome;

/// The register that serves a subscriber (TS 23.012), and whether it has purged the subscriber.
#[derive(Clone, Copy)]
pub struct Location {
    pub vlr: Digits,
    pub msc: Digits,
    pub lmsi: Option<[u8; 4]>,
    pub is_purged: bool,
}

#[derive(Clone)]
pub struct Record {
    pub imsi: Digits,
    pub msisdn: Digits,
    pub codes: Codes,
    /// Prefixes of the VLR numbers that are allowed, none where all are.
    pub prefixes: Vec<Digits>,
    pub location: Option<Location>,
    /// The dialogue of the current update, which alone may complete.
    pub current: Option<LocalId>,
    pub is_withdrawn: bool,
}

impl Record {
    pub fn allows(&self, vlr: Digits) -> bool {
        self.prefixes.is_empty() || self.prefixes.iter().any(|&prefix| vlr.starts_with(prefix))
    }

    /// Whether the subscriber may receive short messages: by the group of all of them, or by
    /// shortMessageMT-PP (TS 29.002, MAP-TS-Code).
    pub fn has_short_messages(&self) -> bool {
        self.codes.iter().any(|code| matches!(code, 0x20 | 0x21))
    }
}

fn read_record(line: &[u8]) -> Option<Record> {
    let mut fields = line.split(|&octet| octet == b' ');
    let record = Record {
        imsi: read_imsi(fields.next()?)?,
        msisdn: Digits::from_text(fields.next()?)?,
        codes: Codes::read(fields.next()?)?,
        prefixes: read_prefixes(fields.next()?)?,
        location: read_location(fields.next()?)?,
        current: None,
        is_withdrawn: false,
    };
    fields.next().is_none().then_some(record)
}

pub fn read_imsi(field: &[u8]) -> Option<Digits> {
    Digits::from_text(field).filter(|imsi| imsi.are_imsi())
}

fn read_prefixes(field: &[u8]) -> Option<Vec<Digits>> {
    let prefixes =
        field.split(|&octet| octet == b',').filter(|_| field != b"*").map(Digits::from_text);
    prefixes.collect::<Option<Vec<_>>>().filter(|prefixes| prefixes.len() <= 8)
}

fn read_location(field: &[u8]) -> Option<Option<Location>> {
    if field == b"-" {
        return Some(None);
    }
    let mut parts = field.split(|&octet| octet == b',');
    let vlr = Digits::from_text(parts.next()?)?;
    let msc = Digits::from_text(parts.next()?)?;
    let lmsi = match parts.next()? {
        b"-" => None,
        lmsi => Some(octets(lmsi)?.try_into().ok()?),
    };
    let is_purged = match parts.next()? {
        b"s" => false,
        b"p" => true,
        _ => return None,
    };
    parts.next().is_none().then_some(Some(Location { vlr, msc, lmsi, is_purged }))
}

/// The register's own number, the subscribers by IMSI, and the directory: the IMSI of each MSISDN.
pub struct Subscribers {
    pub number: Digits,
    pub records: Vec<Record>,
    pub directory: Vec<(Digits, Digits)>,
}

pub fn read_records(text: &str) -> Outcome<Subscribers> {
    let mut lines = text.split_terminator('\n');
    let first = lines.next().and_then(|line| line.as_bytes().strip_prefix(b"HLR1 "));
    let number = first.and_then(Digits::from_text).ok_or("records line 1")?;
    let mut records = Vec::new();
    for (number, line) in (2..).zip(lines) {
        records.push(read_record(line.as_bytes()).ok_or_else(|| format!("records line {number}"))?);
    }
    records.sort_unstable_by_key(|record| record.imsi);
    let directory = records.iter().map(|record| (record.msisdn, record.imsi));
    let mut directory: Vec<_> = directory.collect();
    directory.sort_unstable();
    let is_twice = records.windows(2).any(|pair| pair[0].imsi == pair[1].imsi)
        || directory.windows(2).any(|pair| pair[0].0 == pair[1].0);
    if is_twice {
        return Err("a records line twice".into());
    }
    Ok(Subscribers { number, records, directory })
}
