//! The script: its lines, the events that they stand for, and what is printed.

use crate::codes::Codes;
use crate::digits::{are_octets, octets, push_octets, Digits};
use crate::records::read_imsi;
use crate::register::{Event, Home};
use crate::steps::Frame;
use crate::{Outcome, MAX_ENTRIES, SHARDS};
use std::io::{self, Write};

const MAX_TICKS: u64 = 1 << 62;

/// What a line says. A frame's octets are as they are written.
enum Line<'a> {
    Frame { from: Digits, octets: &'a [u8] },
    Clock(u64),
    Expiry,
    Codes { imsi: Digits, codes: Codes },
    Withdrawal { imsi: Digits },
    EndOfBatch,
}

/// Reads a line, but for the octets of a frame.
fn read_line(line: &str) -> Option<Line<'_>> {
    match line.as_bytes() {
        b"E" => Some(Line::Expiry),
        b"W" => Some(Line::EndOfBatch),
        [b'F', b' ', fields @ ..] => read_frame(fields),
        [b'C', b' ', ticks @ ..] => read_ticks(ticks).map(Line::Clock),
        [b'O', b' ', fields @ ..] => read_new_codes(fields),
        [b'X', b' ', imsi @ ..] => read_imsi(imsi).map(|imsi| Line::Withdrawal { imsi }),
        _ => None,
    }
}

fn read_frame(fields: &[u8]) -> Option<Line<'_>> {
    let (from, octets) = split_field(fields)?;
    let from = Digits::from_text(from)?;
    match octets {
        b"" => None,
        b"-" => Some(Line::Frame { from, octets: b"" }),
        octets => Some(Line::Frame { from, octets }),
    }
}

fn read_new_codes(fields: &[u8]) -> Option<Line<'_>> {
    let (imsi, codes) = split_field(fields)?;
    let (imsi, codes) = (read_imsi(imsi)?, Codes::read(codes)?);
    Some(Line::Codes { imsi, codes })
}

/// The field before the first space, and what follows that.
fn split_field(fields: &[u8]) -> Option<(&[u8], &[u8])> {
    let place = fields.iter().position(|&octet| octet == b' ')?;
    Some((&fields[..place], &fields[place + 1..]))
}

/// A clock value in decimal, without a leading zero.
fn read_ticks(field: &[u8]) -> Option<u64> {
    let is_plain = match field {
        [b'0', more @ ..] => more.is_empty(),
        field => field.iter().all(u8::is_ascii_digit),
    };
    let ticks = str::from_utf8(field).ok()?.parse().ok();
    ticks.filter(|&ticks| is_plain && ticks <= MAX_TICKS)
}

/// Whether a line has one of the forms, the octets of a frame too.
fn is_good(line: &str) -> bool {
    match read_line(line) {
        Some(Line::Frame { octets, .. }) => are_octets(octets),
        line => line.is_some(),
    }
}

/// Checks the whole script, and then handles it batch by batch.
pub fn serve(home: &mut Home, script: &str) -> Outcome<()> {
    if let Some(place) = script.split_terminator('\n').position(|line| !is_good(line)) {
        return Err(format!("script line {} is bad, or not served", place + 1).into());
    }
    let mut batch = Batch { home, part: Vec::new(), text: Vec::new() };
    for line in script.split_terminator('\n') {
        match read_line(line) {
            Some(Line::EndOfBatch) | None => batch.end()?,
            Some(line) => batch.add_line(line)?,
        }
    }
    batch.end()
}

/// The batch that is handled: the events of its part that is gathered, and the lines of what those
/// before it have sent.
struct Batch<'a> {
    home: &'a mut Home,
    part: Vec<Event>,
    text: Vec<u8>,
}

impl Batch<'_> {
    /// A clock value and an expiry are one event for each shard.
    fn add_line(&mut self, line: Line) -> Outcome<()> {
        match line {
            Line::Frame { from, octets: field } => {
                let octets = octets(field).unwrap_or_default();
                self.add(Event::Frame(Frame { peer: from, octets }))
            }
            Line::Clock(ticks) => {
                (0..SHARDS).try_for_each(|shard| self.add(Event::Clock { shard, ticks }))
            }
            Line::Expiry => (0..SHARDS).try_for_each(|shard| self.add(Event::Expiry { shard })),
            Line::Codes { imsi, codes } => self.add(Event::Codes { imsi, codes }),
            Line::Withdrawal { imsi } => self.add(Event::Withdrawal { imsi }),
            Line::EndOfBatch => Ok(()),
        }
    }

    /// A full part is handled first.
    fn add(&mut self, event: Event) -> Outcome<()> {
        if self.part.len() == MAX_ENTRIES {
            self.handle_part()?;
        }
        self.part.push(event);
        Ok(())
    }

    fn handle_part(&mut self) -> Outcome<()> {
        self.home.handle_part(&mut self.part, &mut self.text)
    }

    fn end(&mut self) -> Outcome<()> {
        self.handle_part()?;
        io::stdout().write_all(&self.text)?;
        self.text.clear();
        Ok(())
    }
}

/// Appends the line of a frame that is sent.
pub fn push_line(text: &mut Vec<u8>, frame: &Frame) {
    text.extend_from_slice(b"S ");
    text.extend((0..frame.peer.count()).map(|place| b'0' + frame.peer.at(place)));
    text.push(b' ');
    push_octets(text, &frame.octets);
    text.push(b'\n');
}
