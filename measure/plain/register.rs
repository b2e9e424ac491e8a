//! The register: sixteen shards, and the events that they handle.

use crate::arguments::{read_argument, Argument};
use crate::codes::Codes;
use crate::digits::Digits;
use crate::messages::{read_message, Begin, Message, TransactionId, Unread};
use crate::records::Subscribers;
use crate::script::push_line;
use crate::sent::Reason;
use crate::state::State;
use crate::steps::{Frame, SentFrames, Step};
use crate::trees::{read_tree, Node};
use crate::writer::Writer;
use crate::{Outcome, MAX_FRAME, SHARDS};
use std::mem;

/// What comes. Clock values and expiries are those of one shard.
pub enum Event {
    Frame(Frame),
    Clock { shard: usize, ticks: u64 },
    Expiry { shard: usize },
    Codes { imsi: Digits, codes: Codes },
    Withdrawal { imsi: Digits },
}

pub struct Home {
    number: Digits,
    directory: Vec<(Digits, Digits)>,
    shards: Vec<State>,
    /// Room for the tree of a frame, used again for each.
    nodes: Vec<Node>,
    writer: Writer,
}

impl Home {
    pub fn new(subscribers: Subscribers) -> Home {
        let Subscribers { number, records, directory } = subscribers;
        let mut parts = vec![Vec::new(); SHARDS];
        for record in records {
            parts[record.imsi.shard()].push(record);
        }
        let shards = parts.into_iter().enumerate();
        let shards = shards.map(|(number, records)| State::new(number, records)).collect();
        Home { number, directory, shards, nodes: Vec::new(), writer: Writer::new() }
    }

    /// Handles the events of a part, and appends the lines of what is sent.
    pub fn handle_part(&mut self, part: &mut Vec<Event>, text: &mut Vec<u8>) -> Outcome<()> {
        part.drain(..).try_for_each(|event| self.handle(event, text))
    }

    fn handle(&mut self, event: Event, text: &mut Vec<u8>) -> Outcome<()> {
        let mut nodes = mem::take(&mut self.nodes);
        let sent = match &event {
            Event::Frame(frame) => self.receive(frame, &mut nodes),
            &Event::Clock { shard, ticks } => self.set_clock(shard, ticks),
            &Event::Expiry { shard } => self.step(shard, None, |step| step.expire()),
            Event::Codes { imsi, codes } => self.change(*imsi, |step| step.change_codes(*codes))?,
            Event::Withdrawal { imsi } => self.change(*imsi, |step| step.withdraw())?,
        };
        self.nodes = nodes;
        sent.iter().for_each(|frame| push_line(text, frame));
        Ok(())
    }

    /// Handles an event of a shard and of a subscriber, or of nobody that is known yet.
    fn step(
        &mut self,
        shard: usize,
        imsi: Option<Digits>,
        handle: impl FnOnce(&mut Step),
    ) -> SentFrames {
        let state = &mut self.shards[shard];
        let place = imsi.and_then(|imsi| state.place_of(imsi));
        let (number, writer, sent) = (self.number, &mut self.writer, SentFrames::default());
        let mut step = Step { state, number, writer, place, sent };
        handle(&mut step);
        step.sent
    }

    fn change(
        &mut self,
        imsi: Digits,
        change: impl FnOnce(&mut Step) -> Outcome<()>,
    ) -> Outcome<SentFrames> {
        let mut outcome = Ok(());
        let sent = self.step(imsi.shard(), Some(imsi), |step| outcome = change(step));
        outcome.map(|()| sent)
    }

    fn set_clock(&mut self, shard: usize, ticks: u64) -> SentFrames {
        self.step(shard, None, |step| step.state.set_clock(ticks))
    }

    /// A frame goes to a shard by what it is (profile).
    fn receive(&mut self, frame: &Frame, nodes: &mut Vec<Node>) -> SentFrames {
        let octets = Some(&frame.octets[..]).filter(|octets| octets.len() <= MAX_FRAME);
        let tree = octets.and_then(|octets| read_tree(octets, nodes));
        let from = frame.peer;
        match tree.ok_or(Unread::Discarded).and_then(read_message) {
            Err(Unread::Discarded) => self.step(0, None, |_| {}),
            Err(Unread::Refused { origin, cause }) => {
                self.step(0, None, |step| step.send_abort(from, origin, Reason::Cause(cause)))
            }
            Ok(Message::Begin(begin)) => self.begin(from, &begin),
            Ok(Message::Continue(received)) => {
                let shard = shard_named(&received.destination);
                self.step(shard, None, |step| step.continue_dialogue(from, &received))
            }
            Ok(Message::Close { destination }) => {
                self.step(shard_named(&destination), None, |step| step.close(&destination))
            }
        }
    }

    /// A Begin goes to the shard of the subscriber whom the argument of its first component names,
    /// whatever its context.
    fn begin(&mut self, from: Digits, begin: &Begin) -> SentFrames {
        let argument = read_argument(begin.components);
        let imsi = argument.as_ref().and_then(|argument| self.imsi_in(argument));
        let shard = imsi.map_or(0, Digits::shard);
        self.step(shard, imsi, |step| step.begin(from, begin, argument))
    }

    fn imsi_in(&self, argument: &Argument) -> Option<Digits> {
        match *argument {
            Argument::BadValue => None,
            Argument::Update { imsi, .. } | Argument::Purge { imsi, .. } => Some(imsi),
            Argument::Route { msisdn } => self.imsi_of(msisdn),
        }
    }

    fn imsi_of(&self, msisdn: Digits) -> Option<Digits> {
        let place = self.directory.binary_search_by_key(&msisdn, |entry| entry.0).ok()?;
        Some(self.directory[place].1)
    }
}

/// The shard in the first octet of a local id. Ids of another form are for shard 0.
fn shard_named(id: &TransactionId) -> usize {
    match id.as_slice() {
        &[shard, _, _, _] if usize::from(shard) < SHARDS => usize::from(shard),
        _ => 0,
    }
}
