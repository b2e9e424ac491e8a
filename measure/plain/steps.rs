//! A step: one event in one shard, and what it leads to.

use crate::dialogues::{Dialogue, LocalId};
use crate::digits::Digits;
use crate::messages::TransactionId;
use crate::records::Record;
use crate::sent::{Head, Reason, Rejection, SentComponent};
use crate::state::State;
use crate::writer::Writer;

/// A frame, and whom it is from or to.
pub struct Frame {
    pub peer: Digits,
    pub octets: Vec<u8>,
}

/// The frames that a step sends: none, one, or an End and behind it the Begin of a cancel. They
/// stand here and not in a list of their own, since most steps send one.
#[derive(Default)]
pub struct SentFrames([Option<Frame>; 2]);

impl SentFrames {
    pub fn push(&mut self, frame: Frame) {
        let [first, second] = &mut self.0;
        *if first.is_none() { first } else { second } = Some(frame);
    }

    pub fn iter(&self) -> impl Iterator<Item = &Frame> {
        self.0.iter().flatten()
    }
}

/// What handles an event, and what that has led to so far. The procedures are its methods.
pub struct Step<'a> {
    pub state: &'a mut State,
    /// The register's own number.
    pub number: Digits,
    pub writer: &'a mut Writer,
    /// The place of the record of the subscriber whom the event is about.
    pub place: Option<usize>,
    pub sent: SentFrames,
}

impl Step<'_> {
    pub fn record(&self) -> Option<&Record> {
        self.place.map(|place| &self.state.records[place])
    }

    pub fn record_mut(&mut self) -> Option<&mut Record> {
        self.place.map(|place| &mut self.state.records[place])
    }

    /// Opens a dialogue. None where the shard is full.
    pub fn open(&mut self, dialogue: Dialogue) -> Option<LocalId> {
        self.state.dialogues.open(dialogue)
    }

    pub fn send_abort(&mut self, peer: Digits, remote: TransactionId, reason: Reason) {
        let octets = self.writer.write_abort(remote, reason);
        self.sent.push(Frame { peer, octets });
    }

    pub fn send(
        &mut self,
        peer: Digits,
        head: Head,
        rejects: &[Rejection],
        component: Option<SentComponent>,
    ) {
        let octets = self.writer.write_message(head, rejects, component);
        self.sent.push(Frame { peer, octets });
    }

    /// Closes an open dialogue, with an End where it is Active.
    pub fn end(
        &mut self,
        id: LocalId,
        dialogue: &Dialogue,
        rejects: &[Rejection],
        component: Option<SentComponent>,
    ) {
        self.state.dialogues.close(id);
        if let Some(remote) = dialogue.remote {
            let head = Head::End { remote, accepted: None };
            self.send(dialogue.peer, head, rejects, component);
        }
    }
}
