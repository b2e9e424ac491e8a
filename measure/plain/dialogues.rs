//! The open dialogues of a shard (Q.774): their ids, and the timers of their invocations.

use crate::digits::Digits;
use crate::invocations::{Invocations, MAX_INVOCATIONS};
use crate::messages::TransactionId;
use crate::records::Location;
use crate::sent::CancellationType;
use std::array;
use std::collections::BTreeSet;

const MAX_DIALOGUES: usize = 4_096;
const LAST_GENERATION: u32 = 4_095;

/// A local transaction id: the shard in eight bits, then a generation and a slot in twelve each.
/// The order is that of its octets.
#[derive(Clone, Copy, PartialEq, Eq, PartialOrd, Ord)]
pub struct LocalId(u32);

impl LocalId {
    fn new(shard: usize, generation: u32, slot: usize) -> LocalId {
        LocalId((shard as u32) << 24 | generation << 12 | slot as u32)
    }

    pub fn read(id: &TransactionId) -> Option<LocalId> {
        id.as_slice().try_into().ok().map(|octets| LocalId(u32::from_be_bytes(octets)))
    }

    pub fn octets(self) -> [u8; 4] {
        self.0.to_be_bytes()
    }

    fn slot(self) -> usize {
        (self.0 & 0xFFF) as usize
    }
}

/// A dialogue is Active where the peer's id is known, and otherwise in Initiation Sent.
#[derive(Clone, Copy)]
pub struct Dialogue {
    pub subscriber: Digits,
    pub peer: Digits,
    pub remote: Option<TransactionId>,
    pub kind: Kind,
    pub invocations: Invocations,
}

#[derive(Clone, Copy)]
pub enum Kind {
    Update(Update),
    Cancel(Cancel),
    /// New subscriber data.
    Data,
}

/// An updateLocation: the register in its argument, and the invoke id that the peer waits for.
#[derive(Clone, Copy)]
pub struct Update {
    pub location: Location,
    pub invoke: u8,
}

/// A cancelLocation to a VLR, and which attempt it is.
#[derive(Clone, Copy)]
pub struct Cancel {
    pub vlr: Digits,
    pub attempt: u8,
    pub cancellation: CancellationType,
}

/// The timer of an invocation. What is due first comes first, then the lesser ids (profile).
#[derive(Clone, Copy, PartialEq, Eq, PartialOrd, Ord)]
pub struct Timer {
    deadline: u64,
    pub id: LocalId,
    pub invoke: u8,
}

/// Room for a dialogue, which has another id each time that it is used.
#[derive(Clone, Default)]
struct Slot {
    generation: u32,
    dialogue: Option<Dialogue>,
}

#[derive(Clone)]
pub struct Dialogues {
    shard: usize,
    slots: Vec<Slot>,
    /// The slots without a dialogue. The last one is used next.
    free: Vec<usize>,
    timers: BTreeSet<Timer>,
}

impl Dialogues {
    pub fn new(shard: usize) -> Dialogues {
        Dialogues { shard, slots: Vec::new(), free: Vec::new(), timers: BTreeSet::new() }
    }

    pub fn get(&self, id: LocalId) -> Option<&Dialogue> {
        let slot = self.slots.get(id.slot())?;
        let own = LocalId::new(self.shard, slot.generation, id.slot());
        slot.dialogue.as_ref().filter(|_| id == own)
    }

    /// Opens a dialogue, and starts its timers. None where the shard is full.
    pub fn open(&mut self, dialogue: Dialogue) -> Option<LocalId> {
        let place = self.free.pop().or_else(|| self.add_slot())?;
        let slot = &mut self.slots[place];
        slot.generation = slot.generation % LAST_GENERATION + 1;
        slot.dialogue = Some(dialogue);
        let id = LocalId::new(self.shard, slot.generation, place);
        self.timers.extend(timers_of(id, &dialogue).into_iter().flatten());
        Some(id)
    }

    fn add_slot(&mut self) -> Option<usize> {
        let place = self.slots.len();
        if place == MAX_DIALOGUES {
            return None;
        }
        self.slots.push(Slot::default());
        Some(place)
    }

    /// Closes an open dialogue, and stops its timers.
    pub fn close(&mut self, id: LocalId) {
        if let Some(dialogue) = self.slots[id.slot()].dialogue.take() {
            for timer in timers_of(id, &dialogue).iter().flatten() {
                self.timers.remove(timer);
            }
            self.free.push(id.slot());
        }
    }

    /// Replaces an open dialogue, and stops and starts the timers that have changed with it.
    pub fn replace(&mut self, id: LocalId, dialogue: Dialogue) {
        let Some(old) = self.slots[id.slot()].dialogue.replace(dialogue) else { return };
        for (old, new) in timers_of(id, &old).into_iter().zip(timers_of(id, &dialogue)) {
            if old != new {
                if let Some(timer) = old {
                    self.timers.remove(&timer);
                }
                self.timers.extend(new);
            }
        }
    }

    /// The first timer that is due.
    pub fn due(&self, clock: u64) -> Option<Timer> {
        self.timers.first().copied().filter(|timer| timer.deadline <= clock)
    }
}

/// The timer of each invocation, by its invoke id.
fn timers_of(id: LocalId, dialogue: &Dialogue) -> [Option<Timer>; MAX_INVOCATIONS] {
    array::from_fn(|place| {
        let invoke = place as u8 + 1;
        let invocation = dialogue.invocations.get(invoke)?;
        Some(Timer { deadline: invocation.deadline, id, invoke })
    })
}
