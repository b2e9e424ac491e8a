//! The state of a shard.

use crate::dialogues::Dialogues;
use crate::digits::Digits;
use crate::records::Record;

/// The greatest clock value; a greater one counts as this one (profile).
const MAX_CLOCK: u64 = 1 << 62;

/// The records stand by IMSI.
pub struct State {
    pub records: Vec<Record>,
    pub dialogues: Dialogues,
    pub clock: u64,
}

impl State {
    pub fn new(shard: usize, records: Vec<Record>) -> State {
        State { records, dialogues: Dialogues::new(shard), clock: 0 }
    }

    pub fn place_of(&self, imsi: Digits) -> Option<usize> {
        self.records.binary_search_by_key(&imsi, |record| record.imsi).ok()
    }

    /// A clock never goes back.
    pub fn set_clock(&mut self, ticks: u64) {
        self.clock = self.clock.max(ticks.min(MAX_CLOCK));
    }
}
