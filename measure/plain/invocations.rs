//! The own invocations of a dialogue, and what received components do to them (Q.774, component
//! sublayer).

use crate::components::{read_component, Component, Invoke, Side};
use crate::sent::Rejection;
use crate::trees::Elements;

/// The most inserts that the codes of a record fill, under the invoke ids 1 to 4.
pub const MAX_INVOCATIONS: usize = 4;

// Timers in ticks of a shard's clock (profile).
const INVOCATION_TIMER: u64 = 20;
const REJECT_TIMER: u64 = 5;

// Problems of an Invoke (Q.773, InvokeProblem).
const DUPLICATE_INVOKE_ID: u8 = 0;
const UNRECOGNIZED_OPERATION: u8 = 1;
const MISTYPED_PARAMETER: u8 = 2;
const RESOURCE_LIMITATION: u8 = 3;
const UNRECOGNIZED_LINKED_ID: u8 = 5;
const LINKED_RESPONSE_UNEXPECTED: u8 = 6;

/// The problem of a result and of an error that answer no invocation (Q.773).
const UNRECOGNIZED_INVOKE_ID: u8 = 0;

/// The state of an invocation that is not Idle (Q.774, operations of class 1).
#[derive(Clone, Copy, PartialEq, Eq)]
pub enum InvocationState {
    OperationSent,
    WaitForReject,
}

#[derive(Clone, Copy)]
pub struct Invocation {
    pub state: InvocationState,
    pub deadline: u64,
}

/// The invocations of a dialogue, by their invoke ids.
#[derive(Clone, Copy, Default)]
pub struct Invocations([Option<Invocation>; MAX_INVOCATIONS]);

/// What the receiver of components offers: the invoke id that the peer waits for, the operation
/// that the peer may invoke, whether the first component may start it, and whether that has an
/// argument of its type.
#[derive(Default)]
pub struct Offer {
    pub open: Option<u8>,
    pub operation: Option<u8>,
    pub may_start: bool,
    pub is_typed: bool,
}

/// What received components lead to: Rejects, the invoke id of what has started, and whether an
/// invocation has failed.
#[derive(Default)]
pub struct Heard {
    pub rejects: Vec<Rejection>,
    pub started: Option<u8>,
    pub has_failed: bool,
}

impl Heard {
    fn reject(&mut self, id: Option<u8>, side: Side, problem: u8) {
        self.rejects.push(Rejection { id, side, problem });
    }
}

impl Invocations {
    /// So many, in Operation Sent from now on.
    pub fn sent(count: usize, clock: u64) -> Invocations {
        let (state, deadline) = (InvocationState::OperationSent, clock + INVOCATION_TIMER);
        let mut invocations = Invocations::default();
        invocations.0[..count].fill(Some(Invocation { state, deadline }));
        invocations
    }

    pub fn get(&self, invoke: u8) -> Option<&Invocation> {
        self.0.get(usize::from(invoke.wrapping_sub(1)))?.as_ref()
    }

    /// Whether one waits for its answer.
    pub fn any_sent(&self) -> bool {
        (1..=MAX_INVOCATIONS as u8).any(|invoke| self.is_sent(invoke))
    }

    fn is_sent(&self, invoke: u8) -> bool {
        self.get(invoke).is_some_and(|own| own.state == InvocationState::OperationSent)
    }

    /// The invocation becomes Idle.
    pub fn end(&mut self, invoke: u8) {
        self.0[usize::from(invoke - 1)] = None;
    }

    /// A result or an error takes an invocation from Operation Sent to Wait for Reject. Whether it
    /// was there.
    fn conclude(&mut self, invoke: u8, clock: u64) -> bool {
        let is_sent = self.is_sent(invoke);
        if is_sent {
            let (state, deadline) = (InvocationState::WaitForReject, clock + REJECT_TIMER);
            self.0[usize::from(invoke - 1)] = Some(Invocation { state, deadline });
        }
        is_sent
    }

    /// All components take effect, also after one that fails (profile).
    pub fn hear(&mut self, components: Elements, offer: &Offer, clock: u64) -> Heard {
        let mut heard = Heard::default();
        for (place, component) in components.map(read_component).enumerate() {
            match component {
                Component::Invoke(invoke) => {
                    match self.problem_of(&invoke, offer, heard.started, place == 0) {
                        Some(problem) => heard.reject(Some(invoke.id), Side::Invoke, problem),
                        None => heard.started = Some(invoke.id),
                    }
                }
                component => self.hear_answer(component, clock, &mut heard),
            }
        }
        heard
    }

    /// A component that answers an own Invoke, or none. A Reject is never answered (profile).
    fn hear_answer(&mut self, component: Component, clock: u64, heard: &mut Heard) {
        match component {
            Component::ResultLast { id } if self.conclude(id, clock) => {}
            Component::ResultNotLast { id } if self.is_sent(id) => {}
            Component::ResultLast { id } | Component::ResultNotLast { id } => {
                heard.reject(Some(id), Side::Result, UNRECOGNIZED_INVOKE_ID);
            }
            Component::Error { id } if self.conclude(id, clock) => heard.has_failed = true,
            Component::Error { id } => heard.reject(Some(id), Side::Error, UNRECOGNIZED_INVOKE_ID),
            Component::Reject { id: Some(id), side: Side::General | Side::Invoke }
                if self.is_sent(id) =>
            {
                self.end(id);
                heard.has_failed = true;
            }
            Component::Bad { id, problem } => heard.reject(id, Side::General, problem),
            Component::Reject { .. } | Component::Ignored | Component::Invoke(_) => {}
        }
    }

    /// The problem of an Invoke, by the checks in their order (profile).
    fn problem_of(
        &self,
        invoke: &Invoke,
        offer: &Offer,
        started: Option<u8>,
        is_first: bool,
    ) -> Option<u8> {
        if [offer.open, started].contains(&Some(invoke.id)) {
            return Some(DUPLICATE_INVOKE_ID);
        }
        match invoke.linked {
            Some(linked) if self.is_sent(linked) => return Some(LINKED_RESPONSE_UNEXPECTED),
            Some(_) => return Some(UNRECOGNIZED_LINKED_ID),
            None => {}
        }
        if invoke.operation.is_none() || invoke.operation != offer.operation {
            return Some(UNRECOGNIZED_OPERATION);
        }
        match is_first && offer.may_start {
            true => Some(MISTYPED_PARAMETER).filter(|_| !offer.is_typed),
            false => Some(RESOURCE_LIMITATION),
        }
    }
}
