//! The record of one thread.

use crate::{Call, Stage};

#[derive(Clone, Copy, PartialEq, Eq, Debug)]
#[repr(u8)]
pub enum Outcome {
    None,
    Signalled,
    Alerted,
}

#[derive(Clone, Copy, Debug)]
pub struct Thread {
    /// The count of a condition as the thread last read it.
    pub kept: u32,
    pub stage: Stage,
    /// The call under way; what an idle thread has here means nothing.
    pub call: Call,
    /// The gate of the call, by the number of its line; mutexes first.
    pub gate: u8,
    /// The condition of the call.
    pub condition: u8,
    /// The thread that the call alerts.
    pub target: u8,
    pub outcome: Outcome,
}

impl Thread {
    pub const NEW: Thread = Thread {
        kept: 0,
        stage: Stage::Idle,
        call: Call::Acquire,
        gate: 0,
        condition: 0,
        target: 0,
        outcome: Outcome::None,
    };

    #[inline]
    pub fn finish(&mut self) {
        self.stage = Stage::Idle;
        self.outcome = Outcome::None;
    }
}
