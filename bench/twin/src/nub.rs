//! The state of the nub, its build and its submissions (docs/RULES.md sections 2, 4 and 10).

use crate::thread::Thread;
use crate::{Call, Decline, Lines, Stage};

pub(crate) const THREADS: usize = 64;
const OBJECTS: usize = 16;

/// A Signal or Broadcast is granted only below this count, so that the count never wraps.
pub const COUNT_LIMIT: u32 = u32::MAX - 63;

/// The line and the bit of semaphore 0; those of mutex 0 are 0.
pub(crate) const SEMAPHORE: u8 = 16;
/// The line of condition 0.
pub(crate) const CONDITION: u8 = 32;

#[derive(Clone, Copy, PartialEq, Eq, Debug)]
#[repr(C)]
pub struct Sizes {
    pub threads: u32,
    pub mutexes: u32,
    pub conditions: u32,
    pub semaphores: u32,
    pub start: u32,
}

#[derive(Clone)]
pub struct Nub<L> {
    pub(crate) lines: L,
    pub(crate) threads: [Thread; THREADS],
    pub(crate) counts: [u32; OBJECTS],
    /// For each condition, the threads between on it whose kept count is its count. As a count
    /// only rises, one that it has passed never becomes current again.
    pub(crate) current: [u64; OBJECTS],
    pub(crate) owners: [Option<u8>; OBJECTS],
    /// The bits of the gates, by the numbers of their lines.
    pub(crate) gates: u32,
    /// The alert flags.
    pub(crate) alerts: u64,
    pub(crate) spin: bool,
    sizes: Sizes,
}

impl<L: Lines> Nub<L> {
    pub fn check(sizes: &Sizes) -> Result<(), Decline> {
        let objects = sizes.mutexes.max(sizes.conditions).max(sizes.semaphores);
        if sizes.threads == 0 || sizes.threads > L::SERVES || objects > OBJECTS as u32 {
            return Err(Decline::Build);
        }
        Ok(())
    }

    pub fn build(lines: L, sizes: &Sizes) -> Result<Nub<L>, Decline> {
        Self::check(sizes)?;
        Ok(Nub {
            lines,
            threads: [Thread::NEW; THREADS],
            counts: [sizes.start; OBJECTS],
            current: [0; OBJECTS],
            owners: [None; OBJECTS],
            gates: 0,
            alerts: 0,
            spin: false,
            sizes: *sizes,
        })
    }

    #[inline]
    pub fn submit(
        &mut self,
        thread: u32,
        code: u32,
        first: u32,
        second: u32,
    ) -> Result<(), Decline> {
        let number = self.thread(thread)?;
        if self.threads[number].stage != Stage::Idle {
            return Err(Decline::UnderWay);
        }
        let call = Call::from_code(code).ok_or(Decline::NoCall)?;
        let Sizes { threads, mutexes, conditions, semaphores, .. } = self.sizes;
        let (mut gate, mut condition, mut target) = (0, 0, 0);
        let stage = match call {
            Call::Acquire => {
                gate = object(first, mutexes)?;
                Stage::Try
            }
            Call::Release => {
                gate = object(first, mutexes)?;
                self.owned(gate, thread)?;
                Stage::Clear
            }
            Call::Wait | Call::AlertWait => {
                gate = object(first, mutexes)?;
                condition = object(second, conditions)?;
                self.owned(gate, thread)?;
                Stage::Read
            }
            Call::Signal | Call::Broadcast => {
                condition = object(first, conditions)?;
                if self.counts[condition as usize % OBJECTS] >= COUNT_LIMIT {
                    return Err(Decline::HighCount);
                }
                Stage::SigSpin
            }
            Call::P | Call::AlertP => {
                gate = SEMAPHORE + object(first, semaphores)?;
                Stage::Try
            }
            Call::V => {
                gate = SEMAPHORE + object(first, semaphores)?;
                Stage::Clear
            }
            Call::Alert => {
                target = object(first, threads)?;
                Stage::Set
            }
            Call::TestAlert => Stage::Swap,
        };
        let record = &mut self.threads[number];
        record.stage = stage;
        record.call = call;
        record.gate = gate;
        record.condition = condition;
        record.target = target;
        Ok(())
    }

    /// The place of the thread's record.
    #[inline]
    pub(crate) fn thread(&self, thread: u32) -> Result<usize, Decline> {
        if thread < self.sizes.threads {
            // The check of the build keeps the number below the array's length already; the
            // remainder tells the compiler so.
            Ok(thread as usize % THREADS)
        } else {
            Err(Decline::NoThread)
        }
    }

    #[inline]
    fn owned(&self, mutex: u8, thread: u32) -> Result<(), Decline> {
        if self.owners[mutex as usize % OBJECTS] == Some(thread as u8) {
            Ok(())
        } else {
            Err(Decline::NotOwner)
        }
    }
}

/// What one may see of a nub from outside, for those that choose what to ask next.
impl<L: Lines> Nub<L> {
    pub fn sizes(&self) -> &Sizes {
        &self.sizes
    }

    pub fn stage(&self, thread: u32) -> Stage {
        self.threads[thread as usize].stage
    }

    /// The call under way, if the thread is not idle.
    pub fn call(&self, thread: u32) -> Option<Call> {
        let thread = &self.threads[thread as usize];
        (thread.stage != Stage::Idle).then_some(thread.call)
    }

    /// The line of the gate of the thread's call.
    pub fn gate(&self, thread: u32) -> u32 {
        self.threads[thread as usize].gate.into()
    }

    /// The condition of the thread's call.
    pub fn condition(&self, thread: u32) -> u32 {
        self.threads[thread as usize].condition.into()
    }

    pub fn alerts(&self) -> u64 {
        self.alerts
    }

    pub fn spin(&self) -> bool {
        self.spin
    }

    pub fn owner(&self, mutex: u32) -> Option<u32> {
        self.owners[mutex as usize].map(u32::from)
    }

    pub fn semaphore_taken(&self, semaphore: u32) -> bool {
        self.gates >> (u32::from(SEMAPHORE) + semaphore) & 1 == 1
    }

    pub fn count(&self, condition: u32) -> u32 {
        self.counts[condition as usize]
    }

    pub fn line_is_empty(&self, line: u32) -> bool {
        self.lines.is_empty(line as u8)
    }
}

#[inline]
fn object(number: u32, limit: u32) -> Result<u8, Decline> {
    if number < limit { Ok(number as u8) } else { Err(Decline::NoObject) }
}
