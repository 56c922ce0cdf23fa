//! The waiting lines: what the nub asks of them, and the two kinds (docs/RULES.md section 3).

mod first_come;
mod ranked;

pub use first_come::FirstCome;
pub use ranked::Ranked;

/// A set of 48 lines. No thread stands twice in the set.
///
/// The nub asks only for lines that exist and threads that the kind serves, adds only threads
/// that stand nowhere and removes only members; so the operations have no refusals of their own.
pub trait Lines {
    /// How many threads the kind serves.
    const SERVES: u32;

    fn add(&mut self, line: u8, thread: u8);
    fn take(&mut self, line: u8) -> Option<u8>;
    /// As often as `take` finds a member, but in one go: each member in the order of the takes.
    fn take_all(&mut self, line: u8, each: impl FnMut(u8));
    fn remove(&mut self, line: u8, thread: u8);
    fn is_empty(&self, line: u8) -> bool;
}

/// How many lines a set has: 16 for mutexes, 16 for semaphores, 16 for conditions.
const LINES: usize = 48;
