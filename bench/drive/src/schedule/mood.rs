//! Moods: what a stretch of a schedule is about.

use crate::random::Random;
use twin::{Sizes, Stage};

/// How often a thread of each class gets the turn.
#[derive(Clone, Copy)]
pub struct Pace {
    pub ready: u32,
    pub idle: u32,
    pub spinning: u32,
    pub asleep: u32,
    pub lingering: u32,
}

const EVEN: Pace = Pace { ready: 24, idle: 8, spinning: 2, asleep: 1, lingering: 1 };

#[derive(Clone)]
pub struct Mood {
    /// How often each call is submitted, by its code.
    pub calls: [u32; 12],
    /// Stages, as bits, at which threads are mostly left alone.
    pub linger: u32,
    pub pace: Pace,
    /// In 256, how often the event is one that ought to be refused.
    pub refused: u32,
    /// In 256, how often a call takes another object than the mood's own.
    pub stray: u32,
    /// Whether threads may ask for mutexes in an order that can lock them up for good.
    pub reckless: bool,
    /// A thread that gets most turns.
    pub favourite: Option<u32>,
    pub mutex: u32,
    pub condition: u32,
    pub semaphore: u32,
    /// How many events the mood lasts.
    pub length: u32,
}

const fn stages(list: &[Stage]) -> u32 {
    let mut mask = 0;
    let mut place = 0;
    while place < list.len() {
        mask |= 1 << list[place] as u32;
        place += 1;
    }
    mask
}

/// Before a waiter has settled whether to stand in the line; its mutex is free already.
const BETWEEN: u32 = stages(&[Stage::Look, Stage::WakeSpin, Stage::BlockSpin]);
/// The waiter still holds its mutex.
const HOLDING: u32 = stages(&[Stage::Read, Stage::Clear]);
/// On the way out after an alert, or just taken.
const LEAVING: u32 =
    stages(&[Stage::LeaveSpin, Stage::QuitSpin, Stage::Peek, Stage::Choose, Stage::Try]);
/// In the line, but the bit of the gate not tested yet.
const JOINING: u32 = stages(&[Stage::Add, Stage::Test]);
/// About to wake somebody.
const WAKING: u32 = stages(&[Stage::Look, Stage::WakeSpin]);
const SIGNALLING: u32 = stages(&[Stage::SigSpin]);
const HOLDING_SPIN: u32 = stages(&[
    Stage::Add,
    Stage::Test,
    Stage::Park,
    Stage::Leave,
    Stage::LeaveOut,
    Stage::Undo,
    Stage::UndoOut,
    Stage::Wake,
    Stage::WakeOut,
    Stage::Compare,
    Stage::BlockPark,
    Stage::Quit,
    Stage::BlockOut,
    Stage::Sig,
    Stage::SigOut,
]);

/// How many moods there are, and the numbers of two of them.
const MOODS: u32 = 12;
const FLOOD: u32 = 5;
const GATHERING: u32 = 10;

impl Mood {
    pub fn pick(sizes: &Sizes, random: &mut Random) -> Mood {
        let number = random.below(MOODS);
        Mood::new(number, sizes, random)
    }

    /// The mood to begin with. While all threads are idle still, more often one that takes them all.
    pub fn first(sizes: &Sizes, random: &mut Random) -> Mood {
        let any = random.below(MOODS);
        let number = random.pick(&[any, any, FLOOD, GATHERING]);
        Mood::new(number, sizes, random)
    }

    fn new(number: u32, sizes: &Sizes, random: &mut Random) -> Mood {
        let mut one = |number: u32| if number == 0 { 0 } else { random.below(number) };
        let mut mood = Mood {
            calls: [0, 4, 4, 4, 4, 2, 4, 4, 3, 1, 4, 4],
            linger: 0,
            pace: EVEN,
            refused: 4,
            stray: 16,
            reckless: false,
            favourite: None,
            mutex: one(sizes.mutexes),
            condition: one(sizes.conditions),
            semaphore: one(sizes.semaphores),
            length: 0,
        };
        // Longer with many threads, so that their lines have time to grow.
        mood.length = random.between(20, 100 + 12 * sizes.threads);
        // Calls, by code: - Acquire Release Wait Signal Broadcast P V Alert TestAlert AlertP
        // AlertWait.
        match number {
            0 => {
                // All crowd at one mutex.
                mood.calls = [0, 12, 8, 1, 1, 0, 0, 0, 1, 1, 0, 1];
                mood.stray = 2;
            }
            1 => {
                // Producers and consumers.
                mood.calls = [0, 8, 4, 6, 5, 2, 0, 0, 2, 1, 0, 6];
            }
            2 => {
                // Semaphores and alerts.
                mood.calls = [0, 0, 1, 0, 0, 0, 4, 5, 5, 1, 8, 0];
            }
            3 => {
                // Noise.
                mood.calls = [0, 4, 4, 4, 4, 4, 4, 4, 4, 4, 4, 4];
                mood.pace = Pace { asleep: 4, ..EVEN };
                mood.refused = 80;
                mood.stray = 256;
                mood.reckless = random.once_in(4);
            }
            4 => {
                // Waiters dawdle before they stand in the line, and signals come.
                mood.calls = [0, 8, 2, 6, 8, 4, 0, 0, 2, 1, 0, 6];
                mood.linger = if random.once_in(2) { BETWEEN } else { BETWEEN | HOLDING };
            }
            FLOOD => {
                // Signals of all threads at once: none goes on before every thread has its own.
                mood.calls = [0, 0, 0, 0, 12, 4, 0, 0, 0, 0, 0, 0];
                mood.pace = Pace { lingering: 0, ..EVEN };
                mood.linger = SIGNALLING;
                mood.refused = 0;
                mood.stray = 0;
            }
            6 => {
                // Alerts against signals: threads dawdle on their way out.
                mood.calls = [0, 6, 2, 1, 4, 1, 2, 5, 10, 1, 8, 8];
                mood.linger = LEAVING;
            }
            7 => {
                // Whoever holds the spin bit dawdles, and the others spin.
                mood.pace = Pace { spinning: 16, ..EVEN };
                mood.linger = HOLDING_SPIN;
            }
            8 => {
                // Gates are freed while others join the line.
                mood.calls = [0, 10, 8, 2, 2, 1, 6, 8, 2, 1, 6, 2];
                mood.linger = JOINING;
            }
            9 => {
                // Lines change while others are about to wake somebody.
                mood.calls = [0, 10, 8, 3, 3, 1, 4, 8, 6, 1, 6, 3];
                mood.linger = WAKING;
            }
            GATHERING => {
                // Waiters gather, until too few are left awake.
                mood.calls = [0, 8, 0, 12, 0, 0, 0, 0, 0, 0, 0, 8];
                mood.stray = 0;
                mood.length = 24 * sizes.threads;
            }
            _ => {
                // One thread runs, the others hardly move.
                mood.favourite = Some(random.below(sizes.threads));
            }
        }
        mood
    }
}
