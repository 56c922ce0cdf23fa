//! Lists of events made step by step for one purpose, with the twin to tell where the threads are.

use crate::random::Random;
use twin::{Call, Entry, Lines, Nub, Sizes, Stage};

/// One of each sort of object, and every thread that the kind serves: only lines differ in size.
pub fn sizes<L: Lines>() -> Sizes {
    Sizes { threads: L::SERVES, mutexes: 1, conditions: 1, semaphores: 1, start: 0 }
}

pub struct Track<L> {
    nub: Nub<L>,
    pub entries: Vec<Entry>,
}

impl<L: Lines> Track<L> {
    pub fn new(lines: L) -> Track<L> {
        let nub = Nub::build(lines, &sizes::<L>()).expect("granted sizes");
        Track { nub, entries: Vec::new() }
    }

    /// Object 0 of each sort, except for Alert.
    pub fn submit(&mut self, thread: u32, call: Call) {
        self.submit_on(thread, call, 0);
    }

    pub fn submit_on(&mut self, thread: u32, call: Call, first: u32) {
        self.entries.push(Entry { turn: 0, thread, code: call as u32, first, second: 0 });
        self.nub.submit(thread, call as u32, first, 0).expect("a granted submission");
    }

    pub fn turn(&mut self, thread: u32) {
        self.entries.push(Entry { turn: 1, thread, ..Entry::default() });
        self.nub.turn(thread).expect("a granted turn");
    }

    pub fn run_to(&mut self, thread: u32, stage: Stage) {
        while self.nub.stage(thread) != stage {
            self.turn(thread);
        }
    }

    /// The whole call, which does not have to wait.
    pub fn call(&mut self, thread: u32, call: Call) {
        self.submit(thread, call);
        self.run_to(thread, Stage::Idle);
    }

    pub fn alert(&mut self, thread: u32, target: u32) {
        self.submit_on(thread, Call::Alert, target);
        self.run_to(thread, Stage::Idle);
    }

    /// The threads of these that are at the stage.
    pub fn all_at(&self, threads: &[u32], stage: Stage) -> Vec<u32> {
        threads.iter().copied().filter(|&thread| self.nub.stage(thread) == stage).collect()
    }
}

/// Threads 2 and up, so many of them, in an order without a pattern.
pub fn members(number: u32) -> Vec<u32> {
    let mut list: Vec<u32> = (2..2 + number).collect();
    let random = &mut Random::new(7);
    for place in (1..list.len()).rev() {
        list.swap(place, random.below(place as u32 + 1) as usize);
    }
    list
}
