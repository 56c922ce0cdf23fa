//! Ranked lines: each line is a set of places, and the places are in the order of ranks.

use super::{LINES, Lines};

const THREADS: usize = 32;

#[derive(Clone)]
pub struct Ranked {
    /// One bit for each place; the lowest bit of a line is the next to take.
    lines: [u32; LINES],
    /// The place of each thread: higher ranks first, then lower threads.
    places: [u8; THREADS],
    /// The thread at each place.
    threads: [u8; THREADS],
}

impl Ranked {
    pub fn new(ranks: &[u8; THREADS]) -> Ranked {
        // Rank, turned round, above the thread's number: plain numbers sort fast.
        let mut keys: [u16; THREADS] =
            std::array::from_fn(|thread| u16::from(!ranks[thread]) << 8 | thread as u16);
        keys.sort_unstable();
        let threads = keys.map(|key| key as u8);
        let mut places = [0; THREADS];
        for (place, &thread) in threads.iter().enumerate() {
            places[thread as usize % THREADS] = place as u8;
        }
        Ranked { lines: [0; LINES], places, threads }
    }

    #[inline]
    fn bit(&self, thread: u8) -> u32 {
        1 << self.places[thread as usize % THREADS]
    }
}

impl Lines for Ranked {
    const SERVES: u32 = THREADS as u32;

    #[inline]
    fn add(&mut self, line: u8, thread: u8) {
        self.lines[line as usize] |= self.bit(thread);
    }

    #[inline]
    fn take(&mut self, line: u8) -> Option<u8> {
        let members = &mut self.lines[line as usize];
        if *members == 0 {
            return None;
        }
        let place = members.trailing_zeros();
        *members &= *members - 1;
        Some(self.threads[place as usize % THREADS])
    }

    #[inline]
    fn take_all(&mut self, line: u8, mut each: impl FnMut(u8)) {
        let mut members = std::mem::take(&mut self.lines[line as usize]);
        while members != 0 {
            each(self.threads[members.trailing_zeros() as usize % THREADS]);
            members &= members - 1;
        }
    }

    #[inline]
    fn remove(&mut self, line: u8, thread: u8) {
        self.lines[line as usize] &= !self.bit(thread);
    }

    #[inline]
    fn is_empty(&self, line: u8) -> bool {
        self.lines[line as usize] == 0
    }
}
