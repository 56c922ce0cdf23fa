//! The author of a schedule: chooses each event by the state of the twin and the present mood.

use super::census::Census;
use super::mood::Mood;
use super::refused::refused;
use crate::coverage::Coverage;
use crate::random::Random;
use twin::{Answer, COUNT_LIMIT, Call, Entry, Lines, Nub, Sizes, Stage, perform};

/// After so many events in which the threads were at a standstill, a schedule ends.
const STANDSTILL: u32 = 24;

pub struct Author<'a, L> {
    nub: Nub<L>,
    sizes: Sizes,
    random: &'a mut Random,
    coverage: &'a mut Coverage,
    mood: Mood,
    /// How many events of the mood are left.
    left: u32,
    /// How many events in a row found nobody, or one thread alone, awake.
    standstill: u32,
}

impl<'a, L: Lines + Clone> Author<'a, L> {
    pub fn new(nub: Nub<L>, random: &'a mut Random, coverage: &'a mut Coverage) -> Author<'a, L> {
        let sizes = *nub.sizes();
        let mood = Mood::first(&sizes, random);
        let left = mood.length;
        Author { nub, sizes, random, coverage, mood, left, standstill: 0 }
    }

    pub fn write(mut self, length: usize) -> (Vec<Entry>, Vec<Answer>) {
        let mut entries = Vec::with_capacity(length);
        let mut answers = Vec::with_capacity(length);
        while entries.len() < length && self.standstill < STANDSTILL {
            let entry = self.next();
            let before = self.coverage.before(&self.nub, &entry);
            let answer = perform(&mut self.nub, &entry);
            self.coverage.after(&self.nub, &entry, &answer, before);
            entries.push(entry);
            answers.push(answer);
        }
        (entries, answers)
    }

    fn next(&mut self) -> Entry {
        if self.left == 0 {
            self.mood = Mood::pick(&self.sizes, self.random);
            self.left = self.mood.length;
        }
        self.left -= 1;
        let census = Census::take(&self.nub, self.mood.linger);
        let alone = self.sizes.threads > 1 && census.awake().count_ones() == 1;
        if census.awake() == 0 || alone && self.rescue(&census).is_none() {
            self.standstill += 1;
        } else {
            self.standstill = 0;
        }
        if self.random.below(256) < self.mood.refused {
            let entry = refused(&self.nub, &census, self.random);
            // One that is granted after all could lock threads up.
            if self.reckless() || perform(&mut self.nub.clone(), &entry).row != 0 {
                return entry;
            }
        }
        let thread = self.choose(&census);
        if census.idle >> thread & 1 == 1 {
            self.submission(thread, &census)
        } else {
            self.turn(thread)
        }
    }

    fn choose(&mut self, census: &Census) -> u32 {
        if let Some(favourite) = self.mood.favourite
            && census.asleep >> favourite & 1 == 0
            && self.random.below(8) > 0
        {
            return favourite;
        }
        let pace = self.mood.pace;
        let classes = [
            (census.ready, pace.ready),
            (census.idle, pace.idle),
            (census.spinning, pace.spinning),
            (census.asleep, pace.asleep),
            (census.lingering, pace.lingering),
        ];
        let mut weights = classes.map(|(class, weight)| if class == 0 { 0 } else { weight });
        if weights == [0; 5] {
            // Only such are left as the mood would rather leave alone.
            weights = classes.map(|(class, _)| u32::from(class != 0));
        }
        let class = self.random.weighted(&weights);
        self.random.bit(classes[class].0)
    }

    /// A turn. What the entry has beside the thread must not matter, so it is noise at times.
    fn turn(&mut self, thread: u32) -> Entry {
        if !self.random.once_in(16) {
            return Entry { turn: 1, thread, ..Entry::default() };
        }
        Entry {
            turn: self.random.pick(&[2, 256, 1 << 16, 1 << 31, u32::MAX]),
            thread,
            code: self.random.below(13),
            first: self.random.bits() as u32,
            second: self.random.bits() as u32,
        }
    }

    fn submission(&mut self, thread: u32, census: &Census) -> Entry {
        let few = census.awake().count_ones() <= 2;
        if few
            && !self.random.once_in(4)
            && let Some((call, object)) = self.rescue(census)
            // A mutex is released by its owner alone.
            && (call != Call::Release || self.nub.owner(object) == Some(thread))
        {
            return self.entry(thread, call, object, None);
        }
        for _ in 0..8 {
            let code = self.random.weighted(&self.mood.calls) as u32;
            let call = Call::from_code(code).expect("a weight only on calls");
            let Some((first, second)) = self.objects(thread, call, census) else { continue };
            if self.would_stand_still(thread, call, first, census) && !self.random.once_in(1000) {
                continue;
            }
            return self.entry(thread, call, first, second);
        }
        match self.owned(thread) {
            Some(mutex) => self.entry(thread, Call::Release, mutex, None),
            None => self.entry(thread, Call::TestAlert, 0, None),
        }
    }

    /// Objects that the call does not use must not matter, so they are noise at times.
    fn entry(&mut self, thread: u32, call: Call, first: u32, second: Option<u32>) -> Entry {
        let mut unused = || match self.random.below(8) {
            0 => self.random.bits() as u32,
            1 => u32::MAX,
            _ => 0,
        };
        let second = second.unwrap_or_else(&mut unused);
        let first = if call == Call::TestAlert { unused() } else { first };
        Entry { turn: 0, thread, code: call as u32, first, second }
    }

    /// Objects for the call, if there are such that make sense; most often the mood's own.
    fn objects(&mut self, thread: u32, call: Call, census: &Census) -> Option<(u32, Option<u32>)> {
        let Sizes { threads, mutexes, conditions, semaphores, .. } = self.sizes;
        match call {
            Call::Acquire => {
                let mutex = self.one_of(mutexes, self.mood.mutex)?;
                // Upwards only, or threads that hold one and want another lock each other up.
                let upwards = (mutex..mutexes).all(|held| self.nub.owner(held) != Some(thread));
                (upwards || self.reckless()).then_some((mutex, None))
            }
            Call::Release => Some((self.owned(thread)?, None)),
            Call::Wait | Call::AlertWait => {
                let mutex = self.owned(thread)?;
                let condition = self.one_of(conditions, self.mood.condition)?;
                // Nobody can signal it any more.
                let dead = self.nub.count(condition) >= COUNT_LIMIT && call == Call::Wait;
                // The way back to the mutex has to be upwards too.
                let upwards = (mutex + 1..mutexes).all(|held| self.nub.owner(held) != Some(thread));
                (upwards && !dead || self.reckless()).then_some((mutex, Some(condition)))
            }
            Call::Signal | Call::Broadcast => {
                let condition = self.one_of(conditions, self.mood.condition)?;
                let high = self.nub.count(condition) >= COUNT_LIMIT;
                (!high || self.random.once_in(8)).then_some((condition, None))
            }
            Call::P | Call::V | Call::AlertP => {
                Some((self.one_of(semaphores, self.mood.semaphore)?, None))
            }
            Call::Alert => {
                let some = census.alertable == 0 || self.random.once_in(4);
                let target = if some {
                    self.random.below(threads)
                } else {
                    self.random.bit(census.alertable)
                };
                Some((target, None))
            }
            Call::TestAlert => Some((0, None)),
        }
    }

    /// Whether to do what may lock threads up for good.
    fn reckless(&mut self) -> bool {
        self.mood.reckless && self.random.once_in(16)
    }

    fn one_of(&mut self, number: u32, own: u32) -> Option<u32> {
        if number == 0 {
            return None;
        }
        let stray = self.random.below(256) < self.mood.stray;
        Some(if stray { self.random.below(number) } else { own })
    }

    /// A mutex that the thread owns.
    fn owned(&mut self, thread: u32) -> Option<u32> {
        let mut mask = 0;
        for mutex in 0..self.sizes.mutexes {
            if self.nub.owner(mutex) == Some(thread) {
                mask |= 1 << mutex;
            }
        }
        if mask == 0 { None } else { Some(self.random.bit(mask)) }
    }

    /// Whether the last thread that is free to help others would fall asleep too.
    fn would_stand_still(&self, thread: u32, call: Call, first: u32, census: &Census) -> bool {
        let flag = self.nub.alerts() >> thread & 1 == 1;
        census.free.count_ones() == 1
            && match call {
                Call::Acquire => self.nub.owner(first).is_some(),
                Call::P => self.nub.semaphore_taken(first),
                Call::AlertP => self.nub.semaphore_taken(first) && !flag,
                Call::Wait => true,
                Call::AlertWait => !flag,
                _ => false,
            }
    }

    /// A call, with its first object, that would help one of the sleepers on.
    fn rescue(&mut self, census: &Census) -> Option<(Call, u32)> {
        if census.asleep == 0 {
            return None;
        }
        for _ in 0..4 {
            let sleeper = self.random.bit(census.asleep);
            let alertable = census.alertable >> sleeper & 1 == 1;
            if self.nub.stage(sleeper) == Stage::Waiting {
                let condition = self.nub.condition(sleeper);
                let dead = self.nub.count(condition) >= COUNT_LIMIT;
                if alertable && (dead || self.random.once_in(4)) {
                    return Some((Call::Alert, sleeper));
                }
                if !dead {
                    let call = self.random.pick(&[Call::Signal, Call::Signal, Call::Broadcast]);
                    return Some((call, condition));
                }
                continue;
            }
            let gate = self.nub.gate(sleeper);
            if gate < 16 {
                if self.nub.owner(gate).is_some_and(|owner| census.awake() >> owner & 1 == 1) {
                    return Some((Call::Release, gate));
                }
                continue;
            }
            // An AlertWait parks on a mutex alone, so who is alertable here is an AlertP.
            if alertable && self.random.once_in(4) {
                return Some((Call::Alert, sleeper));
            }
            return Some((Call::V, gate - 16));
        }
        None
    }
}
