//! Which nubs are built: kinds, sizes and start counts, with many at their limits.

use super::Kind;
use crate::random::Random;
use twin::{COUNT_LIMIT, FirstCome, Lines, Ranked, Sizes};

const MOST_OBJECTS: u32 = 16;

impl Kind {
    /// How many threads the kind serves.
    pub fn serves(&self) -> u32 {
        match self {
            Kind::FirstCome => FirstCome::SERVES,
            Kind::Ranked(_) => Ranked::SERVES,
        }
    }
}

pub fn kind(random: &mut Random) -> Kind {
    if random.once_in(2) {
        return Kind::FirstCome;
    }
    // Now and then too few ranks or too many; few different ones, so that there are equals.
    let length = match random.below(8) {
        0 => random.below(33),
        1 => random.between(33, 70),
        _ => 32,
    };
    let highest = random.pick(&[0, 1, 3, 15, 255]);
    Kind::Ranked((0..length).map(|_| random.between(0, highest) as u8).collect())
}

/// Sizes that the build grants.
pub fn sizes(kind: &Kind, random: &mut Random) -> Sizes {
    let most = kind.serves();
    let threads = match random.below(8) {
        0 => random.between(1, 3),
        1 => most,
        2 | 3 => random.between(1, most),
        _ => random.between(2, most.min(12)),
    };
    sizes_for(threads, random)
}

/// Sizes with so many threads.
pub fn sizes_for(threads: u32, random: &mut Random) -> Sizes {
    Sizes {
        threads,
        mutexes: objects(random),
        conditions: objects(random),
        semaphores: objects(random),
        start: start(random),
    }
}

/// Sizes of which one or more is over its limit, or without a thread.
pub fn declined_sizes(kind: &Kind, random: &mut Random) -> Sizes {
    let mut sizes = sizes(kind, random);
    loop {
        let objects = [MOST_OBJECTS + 1, 32, 48, 255, 256, 257, 65_536, u32::MAX];
        let serves = kind.serves();
        match random.below(5) {
            0 => sizes.threads = 0,
            1 => sizes.threads = random.pick(&[serves + 1, 65, 128, 256, 257, 1 << 16, u32::MAX]),
            2 => sizes.mutexes = random.pick(&objects),
            3 => sizes.conditions = random.pick(&objects),
            _ => sizes.semaphores = random.pick(&objects),
        }
        if random.once_in(2) {
            return sizes;
        }
    }
}

/// Few, so that threads contend, but now and then none or all sixteen.
fn objects(random: &mut Random) -> u32 {
    match random.below(16) {
        0 => 0,
        1 => MOST_OBJECTS,
        2 | 3 => random.between(0, MOST_OBJECTS),
        4..=7 => random.between(2, 4),
        _ => random.between(1, 2),
    }
}

fn start(random: &mut Random) -> u32 {
    match random.below(8) {
        0 => COUNT_LIMIT - random.between(1, 3),
        1 => COUNT_LIMIT - random.between(1, 500),
        2 => random.pick(&[COUNT_LIMIT - 1, COUNT_LIMIT, COUNT_LIMIT + 1, u32::MAX - 1, u32::MAX]),
        3 => random.bits() as u32,
        4 => random.pick(&[1, u32::from(u8::MAX), u32::from(u16::MAX), i32::MAX as u32]),
        _ => 0,
    }
}
