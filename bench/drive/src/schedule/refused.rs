//! Events that ought to be refused, of each row that a submission or turn can draw.

use super::census::Census;
use crate::random::Random;
use twin::{COUNT_LIMIT, Entry, Lines, Nub};

/// An event made for one of the rows 1 to 7; it may draw another row, or none, where the nub is
/// not in a state for that one.
pub fn refused<L: Lines>(nub: &Nub<L>, census: &Census, random: &mut Random) -> Entry {
    let sizes = *nub.sizes();
    let some_thread = random.below(sizes.threads);
    let idle = if census.idle == 0 { some_thread } else { random.bit(census.idle) };
    let mut entry = Entry {
        turn: 0,
        thread: idle,
        code: random.between(1, 11),
        first: random.below(17),
        second: random.below(17),
    };
    match random.below(7) {
        0 => {
            entry.turn = random.below(2);
            entry.thread = over(sizes.threads, random);
        }
        1 => {
            let under_way = !census.idle & all(sizes.threads);
            entry.thread = if under_way == 0 { some_thread } else { random.bit(under_way) };
            entry.code = random.below(14);
        }
        2 => {
            let valid = 1 << random.pick(&[8, 16, 31]) | entry.code;
            entry.code = random.pick(&[0, 12, 13, 255, valid, u32::MAX]);
        }
        3 => {
            // One object that the call uses, or both.
            let limit = match entry.code {
                1..=3 | 11 => sizes.mutexes,
                4 | 5 => sizes.conditions,
                6 | 7 | 10 => sizes.semaphores,
                _ => sizes.threads,
            };
            if random.below(3) > 0 {
                entry.first = over(limit, random);
            }
            if random.below(3) > 0 {
                entry.second = over(sizes.conditions, random);
            }
        }
        4 => {
            entry.code = random.pick(&[2, 3, 11]);
            entry.first = random.below(sizes.mutexes.max(1));
            entry.second = random.below(sizes.conditions.max(1));
        }
        5 => {
            let high = (0..sizes.conditions).find(|&number| nub.count(number) >= COUNT_LIMIT);
            entry.code = random.pick(&[4, 5]);
            entry.first = high.unwrap_or_else(|| random.below(sizes.conditions.max(1)));
        }
        _ => entry.turn = 1,
    }
    entry
}

/// A number that is the limit or over it, often one that would be valid were it cut to fewer bits.
fn over(limit: u32, random: &mut Random) -> u32 {
    let low = random.below(limit.max(1));
    match random.below(6) {
        0 => limit,
        1 => limit.max(random.pick(&[16, 17, 31, 32, 47, 48, 63, 64, 65])),
        2 => 1 << random.between(7, 31) | low,
        3 => u32::MAX,
        4 => u32::MAX - low,
        _ => limit.max(random.bits() as u32),
    }
}

fn all(threads: u32) -> u64 {
    u64::MAX >> (64 - threads)
}
