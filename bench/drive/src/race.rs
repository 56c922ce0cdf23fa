//! Times two workers on the same pieces of work in turn, so that both meet the same weather.

use std::iter::Sum;
use std::time::Instant;

/// Nanoseconds of some work.
#[derive(Clone, Copy)]
pub struct Times {
    pub median: f64,
    pub least: f64,
}

#[derive(Clone, Copy)]
pub struct Race {
    pub nub: Times,
    pub twin: Times,
}

impl Race {
    /// The times of one unit of so many.
    pub fn per(self, units: usize) -> Race {
        let each = |times: Times| Times {
            median: times.median / units as f64,
            least: times.least / units as f64,
        };
        Race { nub: each(self.nub), twin: each(self.twin) }
    }
}

/// Does the pieces so many rounds, each time by both, in an order that alternates. Every piece is
/// timed by itself: short times are seldom disturbed. The sum over all pieces.
pub fn race<P>(
    rounds: usize,
    pieces: &[P],
    mut nub: impl FnMut(&P),
    mut twin: impl FnMut(&P),
) -> Race {
    let mut of_nub = vec![Vec::with_capacity(rounds); pieces.len()];
    let mut of_twin = of_nub.clone();
    // The first run of each fills caches and is not counted.
    for piece in pieces {
        nub(piece);
        twin(piece);
    }
    for round in 0..rounds {
        for (number, piece) in pieces.iter().enumerate() {
            if (round + number) % 2 == 0 {
                of_nub[number].push(time(|| nub(piece)));
                of_twin[number].push(time(|| twin(piece)));
            } else {
                of_twin[number].push(time(|| twin(piece)));
                of_nub[number].push(time(|| nub(piece)));
            }
        }
    }
    Race { nub: of_nub.into_iter().map(times).sum(), twin: of_twin.into_iter().map(times).sum() }
}

fn time(work: impl FnOnce()) -> u64 {
    let start = Instant::now();
    work();
    start.elapsed().as_nanos() as u64
}

fn times(mut list: Vec<u64>) -> Times {
    list.sort_unstable();
    Times { median: list[list.len() / 2] as f64, least: list[0] as f64 }
}

impl Sum for Times {
    fn sum<I: Iterator<Item = Times>>(all: I) -> Times {
        let none = Times { median: 0.0, least: 0.0 };
        all.fold(none, |sum, times| Times {
            median: sum.median + times.median,
            least: sum.least + times.least,
        })
    }
}
