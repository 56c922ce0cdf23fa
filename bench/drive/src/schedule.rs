//! Schedules: a build, and a long list of submissions and turns with the twin's answers.

mod author;
mod build;
mod census;
mod mood;
mod refused;

pub use build::{declined_sizes, kind, sizes, sizes_for};

use crate::coverage::Coverage;
use crate::random::Random;
use author::Author;
use twin::{Answer, Decline, Entry, FirstCome, Nub, Ranked, Sizes};

/// The kind of line; ranked with the ranks of the first threads, all others 0.
#[derive(Clone, Debug)]
pub enum Kind {
    FirstCome,
    Ranked(Vec<u8>),
}

#[derive(Clone, Debug)]
pub struct Schedule {
    pub kind: Kind,
    pub sizes: Sizes,
    pub entries: Vec<Entry>,
    pub answers: Vec<Answer>,
}

impl Schedule {
    /// Writes a schedule of about the length, guided by the twin as it goes. It is shorter where
    /// the threads have come to a standstill. The sizes must be such that the build is granted.
    pub fn write(
        kind: Kind,
        sizes: Sizes,
        length: usize,
        random: &mut Random,
        coverage: &mut Coverage,
    ) -> Schedule {
        let (entries, answers) = match &kind {
            Kind::FirstCome => {
                let nub = Nub::build(FirstCome::new(), &sizes).expect("granted sizes");
                Author::new(nub, random, coverage).write(length)
            }
            Kind::Ranked(ranks) => {
                let nub =
                    Nub::build(Ranked::new(&all_ranks(ranks)), &sizes).expect("granted sizes");
                Author::new(nub, random, coverage).write(length)
            }
        };
        Schedule { kind, sizes, entries, answers }
    }

    /// The schedule as a script. Scripts know other ranks, so ranked lines may answer otherwise.
    pub fn script(&self) -> Vec<u8> {
        let mut text = String::new();
        let Sizes { threads, mutexes, conditions, semaphores, start } = self.sizes;
        let letter = if matches!(self.kind, Kind::FirstCome) { 'N' } else { 'K' };
        text += &format!("{letter} {threads} {mutexes} {conditions} {semaphores} {start}\n");
        for entry in &self.entries {
            text += &line(entry);
            text.push('\n');
        }
        text.into_bytes()
    }
}

/// The entry as a line of a script.
pub fn line(entry: &Entry) -> String {
    let Entry { turn, thread, code, first, second } = *entry;
    if turn != 0 { format!("T {thread}") } else { format!("S {thread} {code} {first} {second}") }
}

/// Plays entries on the twin.
pub fn play_twin(
    kind: &Kind,
    sizes: &Sizes,
    entries: &[Entry],
    answers: &mut [Answer],
) -> Result<(), Decline> {
    match kind {
        Kind::FirstCome => twin::play_first_come(sizes, entries, answers),
        Kind::Ranked(ranks) => twin::play_ranked(sizes, ranks, entries, answers),
    }
}

fn all_ranks(ranks: &[u8]) -> [u8; 32] {
    std::array::from_fn(|thread| ranks.get(thread).copied().unwrap_or(0))
}
