//! The comparison of the proved nub with the twin, and how a difference is told.

use crate::proved;
use crate::random::Random;
use crate::schedule::{Kind, Schedule, line, play_twin};
use crate::shrink::shrink;
use std::fmt;
use twin::{Answer, Entry, Sizes};

/// What no answer can be; places that still have it were not written.
const UNTOUCHED: Answer =
    Answer { row: 0xA5A5_A5A5, status: 77, value: 77, action: 77, mask: 0x5A5A_5A5A_5A5A_5A5A };

#[derive(Debug, PartialEq, Eq)]
pub enum Difference {
    /// The builds do not agree.
    Build { twin: u32, nub: u32 },
    /// The answers at a place do not agree.
    Answer { place: usize, twin: Answer, nub: Answer },
    /// The proved nub wrote an answer where it has none to write.
    Stray { place: usize },
}

impl fmt::Display for Difference {
    fn fmt(&self, to: &mut fmt::Formatter) -> fmt::Result {
        match self {
            Difference::Build { twin, nub } => write!(to, "build: twin row {twin}, nub row {nub}"),
            Difference::Answer { place, twin, nub } => {
                write!(to, "event {}\n  twin {twin:?}\n  nub  {nub:?}", place + 1)
            }
            Difference::Stray { place } => write!(to, "answer {} written without cause", place + 1),
        }
    }
}

/// Plays the schedule on the proved nub and compares each answer with the one in the schedule.
/// Now and then there is place for fewer answers than events, or for more.
pub fn compare(schedule: &Schedule, random: &mut Random) -> Result<(), Difference> {
    let length = schedule.entries.len();
    let place = match random.below(16) {
        0 => random.below(length as u32 + 1) as usize,
        1 => length + random.below(9) as usize,
        _ => length,
    };
    let mut answers = vec![UNTOUCHED; length + 16];
    let nub =
        proved::play(&schedule.kind, &schedule.sizes, &schedule.entries, &mut answers[..place]);
    if nub != 0 {
        return Err(Difference::Build { twin: 0, nub });
    }
    let performed = length.min(place);
    for (place, (twin, nub)) in schedule.answers.iter().zip(&answers[..performed]).enumerate() {
        if twin != nub {
            return Err(Difference::Answer { place, twin: *twin, nub: *nub });
        }
    }
    untouched(&answers, performed)
}

/// Asks both for a build that the twin declines, with entries that must not be performed.
pub fn compare_declined(kind: &Kind, sizes: &Sizes) -> Result<(), Difference> {
    let entries = [Entry { turn: 0, thread: 0, code: 9, first: 0, second: 0 }; 4];
    let mut answers = [UNTOUCHED; 4];
    let twin = play_twin(kind, sizes, &entries, &mut answers).map_or_else(|row| row as u32, |()| 0);
    let nub = proved::play(kind, sizes, &entries, &mut answers);
    if twin != nub || nub == 0 {
        return Err(Difference::Build { twin, nub });
    }
    untouched(&answers, 0)
}

fn untouched(answers: &[Answer], from: usize) -> Result<(), Difference> {
    match answers.iter().skip(from).position(|answer| *answer != UNTOUCHED) {
        None => Ok(()),
        Some(place) => Err(Difference::Stray { place: from + place }),
    }
}

/// Where the two first differ on these entries, both played from a new nub.
fn first_difference(kind: &Kind, sizes: &Sizes, entries: &[Entry]) -> Option<usize> {
    let mut twin = vec![UNTOUCHED; entries.len()];
    let mut nub = twin.clone();
    play_twin(kind, sizes, entries, &mut twin).expect("granted sizes");
    proved::play(kind, sizes, entries, &mut nub);
    (0..entries.len()).find(|&place| twin[place] != nub[place])
}

/// A schedule that still differs, in its last event, and from which no single event can be left
/// out; with the difference. None where the two agree when they are played once more.
pub fn shortest(schedule: &Schedule) -> Option<(Schedule, Difference)> {
    let Schedule { kind, sizes, .. } = schedule;
    let first = first_difference(kind, sizes, &schedule.entries)?;
    let mut entries = shrink(&schedule.entries[..=first], |entries| {
        first_difference(kind, sizes, entries).is_some()
    });
    let place = first_difference(kind, sizes, &entries)?;
    entries.truncate(place + 1);
    let mut answers = vec![UNTOUCHED; entries.len()];
    proved::play(kind, sizes, &entries, &mut answers);
    let nub = answers[place];
    play_twin(kind, sizes, &entries, &mut answers).expect("granted sizes");
    let difference = Difference::Answer { place, twin: answers[place], nub };
    Some((Schedule { kind: kind.clone(), sizes: *sizes, entries, answers }, difference))
}

/// The build and the events, each with the twin's answer.
pub fn tell(schedule: &Schedule) -> String {
    let mut text = format!("kind {:?}\n{:?}\n", schedule.kind, schedule.sizes);
    for (entry, answer) in schedule.entries.iter().zip(&schedule.answers) {
        let Answer { row, status, value, action, mask } = answer;
        let answer = match (entry.turn, row) {
            (0, 0) => "ok".to_owned(),
            (_, 0) => format!("T {status} {value} {action} {mask}"),
            _ => format!("row {row}"),
        };
        text += &format!("{:<24} {answer}\n", line(entry));
    }
    text
}
