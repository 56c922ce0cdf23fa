//! A list of submissions and turns performed in one go, with one answer for each.

use crate::{Decline, FirstCome, Lines, Nub, Ranked, Report, Sizes};

/// A submission where `turn` is 0, else a turn of `thread`.
#[derive(Clone, Copy, PartialEq, Eq, Debug, Default)]
#[repr(C)]
pub struct Entry {
    pub turn: u32,
    pub thread: u32,
    pub code: u32,
    pub first: u32,
    pub second: u32,
}

/// `row` is 0 where it was granted; the rest is the report of a granted turn, else 0.
#[derive(Clone, Copy, PartialEq, Eq, Debug, Default)]
#[repr(C)]
pub struct Answer {
    pub row: u32,
    pub status: u32,
    pub value: u32,
    pub action: u32,
    pub mask: u64,
}

impl From<Decline> for Answer {
    #[inline]
    fn from(decline: Decline) -> Answer {
        Answer { row: decline as u32, ..Answer::default() }
    }
}

impl From<Report> for Answer {
    #[inline]
    fn from(report: Report) -> Answer {
        let Report { status, value, action, mask } = report;
        Answer { row: 0, status: status as u32, value: value.into(), action: action.into(), mask }
    }
}

#[inline]
pub fn perform<L: Lines>(nub: &mut Nub<L>, entry: &Entry) -> Answer {
    if entry.turn != 0 {
        return nub.turn(entry.thread).map_or_else(Answer::from, Answer::from);
    }
    match nub.submit(entry.thread, entry.code, entry.first, entry.second) {
        Ok(()) => Answer::default(),
        Err(decline) => decline.into(),
    }
}

/// Performs as many entries as the answers have place for.
pub fn play_first_come(
    sizes: &Sizes,
    entries: &[Entry],
    answers: &mut [Answer],
) -> Result<(), Decline> {
    play(Nub::build(FirstCome::new(), sizes)?, entries, answers);
    Ok(())
}

/// Thread n has the rank at place n, and 0 where there is no such place.
pub fn play_ranked(
    sizes: &Sizes,
    ranks: &[u8],
    entries: &[Entry],
    answers: &mut [Answer],
) -> Result<(), Decline> {
    // Checked first, so that a declined build spares the ordering of the ranks.
    Nub::<Ranked>::check(sizes)?;
    let lines = Ranked::new(&std::array::from_fn(|thread| ranks.get(thread).copied().unwrap_or(0)));
    play(Nub::build(lines, sizes)?, entries, answers);
    Ok(())
}

fn play<L: Lines>(mut nub: Nub<L>, entries: &[Entry], answers: &mut [Answer]) {
    for (entry, answer) in entries.iter().zip(answers) {
        *answer = perform(&mut nub, entry);
    }
}
