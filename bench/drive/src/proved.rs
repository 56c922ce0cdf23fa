//! The proved nub, by its static library (embed/lishabon.h).

use crate::schedule::Kind;
use twin::{Answer, Entry, Sizes};

unsafe extern "C" {
    fn lishabon_play_first_come(
        sizes: *const Sizes,
        entries: *const Entry,
        entries_len: usize,
        answers: *mut Answer,
        answers_len: usize,
    ) -> u32;

    fn lishabon_play_ranked(
        sizes: *const Sizes,
        ranks: *const u8,
        ranks_len: usize,
        entries: *const Entry,
        entries_len: usize,
        answers: *mut Answer,
        answers_len: usize,
    ) -> u32;

    fn lishabon_script(
        input: *const u8,
        input_len: usize,
        output: *mut u8,
        output_len: usize,
    ) -> usize;
}

/// Builds a nub and performs the entries that the answers have place for. The row of the build's
/// decline, or 0.
pub fn play(kind: &Kind, sizes: &Sizes, entries: &[Entry], answers: &mut [Answer]) -> u32 {
    // Each pointer comes from a borrow that lasts over the call, with the length of that borrow,
    // and the three structs are laid out as in C.
    match kind {
        Kind::FirstCome => unsafe {
            lishabon_play_first_come(
                sizes,
                entries.as_ptr(),
                entries.len(),
                answers.as_mut_ptr(),
                answers.len(),
            )
        },
        Kind::Ranked(ranks) => unsafe {
            lishabon_play_ranked(
                sizes,
                ranks.as_ptr(),
                ranks.len(),
                entries.as_ptr(),
                entries.len(),
                answers.as_mut_ptr(),
                answers.len(),
            )
        },
    }
}

/// Runs a script, and writes as much as the output has place for. The length of all that the
/// script writes; none where there was no memory.
pub fn script(input: &[u8], output: &mut [u8]) -> Option<usize> {
    // As above.
    let length =
        unsafe { lishabon_script(input.as_ptr(), input.len(), output.as_mut_ptr(), output.len()) };
    (length != usize::MAX).then_some(length)
}
