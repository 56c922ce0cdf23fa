//! What the commands compare and measure share: schedules, scripts, coverage and the proved nub.

pub mod arguments;
pub mod coverage;
pub mod difference;
pub mod proved;
pub mod race;
pub mod random;
pub mod scale;
pub mod schedule;
pub mod scripts;
mod shrink;
pub mod track;
