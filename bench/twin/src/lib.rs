//! The nub of docs/RULES.md and the script of docs/SCRIPT.md, read a second time in plain Rust.

mod call;
mod decline;
mod lines;
mod nub;
mod play;
mod report;
mod script;
mod stage;
mod thread;
mod turn;

pub use call::Call;
pub use decline::Decline;
pub use lines::{FirstCome, Lines, Ranked};
pub use nub::{COUNT_LIMIT, Nub, Sizes};
pub use play::{Answer, Entry, perform, play_first_come, play_ranked};
pub use report::{Report, Status};
pub use script::run;
pub use stage::Stage;
