//! Every move of a turn that docs/RULES.md section 5 allows, by stage and call.

use twin::Call::{self, *};
use twin::Stage::{self, *};

/// The calls that try a gate.
const ENTER: &[Call] = &[Acquire, Wait, P, AlertP, AlertWait];
const ENTER_NO_ALERT: &[Call] = &[Acquire, Wait, P, AlertWait];
/// The calls that free a gate.
const FREE: &[Call] = &[Release, Wait, V, AlertWait];
const FREE_ONLY: &[Call] = &[Release, V];
const WAITS: &[Call] = &[Wait, AlertWait];
const SIGNALS: &[Call] = &[Signal, Broadcast];

/// From a stage, in each of the calls, to each of the stages.
pub const MOVES: &[(Stage, &[Call], &[Stage])] = &[
    (Try, ENTER, &[Idle]),
    (Try, &[AlertP], &[Peek]),
    (Try, ENTER_NO_ALERT, &[LineSpin]),
    (Peek, &[AlertP], &[Idle, LineSpin]),
    (LineSpin, ENTER, &[Add, LineSpin]),
    (Add, ENTER, &[Test]),
    (Test, ENTER, &[Park, Undo]),
    (Park, ENTER, &[Parked]),
    (Parked, ENTER, &[Parked]),
    (Parked, &[AlertP], &[LeaveSpin]),
    (LeaveSpin, &[AlertP], &[Leave, LeaveSpin]),
    (Leave, &[AlertP], &[LeaveOut]),
    (LeaveOut, &[AlertP], &[Peek]),
    (Undo, ENTER, &[UndoOut]),
    (UndoOut, ENTER, &[Try]),
    (Clear, FREE, &[Look]),
    (Look, FREE, &[WakeSpin]),
    (Look, WAITS, &[BlockSpin]),
    (Look, FREE_ONLY, &[Idle]),
    (WakeSpin, FREE, &[Wake, WakeSpin]),
    (Wake, FREE, &[WakeOut]),
    (WakeOut, WAITS, &[BlockSpin]),
    (WakeOut, FREE_ONLY, &[Idle]),
    (Read, WAITS, &[Clear]),
    (BlockSpin, WAITS, &[Compare, BlockSpin]),
    (Compare, WAITS, &[BlockPark, BlockOut]),
    (BlockPark, WAITS, &[Waiting]),
    (Waiting, WAITS, &[Waiting]),
    (Waiting, &[AlertWait], &[QuitSpin]),
    (QuitSpin, &[AlertWait], &[Quit, QuitSpin]),
    (Quit, &[AlertWait], &[BlockOut]),
    (BlockOut, WAITS, &[Try]),
    (Choose, &[AlertWait], &[Try]),
    (SigSpin, SIGNALS, &[Sig, SigSpin]),
    (Sig, SIGNALS, &[SigOut]),
    (SigOut, SIGNALS, &[Idle]),
    (Set, &[Alert], &[Idle]),
    (Swap, &[TestAlert], &[Idle]),
];

/// Where a thread can be when another one takes it from a line.
pub const TAKEN: &[(Stage, &[Call])] =
    &[(Parked, ENTER), (LeaveSpin, &[AlertP]), (Waiting, WAITS), (QuitSpin, &[AlertWait])];

/// Calls whose Wake may find that the line is empty by now.
pub const VAIN_WAKES: &[Call] = FREE;

/// Calls that can finish with value 1.
pub const VALUE_1: &[Call] = &[TestAlert, AlertP, AlertWait];

#[cfg(test)]
mod tests {
    use super::*;
    use std::collections::HashSet;

    #[test]
    fn the_moves_leave_87_pairs() {
        let pairs: HashSet<(u8, u8)> = MOVES
            .iter()
            .flat_map(|(stage, calls, _)| calls.iter().map(|&call| (*stage as u8, call as u8)))
            .collect();
        assert_eq!(pairs.len(), 87);
    }
}
