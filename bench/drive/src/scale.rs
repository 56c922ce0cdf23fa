//! Work whose cost may grow with the members of a line: cycles to repeat, and single turns.

use crate::track::{Track, members};
use twin::{Call, Entry, Lines, Stage};

/// Entries that bring about a state, and then the work to be measured.
pub struct Work {
    pub entries: Vec<Entry>,
    /// How many of the entries bring about the state.
    pub before: usize,
    /// How often the work is done.
    pub times: usize,
}

/// Threads that do the work; the members of the lines are others.
const WORKER: u32 = 0;
const ALERTER: u32 = 1;

const CYCLES: usize = 500;

/// A name, how many members it needs at least, and how to make it.
pub struct Kind<L> {
    pub name: &'static str,
    pub least: u32,
    pub make: fn(L, u32) -> Work,
}

/// Cycles that end in the state in which they began.
pub fn cycles<L: Lines>() -> Vec<Kind<L>> {
    vec![
        Kind { name: "turn of a parked member", least: 1, make: parked },
        Kind { name: "Release wakes one, it parks again", least: 0, make: wake },
        Kind { name: "last AlertP leaves, joins again", least: 1, make: |l, k| leave(l, k, false) },
        Kind { name: "first AlertP leaves, joins again", least: 1, make: |l, k| leave(l, k, true) },
        Kind {
            name: "last AlertWait quits, waits again",
            least: 1,
            make: |l, k| quit(l, k, false),
        },
        Kind {
            name: "first AlertWait quits, waits again",
            least: 1,
            make: |l, k| quit(l, k, true),
        },
        Kind {
            name: "Signal frees one, it waits again",
            least: 0,
            make: |l, k| signal(l, k, Call::Signal),
        },
        Kind {
            name: "Broadcast frees all, they wait again",
            least: 0,
            make: |l, k| signal(l, k, Call::Broadcast),
        },
        Kind { name: "Signal with so many between", least: 0, make: between },
    ]
}

/// One turn each, at the end of the entries.
pub fn turns<L: Lines>() -> Vec<Kind<L>> {
    vec![
        Kind { name: "Add behind k", least: 0, make: |l, k| join(l, k, Stage::Add) },
        Kind { name: "Undo behind k", least: 0, make: undo },
        Kind { name: "Look at k", least: 0, make: |l, k| release(l, k, Stage::Look) },
        Kind { name: "Wake, takes one of k", least: 1, make: |l, k| release(l, k, Stage::Wake) },
        Kind { name: "Leave, the last of k", least: 1, make: |l, k| go_away(l, k, false) },
        Kind { name: "Leave, the first of k", least: 1, make: |l, k| go_away(l, k, true) },
        Kind {
            name: "Compare, stands behind k",
            least: 0,
            make: |l, k| wait_behind(l, k, Stage::Compare),
        },
        Kind { name: "Quit, the last of k", least: 1, make: |l, k| quit_once(l, k, false) },
        Kind { name: "Quit, the first of k", least: 1, make: |l, k| quit_once(l, k, true) },
        Kind {
            name: "Sig of a Signal, takes one of k",
            least: 0,
            make: |l, k| signal_once(l, k, Call::Signal),
        },
        Kind {
            name: "Sig of a Broadcast, takes all k",
            least: 0,
            make: |l, k| signal_once(l, k, Call::Broadcast),
        },
        Kind { name: "Sig of a Signal, k between", least: 0, make: between_once },
    ]
}

/// The worker has the gate, and so many stand in its line.
fn crowd<L: Lines>(lines: L, number: u32, enter: Call) -> (Track<L>, Vec<u32>) {
    let mut track = Track::new(lines);
    let members = members(number);
    track.call(WORKER, if enter == Call::Acquire { Call::Acquire } else { Call::P });
    for &member in &members {
        track.submit(member, enter);
        track.run_to(member, Stage::Parked);
    }
    (track, members)
}

/// So many stand in the line of the condition, and the mutex is free.
fn waiters<L: Lines>(lines: L, number: u32, wait: Call) -> (Track<L>, Vec<u32>) {
    let mut track = Track::new(lines);
    let members = members(number);
    for &member in &members {
        track.call(member, Call::Acquire);
        wait_again(&mut track, member, wait);
    }
    (track, members)
}

fn wait_again<L: Lines>(track: &mut Track<L>, thread: u32, wait: Call) {
    track.submit(thread, wait);
    track.run_to(thread, Stage::Waiting);
}

fn repeat<L: Lines>(mut track: Track<L>, mut cycle: impl FnMut(&mut Track<L>, usize)) -> Work {
    let before = track.entries.len();
    for time in 0..CYCLES {
        cycle(&mut track, time);
    }
    Work { entries: track.entries, before, times: CYCLES }
}

/// The turn of the thread at the stage is the work.
fn once<L: Lines>(mut track: Track<L>, thread: u32, stage: Stage) -> Work {
    track.run_to(thread, stage);
    let before = track.entries.len();
    track.turn(thread);
    Work { entries: track.entries, before, times: 1 }
}

fn parked<L: Lines>(lines: L, number: u32) -> Work {
    let (track, members) = crowd(lines, number, Call::Acquire);
    repeat(track, |track, time| track.turn(members[time % members.len()]))
}

fn wake<L: Lines>(lines: L, number: u32) -> Work {
    let (track, members) = crowd(lines, number, Call::Acquire);
    repeat(track, |track, _| {
        track.call(WORKER, Call::Release);
        track.call(WORKER, Call::Acquire);
        for woken in track.all_at(&members, Stage::Try) {
            track.run_to(woken, Stage::Parked);
        }
    })
}

fn leave<L: Lines>(lines: L, number: u32, first: bool) -> Work {
    let (track, members) = crowd(lines, number, Call::AlertP);
    repeat(track, |track, time| {
        let place = if first { time % members.len() } else { members.len() - 1 };
        let member = members[place];
        track.alert(ALERTER, member);
        track.run_to(member, Stage::Idle);
        track.submit(member, Call::AlertP);
        track.run_to(member, Stage::Parked);
    })
}

fn quit<L: Lines>(lines: L, number: u32, first: bool) -> Work {
    let (track, members) = waiters(lines, number, Call::AlertWait);
    repeat(track, |track, time| {
        let place = if first { time % members.len() } else { members.len() - 1 };
        let member = members[place];
        track.alert(ALERTER, member);
        track.run_to(member, Stage::Idle);
        wait_again(track, member, Call::AlertWait);
    })
}

fn signal<L: Lines>(lines: L, number: u32, call: Call) -> Work {
    let (track, members) = waiters(lines, number, Call::Wait);
    repeat(track, |track, _| {
        track.call(WORKER, call);
        for freed in track.all_at(&members, Stage::Try) {
            track.run_to(freed, Stage::Idle);
            wait_again(track, freed, Call::Wait);
        }
    })
}

/// Threads between, whose mutex is free again.
fn start_waits<L: Lines>(lines: L, number: u32) -> Track<L> {
    let mut track = Track::new(lines);
    for member in members(number) {
        track.call(member, Call::Acquire);
        track.submit(member, Call::Wait);
        track.run_to(member, Stage::Look);
    }
    track
}

fn between<L: Lines>(lines: L, number: u32) -> Work {
    repeat(start_waits(lines, number), |track, _| track.call(WORKER, Call::Signal))
}

fn join<L: Lines>(lines: L, number: u32, stage: Stage) -> Work {
    let (mut track, _) = crowd(lines, number, Call::Acquire);
    track.submit(ALERTER, Call::Acquire);
    once(track, ALERTER, stage)
}

fn undo<L: Lines>(lines: L, number: u32) -> Work {
    let (mut track, _) = crowd(lines, number, Call::Acquire);
    track.submit(ALERTER, Call::Acquire);
    track.run_to(ALERTER, Stage::Test);
    track.submit(WORKER, Call::Release);
    track.run_to(WORKER, Stage::Look);
    once(track, ALERTER, Stage::Undo)
}

fn release<L: Lines>(lines: L, number: u32, stage: Stage) -> Work {
    let (mut track, _) = crowd(lines, number, Call::Acquire);
    track.submit(WORKER, Call::Release);
    once(track, WORKER, stage)
}

fn go_away<L: Lines>(lines: L, number: u32, first: bool) -> Work {
    let (mut track, members) = crowd(lines, number, Call::AlertP);
    let member = members[if first { 0 } else { members.len() - 1 }];
    track.alert(ALERTER, member);
    once(track, member, Stage::Leave)
}

fn wait_behind<L: Lines>(lines: L, number: u32, stage: Stage) -> Work {
    let (mut track, _) = waiters(lines, number, Call::Wait);
    track.call(WORKER, Call::Acquire);
    track.submit(WORKER, Call::Wait);
    once(track, WORKER, stage)
}

fn quit_once<L: Lines>(lines: L, number: u32, first: bool) -> Work {
    let (mut track, members) = waiters(lines, number, Call::AlertWait);
    let member = members[if first { 0 } else { members.len() - 1 }];
    track.alert(ALERTER, member);
    once(track, member, Stage::Quit)
}

fn signal_once<L: Lines>(lines: L, number: u32, call: Call) -> Work {
    let (mut track, _) = waiters(lines, number, Call::Wait);
    track.submit(WORKER, call);
    once(track, WORKER, Stage::Sig)
}

fn between_once<L: Lines>(lines: L, number: u32) -> Work {
    let mut track = start_waits(lines, number);
    track.submit(WORKER, Call::Signal);
    once(track, WORKER, Stage::Sig)
}
