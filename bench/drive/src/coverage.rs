//! Coverage: how often each pair of stage and call, action, status and row was met.

mod table;

use std::fmt;
use table::{MOVES, TAKEN, VAIN_WAKES, VALUE_1};
use twin::{Answer, Call, Entry, Lines, Nub, Stage};

const STAGES: usize = 32;
const CODES: usize = 12;
const ACTIONS: usize = 15;
const STATUSES: usize = 4;
const ROWS: usize = 9;
const STATUS_NAMES: [&str; STATUSES] = ["on", "parked", "spun", "finished"];

pub struct Coverage {
    pub events: u64,
    pub turns: u64,
    pub granted: u64,
    /// Granted turns, by stage, call and next stage.
    moves: Box<[[[u64; STAGES]; CODES]; STAGES]>,
    /// Threads taken from a line by others, by their stage and call.
    taken: [[u64; CODES]; STAGES],
    /// Wakes that found nobody, by call.
    vain: [u64; CODES],
    /// Finished calls, by call and value.
    values: [[u64; 2]; CODES],
    actions: [u64; ACTIONS],
    statuses: [u64; STATUSES],
    rows: [u64; ROWS],
    /// Threads freed at Sig: taken from the line, and between.
    freed: [u64; 2],
    most_freed: u32,
    highest_count: u32,
}

/// What a turn will be judged against: the thread's stage and call, and where the turn may move
/// others, the stages of all.
pub struct Before {
    stage: Stage,
    call: Call,
    stages: Option<[Stage; 64]>,
}

impl Coverage {
    pub fn new() -> Coverage {
        Coverage {
            events: 0,
            turns: 0,
            granted: 0,
            moves: Box::new([[[0; STAGES]; CODES]; STAGES]),
            taken: [[0; CODES]; STAGES],
            vain: [0; CODES],
            values: [[0; 2]; CODES],
            actions: [0; ACTIONS],
            statuses: [0; STATUSES],
            rows: [0; ROWS],
            freed: [0; 2],
            most_freed: 0,
            highest_count: 0,
        }
    }

    pub fn declined_build(&mut self) {
        self.rows[8] += 1;
    }

    pub fn before<L: Lines>(&self, nub: &Nub<L>, entry: &Entry) -> Option<Before> {
        if entry.turn == 0 || entry.thread >= nub.sizes().threads {
            return None;
        }
        let stage = nub.stage(entry.thread);
        let others = matches!(stage, Stage::Wake | Stage::Sig);
        Some(Before {
            stage,
            call: nub.call(entry.thread)?,
            stages: others.then(|| std::array::from_fn(|thread| nub.stage(thread as u32))),
        })
    }

    pub fn after<L: Lines>(
        &mut self,
        nub: &Nub<L>,
        entry: &Entry,
        answer: &Answer,
        before: Option<Before>,
    ) {
        self.events += 1;
        self.turns += u64::from(entry.turn != 0);
        self.rows[answer.row as usize] += 1;
        if answer.row != 0 {
            return;
        }
        self.granted += 1;
        let Some(Before { stage, call, stages }) = before else { return };
        let code = call as usize;
        self.moves[stage as usize][code][nub.stage(entry.thread) as usize] += 1;
        self.actions[answer.action as usize] += 1;
        self.statuses[answer.status as usize] += 1;
        if answer.status == 3 {
            self.values[code][answer.value as usize] += 1;
        }
        let Some(stages) = stages else { return };
        let mut taken = 0u64;
        for thread in (0..nub.sizes().threads).filter(|&thread| thread != entry.thread) {
            let was = stages[thread as usize];
            if nub.stage(thread) != was {
                taken |= 1 << thread;
                let call = nub.call(thread).expect("only threads under way are taken");
                self.taken[was as usize][call as usize] += 1;
            }
        }
        if stage == Stage::Wake {
            self.vain[code] += u64::from(taken == 0);
        } else {
            self.freed[0] += u64::from(taken.count_ones());
            self.freed[1] += u64::from((answer.mask & !taken).count_ones());
            self.most_freed = self.most_freed.max(answer.mask.count_ones());
            let count = nub.count(nub.condition(entry.thread));
            self.highest_count = self.highest_count.max(count);
        }
    }

    fn pair(&self, stage: Stage, call: Call) -> u64 {
        self.moves[stage as usize][call as usize].iter().sum()
    }

    /// What ought to have been met and was not, and what was met and ought not.
    pub fn holes(&self) -> Vec<String> {
        let mut holes = Vec::new();
        let mut unexpected = self.moves.clone();
        for &(stage, calls, nexts) in MOVES {
            for &call in calls {
                for &next in nexts {
                    let times = &mut unexpected[stage as usize][call as usize][next as usize];
                    if *times == 0 {
                        holes.push(format!("never met: {stage:?} in {call:?} to {next:?}"));
                    }
                    *times = 0;
                }
            }
        }
        if unexpected.iter().flatten().flatten().any(|&times| times > 0) {
            holes.push("met: a move that the rules do not have".to_owned());
        }
        for &(stage, calls) in TAKEN {
            for &call in calls {
                if self.taken[stage as usize][call as usize] == 0 {
                    holes.push(format!("never met: {call:?} taken at {stage:?}"));
                }
            }
        }
        for &call in VAIN_WAKES {
            if self.vain[call as usize] == 0 {
                holes.push(format!("never met: {call:?} that wakes nobody"));
            }
        }
        for call in Call::ALL {
            if self.values[call as usize][0] == 0 {
                holes.push(format!("never met: {call:?} with value 0"));
            }
            if (self.values[call as usize][1] == 0) == VALUE_1.contains(&call) {
                holes.push(format!("wrong: {call:?} with value 1"));
            }
        }
        let numbered = [
            ("action", &self.actions[..], 1),
            ("status", &self.statuses[..], 0),
            ("row", &self.rows[..], 1),
        ];
        for (name, times, from) in numbered {
            for (number, _) in times.iter().enumerate().skip(from).filter(|(_, times)| **times == 0)
            {
                holes.push(format!("never met: {name} {number}"));
            }
        }
        holes
    }
}

impl Default for Coverage {
    fn default() -> Coverage {
        Coverage::new()
    }
}

impl fmt::Display for Coverage {
    fn fmt(&self, to: &mut fmt::Formatter) -> fmt::Result {
        writeln!(to, "turns granted at each stage, by call")?;
        let mut pairs = 0;
        let mut stages: Vec<Stage> = Vec::new();
        for &(stage, ..) in MOVES {
            if !stages.contains(&stage) {
                stages.push(stage);
            }
        }
        for &stage in &stages {
            write!(to, "  {:<10}", format!("{stage:?}"))?;
            for call in Call::ALL {
                let times = self.pair(stage, call);
                if times > 0 {
                    pairs += 1;
                    write!(to, " {:<18}", format!("{call:?} {times}"))?;
                }
            }
            writeln!(to)?;
        }
        writeln!(to, "  {pairs} pairs of stage and call")?;

        writeln!(to, "threads taken from a line, by stage and call")?;
        for &(stage, calls) in TAKEN {
            write!(to, "  {:<10}", format!("{stage:?}"))?;
            for &call in calls {
                let times = self.taken[stage as usize][call as usize];
                write!(to, " {:<18}", format!("{call:?} {times}"))?;
            }
            writeln!(to)?;
        }
        write!(to, "wakes that found nobody\n ")?;
        for &call in VAIN_WAKES {
            write!(to, " {call:?} {} ", self.vain[call as usize])?;
        }
        let [taken, between] = self.freed;
        writeln!(to, "\nthreads freed by Signal and Broadcast")?;
        writeln!(
            to,
            "  {taken} from the line, {between} between, at most {} in one turn",
            self.most_freed
        )?;
        writeln!(to, "highest count raised to\n  {}", self.highest_count)?;
        writeln!(to, "calls finished, by value 0 and 1")?;
        for call in Call::ALL {
            let [zero, one] = self.values[call as usize];
            writeln!(to, "  {:<10} {zero:>10} {one:>10}", format!("{call:?}"))?;
        }
        write!(to, "actions\n ")?;
        for (action, times) in self.actions.iter().enumerate().skip(1) {
            write!(to, " {action}:{times}")?;
        }
        write!(to, "\nstatuses\n ")?;
        for (name, times) in STATUS_NAMES.iter().zip(self.statuses) {
            write!(to, " {name}:{times}")?;
        }
        write!(to, "\nrows of declines\n ")?;
        for (row, times) in self.rows.iter().enumerate().skip(1) {
            write!(to, " {row}:{times}")?;
        }
        writeln!(to)
    }
}
