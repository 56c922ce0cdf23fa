//! The turn: one step of a thread's call (docs/RULES.md section 5).

use crate::nub::{CONDITION, THREADS};
use crate::thread::{Outcome, Thread};
use crate::{Call, Decline, Lines, Nub, Report, Stage};

impl<L: Lines> Nub<L> {
    #[inline]
    pub fn turn(&mut self, thread: u32) -> Result<Report, Decline> {
        let number = self.thread(thread)?;
        let me = number as u8;
        let call = self.threads[number].call;
        let gate = self.threads[number].gate;
        let report = match self.threads[number].stage {
            Stage::Idle => return Err(Decline::Idle),

            Stage::Try if self.gate_is_free(gate) => self.enter(number),
            Stage::Try if call == Call::AlertP => self.go(number, Stage::Peek),
            Stage::Try => self.go(number, Stage::LineSpin),

            Stage::Peek if self.alerted(number) => {
                self.clear_alert(number);
                self.finish(number, 14, true)
            }
            Stage::Peek => self.go(number, Stage::LineSpin),

            Stage::LineSpin => self.lock(number, Stage::Add),
            Stage::Add => {
                self.lines.add(gate, me);
                self.go(number, Stage::Test)
            }
            Stage::Test if self.gate_is_free(gate) => self.go(number, Stage::Undo),
            Stage::Test => self.go(number, Stage::Park),
            Stage::Park => self.unlock(number, Stage::Parked),
            Stage::Parked if call == Call::AlertP && self.alerted(number) => {
                self.go(number, Stage::LeaveSpin)
            }
            Stage::Parked => Report::PARKED,

            Stage::LeaveSpin => self.lock(number, Stage::Leave),
            Stage::Leave => {
                self.lines.remove(gate, me);
                self.go(number, Stage::LeaveOut)
            }
            Stage::LeaveOut => self.unlock(number, Stage::Peek),

            Stage::Undo => {
                self.lines.remove(gate, me);
                self.go(number, Stage::UndoOut)
            }
            Stage::UndoOut => self.unlock(number, Stage::Try),

            Stage::Clear => self.clear(number),
            Stage::Look if !self.lines.is_empty(gate) => self.go(number, Stage::WakeSpin),
            Stage::Look if call.is_wait() => self.go(number, Stage::BlockSpin),
            Stage::Look => self.finish(number, 0, false),
            Stage::WakeSpin => self.lock(number, Stage::Wake),
            Stage::Wake => {
                if let Some(taken) = self.lines.take(gate) {
                    self.threads[taken as usize % THREADS].stage = Stage::Try;
                }
                self.go(number, Stage::WakeOut)
            }
            Stage::WakeOut if call.is_wait() => self.unlock(number, Stage::BlockSpin),
            Stage::WakeOut => {
                self.spin = false;
                self.finish(number, 0, false)
            }

            Stage::Read => {
                let condition = self.condition_of(number);
                self.threads[number].kept = self.counts[condition];
                self.current[condition] |= 1 << number;
                self.threads[number].stage = Stage::Clear;
                Report::on(3)
            }
            Stage::BlockSpin => self.lock(number, Stage::Compare),
            Stage::Compare => self.compare(number),
            Stage::BlockPark => self.unlock(number, Stage::Waiting),
            Stage::Waiting if call == Call::AlertWait && self.alerted(number) => {
                self.go(number, Stage::QuitSpin)
            }
            Stage::Waiting => Report::PARKED,
            Stage::QuitSpin => self.lock(number, Stage::Quit),
            Stage::Quit => {
                self.clear_alert(number);
                self.lines.remove(CONDITION + self.threads[number].condition, me);
                self.threads[number].outcome = Outcome::Alerted;
                self.threads[number].stage = Stage::BlockOut;
                Report { value: true, ..Report::on(5) }
            }
            Stage::BlockOut => self.unlock(number, Stage::Try),
            Stage::Choose => {
                self.threads[number].outcome = Outcome::Signalled;
                self.threads[number].stage = Stage::Try;
                Report::on(5)
            }

            Stage::SigSpin => self.lock(number, Stage::Sig),
            Stage::Sig => self.signal(number),
            Stage::SigOut => {
                self.spin = false;
                self.finish(number, 0, false)
            }

            Stage::Set => {
                self.alerts |= 1 << self.threads[number].target;
                self.finish(number, 11, false)
            }
            Stage::Swap => {
                let was = self.alerted(number);
                self.clear_alert(number);
                self.finish(number, 12, was)
            }
        };
        Ok(report)
    }

    #[inline]
    fn go(&mut self, number: usize, next: Stage) -> Report {
        self.threads[number].stage = next;
        Report::ON
    }

    #[inline]
    fn finish(&mut self, number: usize, action: u8, value: bool) -> Report {
        self.threads[number].finish();
        Report::finished(action, value)
    }

    #[inline]
    fn lock(&mut self, number: usize, next: Stage) -> Report {
        if self.spin {
            return Report::SPUN;
        }
        self.spin = true;
        self.go(number, next)
    }

    #[inline]
    fn unlock(&mut self, number: usize, next: Stage) -> Report {
        self.spin = false;
        self.go(number, next)
    }

    #[inline]
    fn alerted(&self, number: usize) -> bool {
        self.alerts >> number & 1 == 1
    }

    #[inline]
    fn clear_alert(&mut self, number: usize) {
        self.alerts &= !(1 << number);
    }

    #[inline]
    fn gate_is_free(&self, gate: u8) -> bool {
        self.gates >> gate & 1 == 0
    }

    #[inline]
    fn condition_of(&self, number: usize) -> usize {
        self.threads[number].condition as usize % self.counts.len()
    }

    /// Try on a free gate.
    #[inline]
    fn enter(&mut self, number: usize) -> Report {
        let thread = &self.threads[number];
        self.gates |= 1 << thread.gate;
        if let Some(owner) = self.owners.get_mut(thread.gate as usize) {
            *owner = Some(number as u8);
        }
        let value = thread.outcome == Outcome::Alerted;
        let action = match thread.call {
            Call::Wait => 4,
            Call::AlertWait => 6,
            Call::P => 9,
            Call::AlertP => 13,
            _ => 1,
        };
        self.finish(number, action, value)
    }

    #[inline]
    fn clear(&mut self, number: usize) -> Report {
        let thread = &mut self.threads[number];
        thread.stage = Stage::Look;
        self.gates &= !(1 << thread.gate);
        if let Some(owner) = self.owners.get_mut(thread.gate as usize) {
            *owner = None;
        }
        Report::on(match thread.call {
            Call::Release => 2,
            Call::V => 10,
            _ => 0,
        })
    }

    /// The waiter settles whether to stand in the line, so it is no longer between.
    #[inline]
    fn compare(&mut self, number: usize) -> Report {
        let condition = self.condition_of(number);
        self.current[condition] &= !(1 << number);
        let thread = &mut self.threads[number];
        if self.counts[condition] == thread.kept {
            self.lines.add(CONDITION + thread.condition, number as u8);
            return self.go(number, Stage::BlockPark);
        }
        thread.stage = Stage::BlockOut;
        if thread.call == Call::AlertWait {
            thread.outcome = Outcome::Signalled;
            return Report::on(5);
        }
        Report::ON
    }

    #[inline]
    fn signal(&mut self, number: usize) -> Report {
        let condition = self.condition_of(number);
        let Thread { condition: own, call, .. } = self.threads[number];
        let line = CONDITION + own;
        self.counts[condition] += 1;
        // The count has passed all that were between.
        let mut mask = std::mem::take(&mut self.current[condition]);
        let threads = &mut self.threads;
        let mut free = |taken: u8| {
            mask |= 1 << taken;
            let thread = &mut threads[taken as usize % THREADS];
            thread.stage = match thread.call {
                Call::AlertWait => Stage::Choose,
                _ => Stage::Try,
            };
        };
        let action = if call == Call::Broadcast {
            self.lines.take_all(line, free);
            8
        } else {
            if let Some(taken) = self.lines.take(line) {
                free(taken);
            }
            7
        };
        self.threads[number].stage = Stage::SigOut;
        Report { mask, ..Report::on(action) }
    }
}
