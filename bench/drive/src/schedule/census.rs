//! What the threads of a nub would do with a turn now, as masks.

use twin::{Call, Lines, Nub, Stage};

#[derive(Default)]
pub struct Census {
    pub idle: u64,
    /// A turn would change something.
    pub ready: u64,
    /// Ready, but at a stage where the mood lets threads linger.
    pub lingering: u64,
    /// A turn would spin.
    pub spinning: u64,
    /// A turn would find the thread parked still.
    pub asleep: u64,
    /// The thread's call is one that an alert can end.
    pub alertable: u64,
    /// The thread is idle, or will be without having to wait for anything but the spin bit.
    pub free: u64,
}

impl Census {
    /// `linger` has a bit for each stage.
    pub fn take<L: Lines>(nub: &Nub<L>, linger: u32) -> Census {
        let mut census = Census::default();
        for thread in 0..nub.sizes().threads {
            let bit = 1 << thread;
            let stage = nub.stage(thread);
            let Some(call) = nub.call(thread) else {
                census.idle |= bit;
                census.free |= bit;
                continue;
            };
            let alertable = matches!(call, Call::AlertP | Call::AlertWait);
            if alertable {
                census.alertable |= bit;
            }
            let waits = matches!(call, Call::Acquire | Call::P | Call::Wait) || alertable;
            if !waits {
                census.free |= bit;
            }
            let leaves = match stage {
                Stage::Parked => call == Call::AlertP && nub.alerts() & bit != 0,
                Stage::Waiting => call == Call::AlertWait && nub.alerts() & bit != 0,
                _ => true,
            };
            if !leaves {
                census.asleep |= bit;
            } else if nub.spin() && tries_spin(stage) {
                census.spinning |= bit;
            } else if linger >> stage as u32 & 1 == 1 {
                census.lingering |= bit;
            } else {
                census.ready |= bit;
            }
        }
        census
    }

    /// All that are not asleep.
    pub fn awake(&self) -> u64 {
        self.idle | self.ready | self.lingering | self.spinning
    }
}

fn tries_spin(stage: Stage) -> bool {
    matches!(
        stage,
        Stage::LineSpin
            | Stage::LeaveSpin
            | Stage::WakeSpin
            | Stage::BlockSpin
            | Stage::QuitSpin
            | Stage::SigSpin
    )
}
