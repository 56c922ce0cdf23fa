//! What a granted turn tells (docs/RULES.md section 5).

#[derive(Clone, Copy, PartialEq, Eq, Debug)]
#[repr(u8)]
pub enum Status {
    On = 0,
    Parked = 1,
    Spun = 2,
    Finished = 3,
}

/// Small enough to be returned in registers, decline or not.
#[derive(Clone, Copy, PartialEq, Eq, Debug)]
pub struct Report {
    pub status: Status,
    pub value: bool,
    pub action: u8,
    pub mask: u64,
}

impl Report {
    /// The call goes on and no published action was done.
    pub const ON: Report = Report { status: Status::On, value: false, action: 0, mask: 0 };
    pub const PARKED: Report = Report { status: Status::Parked, ..Report::ON };
    pub const SPUN: Report = Report { status: Status::Spun, ..Report::ON };

    #[inline]
    pub fn on(action: u8) -> Report {
        Report { action, ..Report::ON }
    }

    #[inline]
    pub fn finished(action: u8, value: bool) -> Report {
        Report { status: Status::Finished, value, action, mask: 0 }
    }
}
