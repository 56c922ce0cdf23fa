//! The refusals of build, submission and turn, numbered as in docs/RULES.md section 10.

#[derive(Clone, Copy, PartialEq, Eq, Debug)]
#[repr(u8)]
pub enum Decline {
    NoThread = 1,
    UnderWay = 2,
    NoCall = 3,
    NoObject = 4,
    NotOwner = 5,
    HighCount = 6,
    Idle = 7,
    Build = 8,
}
