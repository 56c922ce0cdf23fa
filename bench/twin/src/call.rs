//! The calls, numbered by their codes (docs/RULES.md section 4).

#[derive(Clone, Copy, PartialEq, Eq, Debug)]
#[repr(u8)]
pub enum Call {
    Acquire = 1,
    Release,
    Wait,
    Signal,
    Broadcast,
    P,
    V,
    Alert,
    TestAlert,
    AlertP,
    AlertWait,
}

impl Call {
    /// All calls; the call with code n is at place n - 1.
    pub const ALL: [Call; 11] = [
        Call::Acquire,
        Call::Release,
        Call::Wait,
        Call::Signal,
        Call::Broadcast,
        Call::P,
        Call::V,
        Call::Alert,
        Call::TestAlert,
        Call::AlertP,
        Call::AlertWait,
    ];

    #[inline]
    pub fn from_code(code: u32) -> Option<Call> {
        // Code 0 wraps to a place that is out of range, like the codes over 11.
        Call::ALL.get(code.wrapping_sub(1) as usize).copied()
    }

    #[inline]
    pub fn is_wait(self) -> bool {
        matches!(self, Call::Wait | Call::AlertWait)
    }
}
