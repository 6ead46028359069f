//! What calls take and answer. Times, volumes, rates and delays are whole
//! numbers in units of the caller's choice, within document 01's limits.

/// From `start` to `end`, which is not in it.
#[repr(C)]
#[derive(Clone, Copy, Debug, Default, PartialEq, Eq, Hash)]
pub struct Interval {
    pub start: u64,
    pub end: u64,
}

#[repr(C)]
#[derive(Clone, Copy, Debug, Default, PartialEq, Eq, Hash)]
pub struct RateSegment {
    pub start: u64,
    pub end: u64,
    /// Volume a tick.
    pub rate: u64,
}

#[repr(C)]
#[derive(Clone, Copy, Debug, Default, PartialEq, Eq, Hash)]
pub struct DelaySegment {
    pub start: u64,
    pub end: u64,
    pub delay: u64,
}

/// A stretch of free time and the volume listed for it.
#[repr(C)]
#[derive(Clone, Copy, Debug, Default, PartialEq, Eq, Hash)]
pub struct VolumeSegment {
    pub start: u64,
    pub end: u64,
    pub volume: u64,
}

/// A stretch of time and what it is booked for.
#[repr(C)]
#[derive(Clone, Copy, Debug, Default, PartialEq, Eq, Hash)]
pub struct BookingSegment {
    pub start: u64,
    pub end: u64,
    /// 0 where nothing is booked, else the priority and one.
    pub(crate) level: u64,
}

impl BookingSegment {
    /// The priority that the stretch is booked for, if any.
    pub fn priority(&self) -> Option<u8> {
        self.level.checked_sub(1)?.try_into().ok()
    }
}

/// What is to be sent.
#[repr(C)]
#[derive(Clone, Copy, Debug, Default, PartialEq, Eq, Hash)]
pub struct Bundle {
    pub size: u64,
    pub priority: u8,
}

/// When a bundle would be sent and received: a dry run's answer, and what a
/// booking is made with.
#[repr(C)]
#[derive(Clone, Copy, Debug, Default, PartialEq, Eq, Hash)]
pub struct Offer {
    pub send: Interval,
    pub recv: Interval,
}

/// The capacity polynomial: volume a tick at a date, in powers of the date's
/// distance from the offset, the constant first.
#[repr(C)]
#[derive(Clone, Copy, Debug, Default, PartialEq, Eq, Hash)]
pub struct Polynome {
    pub coefficients: [i64; 4],
    pub offset: u64,
}

/// How a queue manager counts.
#[repr(C)]
#[derive(Clone, Copy, Debug, Default, PartialEq, Eq, Hash)]
pub struct Flags {
    /// What is queued is sent first.
    pub add_delay: bool,
    /// A booking enqueues, and manual queueing is refused.
    pub self_update: bool,
    /// Each class has a budget of its own.
    pub budgeted: bool,
}
