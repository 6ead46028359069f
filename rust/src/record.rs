//! The managers' records, their openings' figures and their lists, laid out as
//! in the library: plain data with fixed places.

use crate::choices::{Choices, PolynomialChoices, QueueChoices};
use crate::segments::{
    BookingSegment, DelaySegment, Flags, Interval, Polynome, RateSegment, VolumeSegment,
};

pub const RATES: usize = 16;
pub const DELAYS: usize = 16;
pub const LISTED: usize = 64;
pub const CLASSES: usize = 8;

/// Choices, window, rates and delays of a contact; rates are held as volumes.
#[repr(C)]
#[derive(Clone, Copy, Debug, PartialEq, Eq)]
pub struct Contact {
    pub choices: Choices,
    pub window: Interval,
    pub rates: [VolumeSegment; RATES],
    pub rate_count: usize,
    pub delays: [DelaySegment; DELAYS],
    pub delay_count: usize,
}

#[repr(C)]
#[derive(Clone, Copy, Debug, PartialEq, Eq)]
pub struct FreeList {
    pub segments: [VolumeSegment; LISTED],
    pub count: usize,
}

#[repr(C)]
#[derive(Clone, Copy, Debug, PartialEq, Eq)]
pub struct Bookings {
    pub segments: [BookingSegment; LISTED],
    pub count: usize,
}

/// The room is the sum of the listed volumes: a record that says otherwise is
/// damaged.
#[repr(C)]
#[derive(Clone, Copy, Debug, PartialEq, Eq)]
pub struct FreeVolume {
    pub contact: Contact,
    pub free: FreeList,
    pub room: u64,
}

#[repr(C)]
#[derive(Clone, Copy, Debug, PartialEq, Eq)]
pub struct PrioritySeg {
    pub contact: Contact,
    pub bookings: Bookings,
}

#[repr(C)]
#[derive(Clone, Copy, Debug, PartialEq, Eq)]
pub struct PolySeg {
    pub choices: PolynomialChoices,
    pub window: Interval,
    pub polynome: Polynome,
    pub delays: [DelaySegment; DELAYS],
    pub delay_count: usize,
    pub free: FreeList,
}

#[repr(C)]
#[derive(Clone, Copy, Debug, PartialEq, Eq)]
pub struct Queue {
    pub choices: QueueChoices,
    pub window: Interval,
    pub rate: u64,
    pub delay: u64,
    pub classes: usize,
    pub flags: Flags,
    pub queues: [u64; CLASSES],
    pub budgets: [u64; CLASSES],
}

/// What the free-volume and the priority manager are opened with.
#[repr(C)]
#[derive(Clone, Copy, Debug, PartialEq, Eq)]
pub struct Opening {
    pub choices: Choices,
    pub window: Interval,
    pub rates: [RateSegment; RATES],
    pub rate_count: usize,
    pub delays: [DelaySegment; DELAYS],
    pub delay_count: usize,
}

#[repr(C)]
#[derive(Clone, Copy, Debug, PartialEq, Eq)]
pub struct PolynomialOpening {
    pub choices: PolynomialChoices,
    pub window: Interval,
    pub polynome: Polynome,
    pub delays: [DelaySegment; DELAYS],
    pub delay_count: usize,
}

#[repr(C)]
#[derive(Clone, Copy, Debug, PartialEq, Eq)]
pub struct QueueOpening {
    pub choices: QueueChoices,
    pub window: Interval,
    pub rate: u64,
    pub delay: u64,
    pub classes: usize,
    pub flags: Flags,
    pub budgets: [u64; CLASSES],
}

/// A queue manager's list.
#[repr(C)]
#[derive(Clone, Copy, Debug, PartialEq, Eq)]
pub struct Classes {
    pub classes: usize,
    pub queues: [u64; CLASSES],
}

/// The first places of a list, the rest zero. A count above the places is for
/// the library to refuse, in its order.
pub(crate) fn placed<T: Copy + Default, const PLACES: usize>(given: &[T]) -> [T; PLACES] {
    let mut places = [T::default(); PLACES];
    for (place, one) in places.iter_mut().zip(given) {
        *place = *one;
    }
    places
}

/// The places that a count says are used; all of them if it says more.
pub(crate) fn used<T>(places: &[T], count: usize) -> &[T] {
    &places[..count.min(places.len())]
}
