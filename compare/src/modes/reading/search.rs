//! The end search: one for both modes, as R-6 says that "the search keeps its
//! steps".

use std::cmp::Ordering;

use super::fraction::Fraction;

/// A free stretch of which something is asked from a start on.
#[derive(Clone, Copy, Debug, PartialEq, Eq)]
pub struct Stretch {
    pub start: i64,
    pub end: i64,
    /// The later of the segment's start and the asked time.
    pub from: i64,
}

/// "with x the later of segment start and asked time, refuse unless segment
/// start <= x < segment end and capacity from x to the segment's end suffices;
/// then halve, low + (high - low) / 2, stop on equality, else return low".
/// `capacity` is that from x to a date.
pub fn end(stretch: Stretch, size: Fraction, capacity: impl Fn(i64) -> Fraction) -> Option<i64> {
    let Stretch { start, end, from } = stretch;
    if !(start <= from && from < end) || capacity(end) < size {
        return None;
    }
    let (mut low, mut high) = (from, end);
    while low <= high {
        let middle = low + (high - low) / 2;
        match capacity(middle).cmp(&size) {
            Ordering::Equal => return Some(middle),
            Ordering::Less => low = middle + 1,
            Ordering::Greater => high = middle - 1,
        }
    }
    Some(low)
}
