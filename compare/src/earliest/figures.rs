//! What has been checked and what has been passed over, as figures.

use std::fmt;

use super::claim::{MAX_TICKS, Place};

/// Lists of so many segments and more are long.
const LONG_LIST: usize = 10;

/// Why a dry run is not checked; the first that holds is counted.
#[derive(Clone, Copy, Debug, PartialEq, Eq)]
pub enum Passed {
    /// The last accepted opening is no priority opening of document 01.
    NoRecord,
    /// Document 01 answers 2.
    BadBundle,
    LongWindow,
    /// The frame before it is not frame 12.
    NotListed,
    EmptySegment,
}

/// Counts of dry runs, but for `longest_list` and `differences`.
#[derive(Clone, Debug, Default, PartialEq, Eq)]
pub struct Figures {
    pub checked: usize,
    /// Dry runs and lists that are not answered as they must be.
    pub differences: usize,
    pub offers: usize,
    /// Offers that start after the first tick that could be a start.
    pub later: usize,
    pub without_length: usize,
    pub none: usize,
    /// Of `none`: some start has an end, so only bookings stand in the way.
    pub none_by_bookings: usize,
    pub on_long_lists: usize,
    /// Segments of the longest list on which a dry run was checked.
    pub longest_list: usize,
    pub no_record: usize,
    pub bad_bundle: usize,
    pub long_window: usize,
    pub not_listed: usize,
    pub empty_segment: usize,
    /// Of `empty_segment`: answered otherwise than the claim says.
    pub contradictions: usize,
}

impl Figures {
    pub fn count_checked(&mut self, segments: usize) {
        self.checked += 1;
        self.on_long_lists += usize::from(segments >= LONG_LIST);
        self.longest_list = self.longest_list.max(segments);
    }

    /// `first` is the first tick that could be a start.
    pub fn count_offer(&mut self, place: Place, first: i64) {
        self.offers += 1;
        self.later += usize::from(place.start > first);
        self.without_length += usize::from(place.start == place.end);
    }

    pub fn count_none(&mut self, by_bookings: bool) {
        self.none += 1;
        self.none_by_bookings += usize::from(by_bookings);
    }

    pub fn count_passed(&mut self, reason: Passed) {
        let count = match reason {
            Passed::NoRecord => &mut self.no_record,
            Passed::BadBundle => &mut self.bad_bundle,
            Passed::LongWindow => &mut self.long_window,
            Passed::NotListed => &mut self.not_listed,
            Passed::EmptySegment => &mut self.empty_segment,
        };
        *count += 1;
    }

    /// Every figure but the last line's, with what it says.
    fn lines(&self) -> [(String, usize); 13] {
        let long_list = format!("on a list of {LONG_LIST} and more segments");
        let long_window = format!("passed over, a window of more than {MAX_TICKS} ticks");
        let line = |about: &str, count| (about.to_string(), count);
        [
            line("offers", self.offers),
            line(
                "  that start after the later of asked time and window start",
                self.later,
            ),
            line("  of zero length", self.without_length),
            line("answered 7", self.none),
            line(
                "  with an end from some tick: only bookings in the way",
                self.none_by_bookings,
            ),
            (long_list, self.on_long_lists),
            line("segments of the longest list", self.longest_list),
            line(
                "passed over, a record with an empty segment",
                self.empty_segment,
            ),
            line("  that would contradict the claim", self.contradictions),
            (long_window, self.long_window),
            line("passed over, a bundle outside its limits", self.bad_bundle),
            line("passed over, no priority record open", self.no_record),
            line("passed over, no list just before", self.not_listed),
        ]
    }
}

/// A figure to a line; one that is a part of the figure above is set in.
impl fmt::Display for Figures {
    fn fmt(&self, text: &mut fmt::Formatter) -> fmt::Result {
        for (about, count) in self.lines() {
            writeln!(text, "{about}: {count}")?;
        }
        write!(
            text,
            "checked {} dry runs, {} differences",
            self.checked, self.differences
        )
    }
}
