//! Lists that cover a window: document 01's words at its numbers 4 and 5.

use crate::frames::{Span, Window};
use crate::limits::{MAX_DELAY, MAX_DELAYS};

/// 1 to `most` segments, none empty or backward, no gap, exactly the window.
pub fn covers(list: &[Span], window: Window, most: usize) -> bool {
    let (Some(first), Some(last)) = (list.first(), list.last()) else {
        return false;
    };
    list.len() <= most
        && list.iter().all(|span| span.start < span.end)
        && list.windows(2).all(|pair| pair[0].end == pair[1].start)
        && first.start == window.start
        && last.end == window.end
}

/// Delays of the free-volume and the priority manager, and under rule 2 of the
/// polynomial manager, whose list "must cover its window as the others' do".
pub fn delays_cover(delays: &[Span], window: Window) -> bool {
    covers(delays, window, MAX_DELAYS)
        && delays
            .iter()
            .all(|delay| (0..=MAX_DELAY).contains(&delay.value))
}
