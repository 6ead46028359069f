//! The polynomial manager.

use asabr::contact_manager::segmentation::Segment;
use asabr::contact_manager::segmentation::poly_seg::{PolySegManager, peek};
use asabr::poly::Polynome;
use asabr::types::{Date, Duration};

use crate::calls::{self, NO_DELAY};
use crate::frames::{COEFFICIENTS, PolyOpening, Span};
use crate::limits::{self, MAX_CAPACITY};
use crate::refusal::Refusal;
use crate::segmented::{Lists, Segmented};
use crate::state::Record;

/// Opening order 3, 5, 11.
pub fn open(opening: &PolyOpening) -> Result<Box<dyn Record>, Refusal> {
    limits::test_window(opening.window)?;
    limits::test_loose_delays(&opening.delays)?;
    test_polynomial(opening)?;
    let contact = calls::open(opening.window, || {
        PolySegManager::new(
            Polynome::new(opening.coefficients, opening.offset.into()),
            delays_with_mark(&opening.delays),
        )
    })?;
    Ok(Box::new(Segmented { contact }))
}

/// The original adds `Duration::MAX` where no delay segment is found, which
/// overflows for every date but 0. One more segment, after all others and past
/// every date, is found instead, exactly where the original finds none.
fn delays_with_mark(delays: &[Span]) -> Vec<Segment<Duration>> {
    let mut segments = calls::segments(delays);
    segments.push(Segment {
        start: 0,
        end: Date::MAX,
        val: NO_DELAY,
    });
    segments
}

/// Refusal 11.
fn test_polynomial(opening: &PolyOpening) -> Result<(), Refusal> {
    let fits = limits::is_date(opening.offset)
        && opening
            .coefficients
            .iter()
            .all(|coefficient| limits::is_coefficient(*coefficient))
        && is_in_range(opening);
    fits.then_some(()).ok_or(Refusal::Polynomial)
}

/// The range rule. Each product is at most 2^61 times 2^40, so the steps
/// themselves fit.
fn is_in_range(opening: &PolyOpening) -> bool {
    let far = largest_distance(opening);
    let mut value = 0;
    for (power, coefficient) in opening.coefficients.iter().enumerate().rev() {
        let quotient = i128::from(*coefficient) / (power as i128 + 1);
        value = value * far + quotient.abs();
        if value > MAX_CAPACITY {
            return false;
        }
    }
    value * far <= MAX_CAPACITY
}

fn largest_distance(opening: &PolyOpening) -> i128 {
    let from_start = opening.window.start.abs_diff(opening.offset);
    let from_end = opening.window.end.abs_diff(opening.offset);
    from_start.max(from_end).into()
}

impl Lists for PolySegManager<COEFFICIENTS> {
    /// A right part.
    const GROWTH: usize = 1;

    fn listed(&self) -> usize {
        peek::listed(self).len()
    }

    fn spans(&self) -> Result<Vec<Span>, Refusal> {
        let spans = peek::listed(self).iter().map(|segment| {
            Ok(Span {
                start: calls::number(segment.start)?,
                end: calls::number(segment.end)?,
                value: 0,
            })
        });
        spans.collect()
    }
}
