//! The free-volume manager.

use asabr::contact_manager::segmentation::seg::{SegmentationManager, peek};
use asabr::types::Volume;

use crate::calls;
use crate::frames::{RatedOpening, Span};
use crate::limits;
use crate::refusal::Refusal;
use crate::segmented::{Lists, Segmented};
use crate::state::Record;

/// Opening order 3, 4, 6, 5, shared with the priority manager.
pub fn test_opening(opening: &RatedOpening) -> Result<(), Refusal> {
    limits::test_window(opening.window)?;
    limits::test_rate_list(&opening.rates, opening.window)?;
    limits::test_volumes(&opening.rates, 0)?;
    limits::test_delay_list(&opening.delays, opening.window)
}

pub fn open(opening: &RatedOpening) -> Result<Box<dyn Record>, Refusal> {
    test_opening(opening)?;
    let contact = calls::open(opening.window, || {
        SegmentationManager::new(
            calls::segments(&opening.rates),
            calls::segments(&opening.delays),
        )
    })?;
    Ok(Box::new(Segmented { contact }))
}

impl Lists for SegmentationManager {
    /// A right part.
    const GROWTH: usize = 1;

    fn listed(&self) -> usize {
        peek::listed(self).len()
    }

    fn spans(&self) -> Result<Vec<Span>, Refusal> {
        let spans = peek::listed(self).iter().map(|segment| {
            Ok(Span {
                start: calls::number(segment.start)?,
                end: calls::number(segment.end)?,
                value: calls::number(segment.val)?,
            })
        });
        spans.collect()
    }

    fn room(&self) -> Result<i64, Refusal> {
        let mut listed = peek::listed(self).iter();
        let sum = listed.try_fold(0, |sum: Volume, segment| sum.checked_add(segment.val));
        calls::number(sum.ok_or(Refusal::Fault)?)
    }
}
