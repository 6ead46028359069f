//! The manager of bookings by priority.

use asabr::contact_manager::segmentation::pseg::{PSegmentationManager, peek};

use crate::calls;
use crate::frames::{RatedOpening, Span};
use crate::free::test_opening;
use crate::refusal::Refusal;
use crate::segmented::{Lists, Segmented};
use crate::state::Record;

pub fn open(opening: &RatedOpening) -> Result<Box<dyn Record>, Refusal> {
    test_opening(opening)?;
    let contact = calls::open(opening.window, || {
        PSegmentationManager::new(
            calls::segments(&opening.rates),
            calls::segments(&opening.delays),
        )
    })?;
    Ok(Box::new(Segmented { contact }))
}

impl Lists for PSegmentationManager {
    /// A cut at each end of the send.
    const GROWTH: usize = 2;

    fn listed(&self) -> usize {
        peek::listed(self).len()
    }

    fn spans(&self) -> Result<Vec<Span>, Refusal> {
        let spans = peek::listed(self).iter().map(|segment| {
            Ok(Span {
                start: calls::number(segment.start)?,
                end: calls::number(segment.end)?,
                value: segment.val.into(),
            })
        });
        spans.collect()
    }
}
