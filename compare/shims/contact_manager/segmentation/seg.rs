include!("seg/original.rs");

/// Sees the private list, and only reads it.
pub mod peek {
    use super::{Segment, SegmentationManager, Volume};

    pub fn listed(manager: &SegmentationManager) -> &[Segment<Volume>] {
        &manager.free_intervals
    }
}
