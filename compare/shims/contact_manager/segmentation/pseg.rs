include!("pseg/original.rs");

/// Sees the private list, and only reads it.
pub mod peek {
    use super::{PSegmentationManager, Priority, Segment};

    pub fn listed(manager: &PSegmentationManager) -> &[Segment<Priority>] {
        &manager.booking
    }
}
