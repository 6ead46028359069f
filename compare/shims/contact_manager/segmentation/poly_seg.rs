include!("poly_seg/original.rs");

/// Sees the private list, and only reads it.
pub mod peek {
    use super::{PolySegManager, Segment};

    pub fn listed<const N: usize>(manager: &PolySegManager<N>) -> &[Segment<()>] {
        &manager.free_intervals
    }
}
