// `contact_manager/lex.rs` asks that both managers can be parsed. Nothing here
// parses; the private rules of `segmentation` are shown for the probes.

extern crate alloc;
use alloc::vec::Vec;

use super::Segment;
use super::pseg::PSegmentationManager;
use super::seg::SegmentationManager;
use crate::parse_transparent;
use crate::types::{DataRate, Date, Duration, Volume};

type Lists = (Vec<Segment<DataRate>>, Vec<Segment<Duration>>);

impl From<Lists> for SegmentationManager {
    fn from((rates, delays): Lists) -> Self {
        Self::new(rates, delays)
    }
}

impl From<Lists> for PSegmentationManager {
    fn from((rates, delays): Lists) -> Self {
        Self::new(rates, delays)
    }
}

parse_transparent!(SegmentationManager, Lists);
parse_transparent!(PSegmentationManager, Lists);

pub fn get_delays(start: Date, end: Date, delays: &[Segment<Duration>]) -> (Duration, Duration) {
    super::get_delays(start, end, delays)
}

pub fn get_tx_end(volumes: &[Segment<Volume>], at: Date, size: Volume, by: Date) -> Option<Date> {
    super::get_tx_end(volumes, at, size, by)
}

pub fn get_volume(start: Date, end: Date, volumes: &[Segment<Volume>]) -> Volume {
    super::get_volume(start, end, volumes)
}
