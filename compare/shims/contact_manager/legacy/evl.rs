use super::LegacyManager;

pub type EVLManager = LegacyManager<false, true, 1, 0>;
pub type PEVLManager = LegacyManager<false, true, 3, 0>;
pub type PBEVLManager = LegacyManager<false, true, 3, 1>;
