use super::LegacyManager;

pub type QDManager = LegacyManager<true, true, 1, 0>;
pub type PQDManager = LegacyManager<true, true, 3, 0>;
pub type PBQDManager = LegacyManager<true, true, 3, 1>;
