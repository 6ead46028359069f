//! Document 02's R-4 at the frames: the lookup on every covering list of a short
//! window, frames 21 to 23 with rule 1 beside 01 to 03, rule 2 beside the original
//! with boundaries a tick earlier, and programs that are wrong held against
//! `compare --kind rules`.

mod lookup;
#[path = "../lookups/mod.rs"]
mod lookups;
mod program;
#[path = "../programs/mod.rs"]
mod programs;
mod records;
mod run;
mod shifted;
mod wrong;
