//! The original contact managers behind document 01's frames, and behind frame
//! 15 of document 02's R-1: the original has no such figure, so its own list is
//! added up. Frames 21 to 23 of R-4 open the original under rule 1, and a reading
//! of the documents under rule 2, which the original does not have ([`rules`]).
//!
//! Data goes one way: line, frame ([`frames`]), record ([`state`]), the
//! original's calls ([`calls`]), answer, line. Above that stand the dialogues
//! that are compared ([`generate`]) and the comparison itself ([`drive`]), and
//! document 02's R-8, which is held against any program's answers without the
//! original's ([`earliest`])., which have no original under edition
//! 2, in mode 2 and under the strict flag, are read from the documents and held
//! against a library's calls ([`editions`], [`modes`], [`strict`], over [`trial`]).

/// The original, built unchanged by `build.rs`.
pub extern crate asabr;

pub mod calls;
pub mod drive;
pub mod earliest;
pub mod editions;
pub mod frames;
pub mod free;
pub mod generate;
pub mod guard;
pub mod limits;
pub mod modes;
pub mod poly;
pub mod priority;
pub mod queue;
pub mod refusal;
pub mod rules;
pub mod segmented;
pub mod serve;
pub mod state;
pub mod stated;
pub mod strict;
pub mod terminal;
pub mod trial;

pub use state::Oracle;
