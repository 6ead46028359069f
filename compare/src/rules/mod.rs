//! Document 02's R-4, read from the words of documents 01 and 02: the rule by
//! which a date has its delay, chosen at opening.
//!
//! Both readings ([`crate::editions`], [`crate::modes`]) look delays up here
//! ([`lookup`]) and test here what must cover a window ([`cover`]). Rule 2 has no
//! original, so frames 21 to 23 open a reading's record under it ([`records`]).

pub mod cover;
pub mod lookup;
pub mod records;

/// The rules there are, by the delay that a boundary between two segments has:
/// the earlier one as in the original, or "the later delay".
pub const EARLIER: u64 = 1;
pub const LATER: u64 = 2;

pub fn is_rule(rule: u64) -> bool {
    rule == EARLIER || rule == LATER
}

/// The rule that there is beside this one.
pub fn other(rule: u64) -> u64 {
    if rule == LATER { EARLIER } else { LATER }
}
