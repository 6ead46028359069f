//! The flag: the numbers that it has, and what it refuses.

use crate::frames::Dates;

/// The flags there are. Off is the original.
pub const OFF: u64 = 0;
pub const ON: u64 = 1;

/// Document 02's number for a booking of zero length under the flag.
pub const ZERO_LENGTH: u8 = 17;

pub fn is_flag(strict: u64) -> bool {
    strict == OFF || strict == ON
}

/// The flag that there is beside this one.
pub fn other(strict: u64) -> u64 {
    if strict == ON { OFF } else { ON }
}

/// "an offer whose send start and end are equal".
pub fn has_no_length(Dates([start, end, ..]): Dates) -> bool {
    start == end
}

/// Of a booking that is offered: "Under it, an offer whose send start and end are
/// equal is still shown by a dry run, and booking it is refused." As 17 stands
/// "after 9 and before 10 and 13", nothing that the booking leaves is looked at.
pub fn test(strict: u64, offered: Dates) -> Result<(), u8> {
    match strict == ON && has_no_length(offered) {
        true => Err(ZERO_LENGTH),
        false => Ok(()),
    }
}
