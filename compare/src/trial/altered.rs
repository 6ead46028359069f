//! What is beside an offer, and is not offered.

use crate::frames::{Dates, Request};
use crate::generate::openings::other_number;
use crate::generate::rng::Rng;
use crate::limits::{MAX_DATE, MAX_SIZE};

/// An offer with one date wrong.
pub fn dates(rng: &mut Rng, offered: Dates) -> Dates {
    let Dates(mut dates) = offered;
    let place = rng.below(4);
    dates[place] = match rng.below(6) {
        0 => other_number(rng, dates[place]),
        1..4 => dates[place] - 1,
        _ => dates[place] + 1,
    };
    Dates(dates)
}

/// Another bundle or time, beside the one that something was offered for.
pub fn request(rng: &mut Rng, mut request: Request) -> Request {
    match rng.below(5) {
        0 => request.time -= 1,
        1 => request.time += 1,
        2 => request.load.size -= 1,
        3 => request.load.size += 1,
        _ => request.load.priority ^= 1,
    }
    request
}

/// A request with a number outside its limits, or two.
pub fn outside(rng: &mut Rng, mut request: Request) -> Request {
    for _ in 0..rng.between(1, 2) {
        match rng.below(3) {
            0 => request.time = rng.pick(&[-1, MAX_DATE + 1, i64::MAX, i64::MIN]),
            1 => request.load.size = rng.pick(&[0, -1, MAX_SIZE + 1, i64::MAX, i64::MIN]),
            _ => request.load.priority = rng.pick(&[128, 129, 200, 255]),
        }
    }
    request
}
