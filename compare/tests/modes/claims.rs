//! R-6's claims see what breaks them, whatever a reading says.

use oracle::frames::Dates;
use oracle::modes::claims::{Claims, Held};
use oracle::modes::terms::{EXACT, PORTED};

use super::opening_a;

fn held(coefficients: [i64; 4], size: i64, start: i64, end: i64) -> Result<Held, String> {
    let claims = Claims::of(&opening_a(EXACT, coefficients)).expect("mode 2");
    claims.hold(size, Dates([start, end, start + 3, end + 3]))
}

const LINE: [i64; 4] = [0, 1, 0, 0];
/// Up, down and up again: 40/3 by 2, 18 by 9.
const WAVE: [i64; 4] = [20, -16, 2, 0];

#[test]
fn an_end_has_enough_and_one_tick_earlier_has_less() {
    assert!(held(LINE, 1, 0, 1).is_err());
    assert!(held(LINE, 1, 0, 2).is_ok());
    assert!(held(LINE, 1, 0, 3).is_err());
    assert!(held(WAVE, 13, 0, 9).is_ok());
    assert!(held(WAVE, 13, 0, 8).is_err());
    assert!(held(WAVE, 13, 0, 10).is_err());
    assert!(held(WAVE, 13, 0, 2).is_ok());
}

#[test]
fn exactly_the_size_is_told() {
    assert!(!held(LINE, 1, 0, 2).unwrap().is_equal);
    assert!(held(LINE, 2, 0, 2).unwrap().is_equal);
    assert!(held(WAVE, 18, 0, 9).unwrap().is_equal);
    // 6 is carried by 3 and, after 40/3, not less by 2.
    assert!(held(WAVE, 6, 0, 3).unwrap().is_equal);
    assert!(held(WAVE, 5, 0, 3).is_err());
}

/// There is a first tick to speak of where each carries something.
#[test]
fn the_first_tick_with_enough() {
    assert!(held([1, 1, 0, 0], 4, 0, 2).unwrap().is_first);
    assert!(!held(LINE, 2, 0, 2).unwrap().is_first);
    assert!(!held(WAVE, 13, 0, 9).unwrap().is_first);
    assert!(held([10, 0, 0, 0], 20, 3, 5).unwrap().is_first);
}

#[test]
fn a_send_has_a_length_in_the_window() {
    for (start, end) in [(3, 3), (4, 3), (9, 11), (-1, 5)] {
        assert!(held([10, 0, 0, 0], 1, start, end).is_err());
    }
}

#[test]
fn nothing_is_claimed_in_mode_1() {
    assert!(Claims::of(&opening_a(PORTED, LINE)).is_none());
}
