//! Document 02's R-6 through the package: the polynomial manager's exact mode,
//! beside the ported one.

mod common;

use common::{book, offered, refuses};
use howrekano::{
    Bundle, DelaySegment, Interval, Offer, PolySeg, Polynome, PolynomialChoices, Record, Refusal,
};

const PORTED: PolynomialChoices = mode(1);
const EXACT: PolynomialChoices = mode(2);

/// Modes that there are not.
const NONE: [u64; 4] = [0, 3, 255, u64::MAX];

const fn mode(mode: u64) -> PolynomialChoices {
    PolynomialChoices {
        mode,
        rule: 1,
        strict: 0,
    }
}

const fn bundle(size: u64) -> Bundle {
    Bundle { size, priority: 0 }
}

const fn polynome(coefficients: [i64; 4], offset: u64) -> Polynome {
    Polynome {
        coefficients,
        offset,
    }
}

/// Document 01's case 10.
const WINDOW: Interval = Interval { start: 0, end: 10 };
const DELAYS: [DelaySegment; 1] = [DelaySegment {
    start: 0,
    end: 10,
    delay: 3,
}];
const RATE_10: Polynome = polynome([10, 0, 0, 0], 0);
const SLOPE_1: Polynome = polynome([0, 1, 0, 0], 0);

fn opened(choices: PolynomialChoices, polynome: Polynome) -> PolySeg {
    PolySeg::open_with(choices, WINDOW, polynome, &DELAYS).unwrap()
}

/// When a bundle is sent that is asked for at this time.
fn sent(contact: &PolySeg, at: u64, size: u64) -> Result<(u64, u64), Refusal> {
    let send = offered(contact, at, bundle(size))?.send;
    Ok((send.start, send.end))
}

fn listed(contact: &PolySeg) -> Vec<(u64, u64, u64)> {
    let listed = contact.list().iter();
    listed.map(|s| (s.start, s.end, s.volume)).collect()
}

// ---------------------------------------------------------------------------
// Document 01's case 10, and other small polynomials

#[test]
fn case_10s_rate_of_ten_is_the_same_in_both_modes() {
    for choices in [PORTED, EXACT] {
        for size in [15, 20] {
            let mut contact = opened(choices, RATE_10);
            assert_eq!(sent(&contact, 3, size), Ok((3, 5)));
            book(&mut contact, 3, bundle(size)).unwrap();
            assert_eq!(listed(&contact), [(0, 3, 0), (5, 10, 0)]);
        }
    }
}

#[test]
fn case_10s_line_carries_nothing_in_mode_1() {
    let contact = opened(PORTED, SLOPE_1);
    for (at, size) in [(0, 1), (3, 1), (9, 1), (0, 50)] {
        assert_eq!(sent(&contact, at, size), Err(Refusal::NO_OFFER));
    }
}

#[test]
fn and_what_is_under_it_in_mode_2() {
    let mut contact = opened(EXACT, SLOPE_1);
    let offer = offered(&contact, 0, bundle(1)).unwrap();
    assert_eq!(offer.send, Interval { start: 0, end: 2 });
    assert_eq!(offer.recv, Interval { start: 3, end: 5 });
    assert_eq!(sent(&contact, 3, 1), Ok((3, 4)));
    assert_eq!(sent(&contact, 0, 50), Ok((0, 10)));
    assert_eq!(sent(&contact, 0, 51), Err(Refusal::NO_OFFER));
    book(&mut contact, 0, bundle(1)).unwrap();
    assert_eq!(listed(&contact), [(2, 10, 0)]);
    assert_eq!(sent(&contact, 0, 48), Ok((2, 10)));
    assert_eq!(sent(&contact, 0, 49), Err(Refusal::NO_OFFER));
}

/// Halves, thirds and quarters of a unit add up.
#[test]
fn the_parts_of_a_unit_count() {
    let squares = polynome([0, 0, 1, 0], 0);
    let cubes = polynome([0, 0, 0, 1], 0);
    // 9/2, 27/3 and 81/4 by tick 3.
    for (power, whole) in [(SLOPE_1, 4), (squares, 9), (cubes, 20)] {
        assert_eq!(sent(&opened(PORTED, power), 0, 1), Err(Refusal::NO_OFFER));
        let contact = opened(EXACT, power);
        assert_eq!(sent(&contact, 0, whole), Ok((0, 3)));
        assert_eq!(sent(&contact, 0, whole + 1), Ok((0, 4)));
    }
}

/// Mode 1 counts it as if it did not fall.
#[test]
fn a_falling_line_carries_what_is_under_it() {
    let falling = polynome([10, -1, 0, 0], 0);
    assert_eq!(sent(&opened(PORTED, falling), 0, 100), Ok((0, 10)));
    assert_eq!(sent(&opened(EXACT, falling), 0, 50), Ok((0, 10)));
    assert_eq!(sent(&opened(EXACT, falling), 0, 51), Err(Refusal::NO_OFFER));
}

// ---------------------------------------------------------------------------
// What is opened, and what is refused

/// The inputs of docs/DIFFERENCES.md 41 and docs/PROMISES.md, over [0, `end`).
fn sent_within(end: u64, coefficients: [i64; 4], size: u64) -> [Result<(u64, u64), Refusal>; 2] {
    let window = Interval { start: 0, end };
    let delays = [DelaySegment {
        start: 0,
        end,
        delay: 0,
    }];
    [PORTED, EXACT].map(|choices| {
        let fit = polynome(coefficients, 0);
        let contact = PolySeg::open_with(choices, window, fit, &delays).unwrap();
        sent(&contact, 0, size)
    })
}

#[test]
fn fractions_are_dropped_in_mode_1_whichever_way_they_point() {
    let nothing = Err(Refusal::NO_OFFER);
    assert_eq!(sent_within(2, [0, 1, 0, 0], 1), [nothing, Ok((0, 2))]);
    assert_eq!(sent_within(2, [1, -1, 0, 0], 1), [Ok((0, 1)), nothing]);
}

#[test]
fn where_the_rate_falls_below_0_the_end_need_not_be_the_first_tick() {
    assert_eq!(sent_within(10, [20, -16, 2, 0], 13)[1], Ok((0, 9)));
    assert_eq!(sent_within(4, [13, -18, 6, 0], 6)[1], Ok((0, 2)));
    assert_eq!(sent_within(3, [13, -18, 6, 0], 6)[1], Ok((0, 1)));
}

#[test]
fn open_has_the_originals_choices() {
    assert_eq!(PolynomialChoices::default(), PORTED);
    for polynome in [RATE_10, SLOPE_1] {
        let plain = PolySeg::open(WINDOW, polynome, &DELAYS);
        assert_eq!(plain, Ok(opened(PORTED, polynome)));
    }
}

#[test]
fn a_contact_keeps_its_mode() {
    for choices in [PORTED, EXACT] {
        let mut contact = opened(choices, polynome([3, 1, 0, 0], 0));
        assert_eq!(contact.choices(), choices);
        for (at, size) in [(3, 15), (0, 2), (8, 3), (0, 101)] {
            let _ = book(&mut contact, at, bundle(size));
            assert_eq!(contact.choices(), choices);
        }
    }
}

#[test]
fn a_mode_that_there_is_not_is_refused_before_all_else() {
    let backward = Interval { start: 10, end: 0 };
    let late = DELAYS.map(|delay| DelaySegment {
        delay: (1 << 40) + 1,
        ..delay
    });
    let steep = polynome([0, i64::MAX, 0, 0], 0);
    let openings = [
        (WINDOW, SLOPE_1, &DELAYS[..], None),
        (backward, SLOPE_1, &DELAYS, Some(Refusal::WINDOW)),
        (WINDOW, SLOPE_1, &late, Some(Refusal::DELAYS)),
        (WINDOW, SLOPE_1, &DELAYS.repeat(17), Some(Refusal::DELAYS)),
        (WINDOW, steep, &DELAYS, Some(Refusal::POLYNOMIAL)),
        // Each goes before those after it.
        (backward, steep, &late, Some(Refusal::WINDOW)),
        (WINDOW, steep, &late, Some(Refusal::DELAYS)),
    ];
    for (window, polynome, delays, refused) in openings {
        let open = |choices| PolySeg::open_with(choices, window, polynome, delays).err();
        assert_eq!(open(PORTED), refused);
        assert_eq!(open(EXACT), refused);
        for none in NONE {
            assert_eq!(open(mode(none)), Some(Refusal::CHOICE), "{none}");
        }
    }
    assert!(Refusal::CHOICE.to_string().contains("mode 1 or 2"));
}

#[test]
fn a_record_of_a_mode_that_there_is_not_is_damaged() {
    for choices in [PORTED, EXACT] {
        for none in NONE {
            let mut record = *opened(choices, SLOPE_1).record();
            record.choices.mode = none;
            refuses(record);
        }
    }
}

/// A record is tested in the mode that it names.
#[test]
fn a_record_whose_polynomial_is_outside_its_modes_range_is_damaged() {
    let mut record = *opened(PORTED, polynome([0, 1, 0, 0], 1 << 29)).record();
    record.choices = EXACT;
    assert!(record.is_kept());
    record.polynome.offset = 1 << 30;
    refuses(record);
    record.choices = PORTED;
    assert!(record.is_kept());
}

// ---------------------------------------------------------------------------
// The range rule in mode 2: twelve times each step, against 2^61

/// What no step passes.
const LIMIT: i64 = 1 << 61;

/// What twelve times the integral has each coefficient times.
const FACTORS: [i64; 4] = [12, 6, 4, 3];

/// How both modes answer an opening over a window from 0 on.
fn opening(coefficients: [i64; 4], length: u64, offset: u64) -> [Option<Refusal>; 2] {
    let window = Interval {
        start: 0,
        end: length,
    };
    let polynome = polynome(coefficients, offset);
    [PORTED, EXACT].map(|choices| PolySeg::open_with(choices, window, polynome, &[]).err())
}

const BOTH_OPEN: [Option<Refusal>; 2] = [None; 2];
const ONLY_PORTED: [Option<Refusal>; 2] = [None, Some(Refusal::POLYNOMIAL)];

#[test]
fn the_largest_coefficient_of_each_power() {
    for (power, factor) in (0..).zip(FACTORS) {
        for length in [1_u32, 2, 10, 1 << 12] {
            let largest = LIMIT / (factor * i64::from(length).pow(power + 1));
            for at_most in [largest, -largest] {
                one_more_is_refused(power as usize, at_most, length.into());
            }
        }
    }
}

/// With the offset at either end of the window.
fn one_more_is_refused(power: usize, at_most: i64, length: u64) {
    let alone = |coefficient| {
        let mut coefficients = [0; 4];
        coefficients[power] = coefficient;
        [0, length].map(|offset| opening(coefficients, length, offset))
    };
    assert_eq!(alone(at_most), [BOTH_OPEN; 2], "{at_most} over {length}");
    let above = at_most + at_most.signum();
    assert_eq!(alone(above), [ONLY_PORTED; 2], "{above} over {length}");
}

#[test]
fn the_powers_add_up_whatever_their_signs() {
    let each = LIMIT / FACTORS.iter().sum::<i64>();
    let signed = [each, -each, each, -each];
    assert_eq!(opening(signed, 1, 0), BOTH_OPEN);
    for power in 0..4 {
        let mut coefficients = signed;
        coefficients[power] += coefficients[power].signum();
        assert_eq!(opening(coefficients, 1, 0), ONLY_PORTED, "{power}");
    }
}

#[test]
fn the_farthest_offset_of_a_line() {
    let slope_1 = [0, 1, 0, 0];
    let farthest = (LIMIT as u64 / 6).isqrt();
    assert!((1 << 29..1 << 30).contains(&farthest));
    for offset in [0, 1 << 29, farthest] {
        assert_eq!(opening(slope_1, 10, offset), BOTH_OPEN, "{offset}");
    }
    for offset in [farthest + 1, 1 << 30, 1 << 40] {
        assert_eq!(opening(slope_1, 10, offset), ONLY_PORTED, "{offset}");
    }
}

/// The coefficients' own limit stays, and goes with the same number.
#[test]
fn a_coefficient_of_2_to_the_61_opens_in_mode_1_alone() {
    assert_eq!(opening([LIMIT, 0, 0, 0], 1, 0), ONLY_PORTED);
    let above = opening([LIMIT + 1, 0, 0, 0], 1, 0);
    assert_eq!(above, [Some(Refusal::POLYNOMIAL); 2]);
}

#[test]
fn offers_at_the_limits() {
    let open = |coefficients, start, end| {
        let window = Interval { start, end };
        let delays = [DelaySegment {
            start,
            end,
            delay: 0,
        }];
        PolySeg::open_with(EXACT, window, polynome(coefficients, 0), &delays).unwrap()
    };
    let fastest = open([LIMIT / 12, 0, 0, 0], 0, 1);
    assert_eq!(sent(&fastest, 0, 1 << 38), Ok((0, 1)));
    // Twelve times the integral is near 2^61 from here on; two ticks are 2^30 + 2.
    let start = 1 << 29;
    let far = open([0, 1, 0, 0], start, start + (1 << 24));
    assert_eq!(sent(&far, 0, 1 << 30), Ok((start, start + 2)));
    assert_eq!(sent(&far, 0, (1 << 30) + 2), Ok((start, start + 2)));
    assert_eq!(sent(&far, 0, (1 << 30) + 3), Ok((start, start + 3)));
}

// ---------------------------------------------------------------------------
// Calls on passes of random polynomials, the same at every run

const PASS: Interval = Interval {
    start: 100,
    end: 140,
};

fn pass(choices: PolynomialChoices, polynome: Polynome) -> PolySeg {
    let delays = [DelaySegment {
        start: PASS.start,
        end: PASS.end,
        delay: 3,
    }];
    PolySeg::open_with(choices, PASS, polynome, &delays).unwrap()
}

/// Numbers by Knuth's linear congruence.
struct Random(u64);

impl Random {
    /// From the first up to the second, which is not in it.
    fn within(&mut self, from: i64, to: i64) -> i64 {
        self.0 = self
            .0
            .wrapping_mul(6_364_136_223_846_793_005)
            .wrapping_add(1_442_695_040_888_963_407);
        from + (self.0 >> 33) as i64 % (to - from)
    }

    /// Up to four coefficients, whose rate may change its sign, with an offset on
    /// either side.
    fn polynome(&mut self) -> Polynome {
        let mut coefficients = [0; 4];
        let count = self.within(1, 5) as usize;
        for (coefficient, most) in coefficients.iter_mut().zip([8, 3, 1, 1]).take(count) {
            *coefficient = self.within(-most, most + 1);
        }
        coefficients[0] += 5;
        polynome(coefficients, self.within(80, 161) as u64)
    }

    /// When to ask, and for what size.
    fn call(&mut self) -> (u64, u64) {
        let most = match self.within(0, 4) {
            0 => 5_000,
            _ => 120,
        };
        (self.within(95, 145) as u64, self.within(1, most) as u64)
    }
}

/// Twelve times the integral of the rate: by Simpson's rule, which is exact for
/// four coefficients, tick by tick.
fn carried_12(polynome: Polynome, from: u64, to: u64) -> i128 {
    let [c0, c1, c2, c3] = polynome.coefficients.map(i128::from);
    // Eight times the rate at a date in half ticks.
    let rate_8 = |halves: u64| {
        let h = i128::from(halves) - 2 * i128::from(polynome.offset);
        8 * c0 + 4 * c1 * h + 2 * c2 * h * h + c3 * h * h * h
    };
    let ticks = (from..to).map(|t| rate_8(2 * t) + 4 * rate_8(2 * t + 1) + rate_8(2 * t + 2));
    ticks.sum::<i128>() / 4
}

/// Where a bundle of twelve times this size has a start: in the first listed
/// stretch whose time from the asked one on carries it.
fn start_of(contact: &PolySeg, polynome: Polynome, at: u64, wanted: i128) -> Option<u64> {
    let stretches = contact.list().iter();
    let mut starts = stretches.map(|s| (s.start.max(at), s.end));
    let found =
        starts.find(|(from, end)| from < end && carried_12(polynome, *from, *end) >= wanted);
    found.map(|(from, _)| from)
}

#[test]
fn an_end_has_the_size_and_one_tick_earlier_less_unless_it_is_exact() {
    let (mut exact, mut more, mut refused) = (0, 0, 0);
    for seed in 0..200 {
        let mut random = Random(seed);
        let polynome = random.polynome();
        let mut contact = pass(EXACT, polynome);
        for _ in 0..60 {
            let (at, size) = random.call();
            let wanted = 12 * i128::from(size);
            let start = start_of(&contact, polynome, at, wanted);
            let Ok(Offer { send, .. }) = book(&mut contact, at, bundle(size)) else {
                assert_eq!(start, None, "{polynome:?}: {size} at {at}");
                refused += 1;
                continue;
            };
            assert_eq!(start, Some(send.start), "{polynome:?}: {size} at {at}");
            let [carried, earlier] =
                [send.end, send.end - 1].map(|end| carried_12(polynome, send.start, end));
            match carried == wanted {
                true => exact += 1,
                false => {
                    assert!(carried > wanted, "{polynome:?}: {size} in {send:?}");
                    assert!(earlier < wanted, "{polynome:?}: {size} in {send:?}");
                    more += 1;
                }
            }
        }
    }
    for said in [exact, more, refused] {
        assert!(said > 50, "{exact} exact, {more} more, {refused} refused");
    }
}

#[test]
fn where_the_rate_is_above_0_the_end_is_the_first_tick_that_has_the_size() {
    for seed in 200..300 {
        let mut random = Random(seed);
        let coefficients = [1, 0, 0, 0].map(|least| random.within(least, 7));
        let polynome = polynome(coefficients, random.within(80, 101) as u64);
        let contact = pass(EXACT, polynome);
        for _ in 0..60 {
            let (at, size) = random.call();
            let Ok((start, end)) = sent(&contact, at, size) else {
                continue;
            };
            let wanted = 12 * i128::from(size);
            let first = (start..).find(|tick| carried_12(polynome, start, *tick) >= wanted);
            assert_eq!(first, Some(end), "{polynome:?}: {size} at {at}");
        }
    }
}

/// Coefficients whose quotients are whole: mode 1 drops nothing.
#[test]
fn where_nothing_is_dropped_both_modes_answer_alike() {
    let mut booked = 0;
    for seed in 300..400 {
        let mut random = Random(seed);
        let mut polynome = random.polynome();
        for (coefficient, divisor) in polynome.coefficients.iter_mut().zip(1..) {
            *coefficient *= divisor;
        }
        let [mut ported, mut exact] = [PORTED, EXACT].map(|choices| pass(choices, polynome));
        for _ in 0..60 {
            let (at, size) = random.call();
            let offers = [&mut ported, &mut exact].map(|contact| book(contact, at, bundle(size)));
            assert_eq!(offers[0], offers[1], "{polynome:?}: {size} at {at}");
            assert_eq!(ported.list(), exact.list());
            booked += u64::from(offers[0].is_ok());
        }
    }
    assert!(booked > 100, "{booked} bookings say little");
}
