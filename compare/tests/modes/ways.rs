//! The true integral in several ways: the antiderivative, Simpson's rule over
//! each tick, R-6's twelvefold whole numbers, and thin rectangles below and above.

use oracle::frames::{PolyOpening, Span, Window};
use oracle::generate::openings::placed;
use oracle::generate::rng::Rng;
use oracle::modes::dialogues::{Dialogues, Modes};
use oracle::modes::reading::capacity::Capacity;
use oracle::modes::reading::fraction::Fraction;
use oracle::modes::reading::opening::refusal;
use oracle::modes::terms::{Call, EXACT, Opening};
use oracle::modes::ticks::Ticks;
use oracle::rules::EARLIER;
use oracle::strict::flag::OFF;

const POLYNOMIALS: usize = 3_000;

fn random(rng: &mut Rng, most: i64) -> Opening {
    let length = rng.between(1, 12);
    let window = placed(rng, length);
    let near = rng.between(window.start - 9, window.end + 9).max(0);
    let coefficients = [(); 4].map(|()| match rng.below(4) {
        0 => 0,
        1 => -rng.any_scale(most),
        _ => rng.any_scale(most),
    });
    let delays: Vec<Span> = Vec::new();
    Opening {
        mode: EXACT,
        rule: EARLIER,
        strict: OFF,
        contact: PolyOpening {
            window,
            offset: near.min(1 << 40),
            coefficients,
            delays,
        },
    }
}

#[test]
fn antiderivative_and_ticks_agree() {
    let mut rng = Rng::new(60);
    let (mut compared, mut whole) = (0, 0);
    for _ in 0..POLYNOMIALS {
        let most = rng.pick(&[20, 1 << 20, 1 << 40]);
        let opening = random(&mut rng, most);
        assert_eq!(refusal(&opening), None);
        let Window { start, end } = opening.contact.window;
        let (capacity, ticks) = (Capacity::of(&opening), Ticks::of(&opening).expect("short"));
        for from in start..=end {
            for to in start..=end {
                let carried = capacity.between(from, to);
                assert_eq!(carried, ticks.between(from, to));
                // "twelve times the integral is a whole number"
                assert!((Fraction::whole(12) * carried).is_whole());
                compared += 1;
                whole += usize::from(carried.is_whole());
            }
        }
    }
    println!("{compared} capacities compared, {whole} of them whole");
    assert!(compared > 100_000 && whole < compared / 2);
}

// ---------------------------------------------------------------------------
// R-6's whole numbers

/// "twelve times the integral is a whole number for four coefficients": from the
/// offset to a distance.
fn twelvefold(opening: &Opening, distance: i128) -> i128 {
    let [c0, c1, c2, c3] = opening.contact.coefficients.map(i128::from);
    (((3 * c3 * distance + 4 * c2) * distance + 6 * c1) * distance + 12 * c0) * distance
}

/// The range rule over the twelvefold quotients. The numbers are in their limits.
fn is_in_range(opening: &Opening) -> bool {
    let Window { start, end } = opening.contact.window;
    let from_offset = |date: i64| date.abs_diff(opening.contact.offset);
    let distance = i128::from(from_offset(start).max(from_offset(end)));
    let mut value = 0;
    for (coefficient, fold) in opening.contact.coefficients.iter().zip([12, 6, 4, 3]).rev() {
        value = value * distance + fold * i128::from(*coefficient).abs();
        if value > 1 << 61 {
            return false;
        }
    }
    value * distance <= 1 << 61
}

/// The openings in mode 2 of many dialogues, those at the range rule's limit
/// among them.
fn openings(dialogues: usize) -> Vec<Opening> {
    let mut source = Dialogues::of(64, Modes::Both);
    let calls = (0..dialogues).flat_map(|_| source.dialogue().calls);
    let of_mode_2 = calls.filter_map(|call| match call {
        Call::Open(opening) if opening.mode == EXACT => Some(opening),
        _ => None,
    });
    of_mode_2.collect()
}

#[test]
fn twelvefold_whole_numbers_say_the_same() {
    let mut rng = Rng::new(64);
    let (mut refused, mut compared) = (0, 0);
    for opening in openings(20_000) {
        let mut flat = opening.clone();
        flat.contact.coefficients = [0; 4];
        let in_limits = |number: &i64| (-(1 << 61)..=1 << 61).contains(number);
        if refusal(&flat).is_some() || !opening.contact.coefficients.iter().all(in_limits) {
            continue;
        }
        assert_eq!(
            refusal(&opening).is_none(),
            is_in_range(&opening),
            "{opening}"
        );
        if !is_in_range(&opening) {
            refused += 1;
            continue;
        }
        let Window { start, end } = opening.contact.window;
        let to_date = |date| twelvefold(&opening, i128::from(date - opening.contact.offset));
        let (from, to) = (rng.between(start, end), rng.between(start, end));
        let carried = Capacity::of(&opening).between(from, to);
        let whole = Fraction::whole(to_date(to) - to_date(from));
        assert_eq!(Fraction::whole(12) * carried, whole, "{opening}");
        compared += 1;
    }
    println!("{compared} openings compared, {refused} refused");
    assert!(compared > 10_000 && refused > 1_000);
}

// ---------------------------------------------------------------------------
// Rectangles

/// So many rectangles a tick.
const THIN: i64 = 16;

/// Where the rate rises, rectangles of its lower values stay below the integral
/// and those of its upper values above it.
#[test]
fn thin_rectangles_enclose_the_integral() {
    let mut rng = Rng::new(61);
    for _ in 0..POLYNOMIALS / 10 {
        let mut opening = random(&mut rng, 1 << 20);
        let contact = &mut opening.contact;
        contact.offset = contact.window.start;
        contact.coefficients = contact.coefficients.map(i64::abs);
        let Window { start, end } = contact.window;
        let slices = (end - start) * THIN;
        let bound = |first: i64| {
            let heights = (first..first + slices).map(|slice| rate(&opening, slice));
            heights.fold(Fraction::ZERO, |sum, height| sum + height) * Fraction::of(1, THIN.into())
        };
        let (below, above) = (bound(0), bound(1));
        let carried = Capacity::of(&opening).between(start, end);
        assert!(below <= carried && carried <= above);
        // They come as close as the rate's whole rise over one slice.
        let rise = rate(&opening, slices) - rate(&opening, 0);
        assert_eq!(above - below, rise * Fraction::of(1, THIN.into()));
    }
}

/// The rate after so many slices, by its powers.
fn rate(opening: &Opening, slices: i64) -> Fraction {
    let at = Fraction::of(slices, THIN.into());
    let mut value = Fraction::ZERO;
    for (power, coefficient) in opening.contact.coefficients.iter().enumerate() {
        value = value + Fraction::whole(*coefficient) * at.power(power as u32);
    }
    value
}

#[test]
fn fractions() {
    let (half, third) = (Fraction::of(1, 2), Fraction::of(-2, 6));
    assert_eq!(half + third, Fraction::of(1, 6));
    assert_eq!(half - third, Fraction::of(5, 6));
    assert_eq!(half * third, Fraction::of(-1, 6));
    assert_eq!(third.abs(), Fraction::of(1, 3));
    assert_eq!((third.floor(), half.floor()), (-1, 0));
    assert_eq!(third.power(3), Fraction::of(-1, 27));
    assert!(third < Fraction::ZERO && Fraction::of(1, 3) < half);
    assert!(Fraction::of(6, 3).is_whole() && !half.is_whole());
    assert_eq!(format!("{third} {}", Fraction::of(6, 3)), "-1/3 2");
}
