//! Asks for the same housekeeping bundles on two passes, one of them opened with the
//! strict flag, and prints what each offers, books and has left; then looks for the
//! whole of a priority pass after a small bundle.

use howrekano::{
    Bundle, Choices, DelaySegment, FreeVolume, Interval, Manager, Offer, PrioritySeg, RateSegment,
    Record, Refusal,
};

const WINDOW: Interval = Interval { start: 0, end: 12 };
const RATE: u64 = 10;
const RATES: [RateSegment; 1] = [RateSegment {
    start: 0,
    end: 12,
    rate: RATE,
}];
const DELAYS: [DelaySegment; 1] = [DelaySegment {
    start: 0,
    end: 12,
    delay: 3,
}];

/// When each bundle is asked for, and its size: three small ones, two that take a
/// tick or more, and the small ones together.
const ASKED: [(u64, u64); 6] = [(8, 4), (5, 9), (0, 6), (3, 20), (8, 10), (8, 19)];

fn main() -> Result<(), Refusal> {
    println!(
        "The strict flag refuses to book a send that starts and ends on the same tick; a dry run \
         still shows it.\n"
    );
    println!("A pass of {} ticks at rate {RATE}:\n", WINDOW.end);
    let [mut off, mut on] = [free(0)?, free(1)?];
    println!("           | off                             | strict");
    println!("at    size | offered      booked        room | offered      booked        room");
    for (at, size) in ASKED {
        let columns = [&mut off, &mut on].map(|pass| {
            let (offered, booked) = asked(pass, at, size);
            format!("{offered:<11}  {booked:<12}  {:>4}", pass.room())
        });
        println!("{at:>2}    {size:>4} | {} | {}", columns[0], columns[1]);
    }
    println!("\nfree, off:    {}", stretches(&off));
    println!("free, strict: {}", stretches(&on));

    println!("\nA priority pass with 9 units asked for at 5, then the whole of it at 0:\n");
    for (strict, name) in [(0, "off"), (1, "strict")] {
        let mut pass = priority(strict)?;
        let (_, booked) = asked(&mut pass, 5, 9);
        let (whole, _) = asked(&mut pass, 0, WINDOW.end * RATE);
        println!("{name:<6}  9 units: {booked:<13} the whole: {whole}");
    }
    println!("\n{}", Refusal::ZERO_LENGTH);
    Ok(())
}

fn choices(strict: u64) -> Choices {
    Choices {
        strict,
        ..Choices::default()
    }
}

fn free(strict: u64) -> Result<FreeVolume, Refusal> {
    FreeVolume::open_with(choices(strict), WINDOW, &RATES, &DELAYS)
}

fn priority(strict: u64) -> Result<PrioritySeg, Refusal> {
    PrioritySeg::open_with(choices(strict), WINDOW, &RATES, &DELAYS)
}

/// What is offered, and what comes of booking it.
fn asked<R: Record>(pass: &mut Manager<R>, at: u64, size: u64) -> (String, String) {
    let bundle = Bundle { size, priority: 0 };
    let offer = match pass.dry_run(at, bundle) {
        Ok(offer) => offer,
        Err(refusal) => return (refused(refusal), String::new()),
    };
    let booked = match pass.book(at, bundle, offer) {
        Ok(()) => "booked".to_string(),
        Err(refusal) => refused(refusal),
    };
    let Offer { send, .. } = offer;
    (format!("{} to {}", send.start, send.end), booked)
}

fn refused(refusal: Refusal) -> String {
    format!("refused ({})", refusal.number())
}

fn stretches(pass: &FreeVolume) -> String {
    let listed = pass.list().iter();
    let listed = listed.map(|s| format!("[{},{}) {}", s.start, s.end, s.volume));
    listed.collect::<Vec<_>>().join("  ")
}
