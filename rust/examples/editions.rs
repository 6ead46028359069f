//! Books the same small bundles on two passes, one of each edition of the end
//! rule, and prints what each sends and what room it has left.

use howrekano::{Bundle, Choices, DelaySegment, FreeVolume, Interval, RateSegment, Refusal};

const WINDOW: Interval = Interval { start: 0, end: 12 };
const RATE: u64 = 10;

/// When each bundle is asked for, and its size.
const ASKED: [(u64, u64); 8] = [
    (0, 4),
    (0, 15),
    (6, 9),
    (3, 12),
    (3, 7),
    (8, 29),
    (0, 20),
    (0, 1),
];

/// A pass and what was booked on it.
struct Pass {
    contact: FreeVolume,
    sizes: u64,
    ticks: u64,
}

fn main() -> Result<(), Refusal> {
    println!(
        "Edition 2 lets a send last until its final unit has left; edition 1, the original's, \
         rounds its end down.\n"
    );
    println!("A pass of {} ticks at rate {RATE}:\n", ticks(WINDOW));
    let mut passes = [opened(1)?, opened(2)?];
    println!("           | edition 1         | edition 2");
    println!("at    size | sent         room | sent         room");
    for (at, size) in ASKED {
        print!("{at:>2}    {size:>4}");
        for pass in &mut passes {
            let sent = match pass.book(at, size) {
                Ok(send) => format!("{} to {}", send.start, send.end),
                Err(refusal) => format!("refused ({})", refusal.number()),
            };
            print!(" | {sent:<11}  {:>4}", pass.contact.room());
        }
        println!();
    }
    println!();
    for pass in passes {
        println!(
            "edition {}: sizes of {} in {} ticks, which carry {}",
            pass.contact.choices().edition,
            pass.sizes,
            pass.ticks,
            pass.ticks * RATE
        );
    }
    Ok(())
}

fn opened(edition: u64) -> Result<Pass, Refusal> {
    let Interval { start, end } = WINDOW;
    let rates = [RateSegment {
        start,
        end,
        rate: RATE,
    }];
    let delays = [DelaySegment {
        start,
        end,
        delay: 3,
    }];
    let choices = Choices {
        edition,
        ..Choices::default()
    };
    Ok(Pass {
        contact: FreeVolume::open_with(choices, WINDOW, &rates, &delays)?,
        sizes: 0,
        ticks: 0,
    })
}

impl Pass {
    fn book(&mut self, at: u64, size: u64) -> Result<Interval, Refusal> {
        let bundle = Bundle { size, priority: 0 };
        let offer = self.contact.dry_run(at, bundle)?;
        self.contact.book(at, bundle, offer)?;
        self.sizes += size;
        self.ticks += ticks(offer.send);
        Ok(offer.send)
    }
}

fn ticks(interval: Interval) -> u64 {
    interval.end - interval.start
}
