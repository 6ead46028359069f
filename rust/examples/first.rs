//! Opens a contact, asks for an offer, books it, looks at the room left, and
//! tries to book it again.

use howrekano::{Bundle, DelaySegment, FreeVolume, Interval, RateSegment, Refusal};

fn main() -> Result<(), Refusal> {
    let window = Interval { start: 0, end: 10 };
    let rates = [RateSegment {
        start: 0,
        end: 10,
        rate: 10,
    }];
    let delays = [DelaySegment {
        start: 0,
        end: 10,
        delay: 3,
    }];
    let mut contact = FreeVolume::open(window, &rates, &delays)?;

    let bundle = Bundle {
        size: 15,
        priority: 0,
    };
    let offer = contact.dry_run(3, bundle)?;
    println!("offered: {offer:?}");
    contact.book(3, bundle, offer)?;
    for free in contact.list() {
        println!("free: {free:?}");
    }
    println!("room left: {}", contact.room());
    match contact.book(3, bundle, offer) {
        Ok(()) => println!("booked twice"),
        Err(refusal) => println!("again: {refusal}"),
    }
    Ok(())
}
