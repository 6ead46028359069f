//! The delay segment that the oracle adds to a polynomial changes no answer of
//! the original: without it the original answers the same, and panics exactly
//! where the oracle answers 8.

extern crate asabr;

use std::panic::{self, AssertUnwindSafe};

use asabr::bundle::Bundle;
use asabr::contact::ContactInfo;
use asabr::contact_manager::ContactManager;
use asabr::contact_manager::segmentation::poly_seg::PolySegManager;
use asabr::poly::Polynome;
use asabr::types::{NodeID, TimeInterval};
use oracle::frames::{Dates, Frame, Load, PolyOpening, Request};
use oracle::generate::openings::{self, Scale};
use oracle::generate::rng::Rng;
use oracle::refusal::Refusal;
use oracle::{Oracle, calls};

/// The original as it is, over the delays as they are.
fn plain(opening: &PolyOpening) -> PolySegManager<4> {
    let mut manager = PolySegManager::new(
        Polynome::new(opening.coefficients, opening.offset.into()),
        calls::segments(&opening.delays),
    );
    let (start, end) = (opening.window.start.into(), opening.window.end.into());
    assert!(manager.try_init(&ContactInfo::new(
        NodeID::from(0),
        NodeID::from(1),
        start,
        end
    )));
    manager
}

fn plain_answer(
    manager: &PolySegManager<4>,
    opening: &PolyOpening,
    request: Request,
) -> Result<Dates, Refusal> {
    let window = TimeInterval {
        start: opening.window.start.into(),
        end: opening.window.end.into(),
    };
    let bundle = Bundle {
        priority: 0,
        size: request.load.size.into(),
        expiration: 0,
    };
    let call = || manager.dry_run_tx(window, request.time.into(), &bundle);
    let offer = panic::catch_unwind(AssertUnwindSafe(call)).map_err(|_| Refusal::NoDelay)?;
    let offer = offer.ok_or(Refusal::NoOffer)?;
    let dates = [
        offer.send.start,
        offer.send.end,
        offer.recv.start,
        offer.recv.end,
    ];
    Ok(Dates(dates.map(|date| date.try_into().unwrap())))
}

#[test]
fn answers_are_the_same_without_the_mark() {
    panic::set_hook(Box::new(|_| {}));
    let mut rng = Rng::new(40);
    let mut missing = 0;
    let mut offered = 0;
    for _ in 0..2_000 {
        let opening = openings::poly(&mut rng, Scale::Small);
        let mut oracle = Oracle::new();
        if oracle
            .answer_frame(&Frame::OpenPoly(opening.clone()))
            .is_err()
        {
            continue;
        }
        let manager = plain(&opening);
        for _ in 0..20 {
            let request = Request {
                time: rng.between(opening.window.start, opening.window.end),
                load: Load {
                    size: rng.between(1, 200),
                    priority: 0,
                },
            };
            let marked = oracle.dry_run(request);
            let same = marked == plain_answer(&manager, &opening, request);
            assert!(same, "{opening:?} {request:?}");
            missing += usize::from(marked == Err(Refusal::NoDelay));
            offered += usize::from(marked.is_ok());
        }
    }
    let _ = panic::take_hook();
    assert!(missing > 1_000 && offered > 1_000, "{missing} {offered}");
}
