//! The readings' records of rule 2 by the calls: case 7 in both editions and
//! modes, and rules written into records.

use oracle::editions::calls::Calls as RatedCalls;
use oracle::editions::reading::Reading as Rated;
use oracle::editions::terms::{
    FIRST, Field as RatedField, Manager, Opening as RatedOpened, SECOND,
};
use oracle::frames::{Dates, PolyOpening, RatedOpening, Span};
use oracle::modes::calls::Calls as PolyCalls;
use oracle::modes::reading::Reading as Poly;
use oracle::modes::terms::{EXACT, Field as PolyField, Opening as PolyOpened, PORTED};
use oracle::rules::{EARLIER, LATER};
use oracle::stated::{contact_a, poly_a, request, spans_of};
use oracle::strict::flag::OFF;

fn case_7() -> Vec<Span> {
    spans_of([(0, 4, 10), (4, 10, 2)])
}

fn rated(manager: Manager, edition: u64, rule: u64) -> Rated {
    let contact = RatedOpening {
        delays: case_7(),
        ..contact_a()
    };
    let mut reading = Rated::of(manager);
    let opening = RatedOpened {
        edition,
        rule,
        strict: OFF,
        contact,
    };
    assert_eq!(reading.open(&opening), Ok(()));
    reading
}

fn poly_opening(mode: u64, rule: u64, delays: Vec<Span>) -> PolyOpened {
    PolyOpened {
        mode,
        rule,
        strict: OFF,
        contact: PolyOpening { delays, ..poly_a() },
    }
}

fn poly(mode: u64, rule: u64) -> Poly {
    let mut reading = Poly::default();
    let opening = poly_opening(mode, rule, case_7());
    assert_eq!(reading.open(&opening), Ok(()));
    reading
}

/// The receive dates of whole ticks do not go by the edition or the mode.
#[test]
fn case_7_in_both_editions_and_modes() {
    let asked = request(4, 10, 0);
    for (rule, dates) in [(EARLIER, [4, 5, 14, 7]), (LATER, [4, 5, 6, 7])] {
        for edition in [FIRST, SECOND] {
            for manager in [Manager::Free, Manager::Priority] {
                let mut reading = rated(manager, edition, rule);
                assert_eq!(reading.dry_run(asked), Ok(Dates(dates)));
            }
        }
        for mode in [PORTED, EXACT] {
            assert_eq!(poly(mode, rule).dry_run(asked), Ok(Dates(dates)));
        }
    }
}

/// Under edition 2 the end is u, and its delay is that of u.
#[test]
fn edition_2_ends_at_the_boundary() {
    let asked = request(3, 9, 0);
    for (edition, rule, dates) in [
        (FIRST, EARLIER, [3, 3, 13, 13]),
        (FIRST, LATER, [3, 3, 13, 13]),
        (SECOND, EARLIER, [3, 4, 13, 14]),
        (SECOND, LATER, [3, 4, 13, 6]),
    ] {
        let mut reading = rated(Manager::Free, edition, rule);
        assert_eq!(reading.dry_run(asked), Ok(Dates(dates)));
    }
}

#[test]
fn a_rule_that_is_none_in_a_record_is_1() {
    let asked = request(4, 10, 0);
    let stated = Dates([4, 5, 6, 7]);
    for rule in [0, 3, 257, u64::MAX] {
        let mut reading = rated(Manager::Free, SECOND, LATER);
        assert_eq!(reading.write(RatedField::Rule(rule)), Err(1));
        assert_eq!(reading.dry_run(asked), Err(1));
        assert_eq!(reading.dry_run(request(-1, 0, 255)), Err(1));
        assert_eq!(reading.book(asked, stated), Err(1));
        assert_eq!((reading.list(), reading.room()), (Err(1), Err(1)));
        assert_eq!(reading.write(RatedField::Rule(LATER)), Ok(()));
        assert_eq!(reading.book(asked, stated), Ok(()));

        let mut reading = poly(EXACT, LATER);
        assert_eq!(reading.write(PolyField::Rule(rule)), Err(1));
        assert_eq!(reading.dry_run(asked), Err(1));
        assert_eq!(reading.book(asked, stated), Err(1));
        assert_eq!(reading.list(), Err(1));
        assert_eq!(reading.write(PolyField::Rule(LATER)), Ok(()));
        assert_eq!(reading.book(asked, stated), Ok(()));
    }
}

/// The other rule in a record is taken, and what was offered is no longer so.
#[test]
fn the_other_rule_in_a_record() {
    let asked = request(4, 10, 0);
    let mut reading = rated(Manager::Priority, FIRST, EARLIER);
    assert_eq!(reading.write(RatedField::Rule(LATER)), Ok(()));
    assert_eq!(reading.book(asked, Dates([4, 5, 14, 7])), Err(9));
    assert_eq!(reading.book(asked, Dates([4, 5, 6, 7])), Ok(()));
}

/// Delays that do not cover are none of a record of rule 2.
#[test]
fn a_gap_under_rule_2_is_5_in_openings_and_1_in_records() {
    let gap = spans_of([(0, 4, 10), (5, 10, 2)]);
    for mode in [PORTED, EXACT] {
        let mut reading = Poly::default();
        let refused = poly_opening(mode, LATER, gap.clone());
        assert_eq!(reading.open(&refused), Err(5));
        assert_eq!(reading.list(), Err(1));
        let opening = poly_opening(mode, EARLIER, gap.clone());
        assert_eq!(reading.open(&opening), Ok(()));
        assert_eq!(reading.write(PolyField::Rule(LATER)), Err(1));
        assert_eq!(reading.dry_run(request(4, 10, 0)), Err(1));
        assert_eq!(reading.list(), Err(1));
        assert_eq!(reading.open(&refused), Err(5));
        assert_eq!(reading.write(PolyField::Rule(EARLIER)), Ok(()));
        let dates = Dates([4, 5, 14, 7]);
        assert_eq!(reading.dry_run(request(4, 10, 0)), Ok(dates));
    }
}

/// 2 before 3, for each choice alone and for both.
#[test]
fn a_rule_that_is_none_is_2_before_all_else() {
    for rule in [0, 3, 255, 256, 257, u64::MAX] {
        for edition in [FIRST, SECOND, 3] {
            let mut contact = contact_a();
            contact.window.end = 0;
            let opening = RatedOpened {
                edition,
                rule,
                strict: OFF,
                contact,
            };
            assert_eq!(Rated::of(Manager::Priority).open(&opening), Err(2));
        }
        for mode in [PORTED, EXACT, 0] {
            let mut opening = poly_opening(mode, rule, vec![]);
            assert_eq!(Poly::default().open(&opening), Err(2));
            opening.contact.window.end = 0;
            assert_eq!(Poly::default().open(&opening), Err(2));
        }
    }
}
