//! Document 01's eleven cases and its example.

use super::{Talk, contact_a, poly_a, queue_a, request, spans_of};
use crate::frames::{Frame, PolyOpening, QueueOpening, RatedOpening, flag};

pub fn talks() -> Vec<Talk> {
    let mut talks = vec![example()];
    talks.extend(eleven());
    talks
}

pub fn example() -> Talk {
    Talk::about("the example")
        .line(
            b"010000000000000000000000000000000a01010000000000000000000000000000000a\
              000000000000000a0000000000000000000000000000000a0000000000000003",
            b"00",
        )
        .line(
            b"100000000000000003000000000000000f01",
            b"000000000000000003000000000000000400000000000000060000000000000007",
        )
        .line(
            b"12",
            b"00010000000000000000000000000000000a0000000000000064",
        )
}

/// A case that opens twice stands as two exchanges.
pub fn eleven() -> Vec<Talk> {
    let free = || Frame::OpenFree(contact_a());
    let priority = || Frame::OpenPriority(contact_a());
    vec![
        Talk::about("case 1")
            .done(free())
            .books(request(3, 15, 0), [3, 4, 6, 7])
            .lists(&[(0, 3, 30), (4, 10, 60)]),
        Talk::about("case 2")
            .done(free())
            .books(request(0, 15, 0), [0, 1, 3, 4])
            .lists(&[(1, 10, 85)]),
        Talk::about("case 3")
            .done(free())
            .books(request(5, 9, 0), [5, 5, 8, 8])
            .lists(&[(0, 5, 50)]),
        Talk::about("case 4")
            .done(free())
            .books(request(0, 100, 0), [0, 10, 3, 13])
            .lists(&[(10, 10, 0)]),
        Talk::about("case 4, one more")
            .done(free())
            .no_offer(request(0, 101, 0)),
        Talk::about("case 5")
            .done(free())
            .books(request(5, 50, 0), [5, 10, 8, 13])
            .offers(request(3, 29, 0), [3, 5, 6, 8])
            .no_offer(request(3, 30, 0)),
        case_6(),
        case_7(),
        Talk::about("case 8")
            .done(priority())
            .books(request(2, 30, 1), [2, 5, 5, 8])
            .lists(&[(0, 2, -1), (2, 5, 1), (5, 10, -1)])
            .offers(request(0, 30, 1), [5, 8, 8, 11])
            .books(request(0, 30, 2), [0, 3, 3, 6])
            .lists(&[(0, 2, 2), (2, 3, 2), (3, 5, 1), (5, 10, -1)]),
        Talk::about("case 9")
            .done(priority())
            .books(request(5, 9, 0), [5, 5, 8, 8])
            .lists(&[(0, 5, -1), (5, 5, 0), (5, 10, -1)])
            .no_offer(request(0, 100, 0)),
        Talk::about("case 10")
            .done(Frame::OpenPoly(poly_a()))
            .offers(request(3, 15, 0), [3, 5, 6, 8])
            .offers(request(3, 20, 0), [3, 5, 6, 8]),
        Talk::about("case 10, a quotient of zero")
            .done(Frame::OpenPoly(PolyOpening {
                coefficients: [0, 1, 0, 0],
                ..poly_a()
            }))
            .no_offer(request(0, 1, 0)),
        case_11(),
    ]
}

fn case_6() -> Talk {
    Talk::about("case 6")
        .done(Frame::OpenFree(RatedOpening {
            rates: spans_of([(0, 4, 2), (4, 10, 5)]),
            ..contact_a()
        }))
        .offers(request(1, 11, 0), [1, 5, 4, 8])
        .offers(request(1, 14, 0), [1, 5, 4, 8])
}

fn case_7() -> Talk {
    Talk::about("case 7")
        .done(Frame::OpenFree(RatedOpening {
            delays: spans_of([(0, 4, 10), (4, 10, 2)]),
            ..contact_a()
        }))
        .offers(request(4, 10, 0), [4, 5, 14, 7])
}

fn case_11() -> Talk {
    Talk::about("case 11")
        .done(Frame::OpenQueue(QueueOpening {
            delay: 2,
            ..queue_a(3, flag::ADDED_DELAY | flag::SELF_UPDATE)
        }))
        .books(request(0, 25, 1), [0, 2, 2, 4])
        .queues(&[25, 25, 0])
        .offers(request(0, 25, 0), [2, 4, 4, 6])
}
