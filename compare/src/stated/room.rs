//! What document 02's R-1 states: the sum of the listed free volumes, set by
//! the opening, kept true by every booking, and answered by frame 15.

use super::{Talk, all_over_a, contact_a, load, plain, poly_a, queue_a, request, spans_of, two_to};
use crate::frames::{Frame, PolyOpening, QueueOpening, RatedOpening, Window, flag};
use crate::refusal::Refusal;

pub fn talks() -> Vec<Talk> {
    let mut talks = vec![set_by_the_opening()];
    talks.extend(cases());
    talks.extend(rising());
    talks.extend([
        sends_without_length(),
        several_rates(),
        largest(),
        refused_calls_leave_it(),
        refused_openings_leave_it(),
        full_list(),
    ]);
    talks.extend(other_managers());
    talks.push(lines());
    talks
}

/// 1 with nothing open; another length is no frame then either.
pub fn nothing_open() -> Vec<Talk> {
    vec![
        Talk::about("room, nothing open")
            .line(b"15", b"01")
            .line(b"1500", b"ff")
            .line(b"15", b"01"),
    ]
}

fn free() -> Frame {
    Frame::OpenFree(contact_a())
}

fn with_rates<const N: usize>(rates: [(i64, i64, i64); N]) -> Frame {
    Frame::OpenFree(RatedOpening {
        rates: spans_of(rates),
        ..contact_a()
    })
}

/// The total volume, whatever was open before.
fn set_by_the_opening() -> Talk {
    Talk::about("room, set by the opening")
        .done(free())
        .line(b"15", b"000000000000000064")
        .lists(&[(0, 10, 100)])
        .books(request(3, 15, 0), [3, 4, 6, 7])
        .room(90)
        .done(free())
        .room(100)
        .done(with_rates([(0, 10, 0)]))
        .line(b"15", b"000000000000000000")
        .done(with_rates([(0, 4, 2), (4, 10, 5)]))
        .room(38)
        .done(with_rates([(0, 1, 7), (1, 9, 0), (9, 10, 1)]))
        .room(8)
}

/// Document 01's cases 1 to 5.
fn cases() -> Vec<Talk> {
    vec![
        Talk::about("room, case 1")
            .done(free())
            .room(100)
            .books(request(3, 15, 0), [3, 4, 6, 7])
            .room(90)
            .lists(&[(0, 3, 30), (4, 10, 60)]),
        Talk::about("room, case 2")
            .done(free())
            .books(request(0, 15, 0), [0, 1, 3, 4])
            .room(85),
        Talk::about("room, case 3")
            .done(free())
            .books(request(5, 9, 0), [5, 5, 8, 8])
            .room(50),
        Talk::about("room, case 4")
            .done(free())
            .no_offer(request(0, 101, 0))
            .room(100)
            .books(request(0, 100, 0), [0, 10, 3, 13])
            .room(0)
            .lists(&[(10, 10, 0)]),
        Talk::about("room, case 5")
            .done(free())
            .books(request(5, 50, 0), [5, 10, 8, 13])
            .room(50)
            .no_offer(request(3, 30, 0))
            .room(50)
            .books(request(3, 29, 0), [3, 5, 6, 8])
            .room(30)
            .lists(&[(0, 3, 30), (5, 5, 0), (10, 10, 0)]),
    ]
}

/// A cut works the volumes out anew, so that what earlier bookings took beyond
/// the capacity of their sends comes back, and the room can rise.
fn rising() -> Vec<Talk> {
    let two_ticks = plain(Window { start: 0, end: 2 }, 2, 0);
    let two_rates = RatedOpening {
        rates: spans_of([(0, 1, 3), (1, 2, 1)]),
        ..two_ticks.clone()
    };
    let mut nine_by_nine = Talk::about("room, from 10 to 90").done(free());
    for left in [91, 82, 73, 64, 55, 46, 37, 28, 19, 10] {
        nine_by_nine = nine_by_nine
            .books(request(0, 9, 0), [0, 0, 3, 3])
            .room(left);
    }
    vec![
        Talk::about("room, from 62 to 70")
            .done(free())
            .room(100)
            .books(request(0, 19, 0), [0, 1, 3, 4])
            .room(81)
            .books(request(1, 19, 0), [1, 2, 4, 5])
            .room(62)
            .lists(&[(2, 10, 62)])
            .books(request(5, 10, 0), [5, 6, 8, 9])
            .room(70)
            .lists(&[(2, 5, 30), (6, 10, 40)]),
        nine_by_nine
            .lists(&[(0, 10, 10)])
            .books(request(5, 10, 0), [5, 6, 8, 9])
            .room(90)
            .lists(&[(0, 5, 50), (6, 10, 40)]),
        // The last one is sent at the segment's end, which is not the
        // window's: nothing is cut off, and the volume is worked out anew.
        Talk::about("room, from 1 to 2: the smallest of one rate that rises")
            .done(Frame::OpenFree(two_ticks))
            .room(4)
            .books(request(1, 1, 0), [1, 1, 1, 1])
            .room(2)
            .books(request(0, 1, 0), [0, 0, 0, 0])
            .room(1)
            .lists(&[(0, 1, 1)])
            .books(request(1, 1, 0), [1, 1, 1, 1])
            .room(2)
            .lists(&[(0, 1, 2)]),
        // With a lower rate to follow, the second booking takes less than it
        // gives back.
        Talk::about("room, from 2 to 3: two rates, two bookings")
            .done(Frame::OpenFree(two_rates))
            .room(4)
            .books(request(0, 2, 0), [0, 0, 0, 0])
            .room(2)
            .books(request(1, 1, 0), [1, 2, 1, 2])
            .room(3)
            .lists(&[(0, 1, 3), (2, 2, 0)]),
    ]
}

/// At a segment's start the size goes; inside, the right part goes.
fn sends_without_length() -> Talk {
    Talk::about("room, sends without length")
        .done(free())
        .books(request(0, 9, 0), [0, 0, 3, 3])
        .room(91)
        .books(request(9, 1, 0), [9, 9, 12, 12])
        .room(90)
        .lists(&[(0, 9, 90)])
        .books(request(5, 9, 0), [5, 5, 8, 8])
        .room(50)
        .books(request(1, 9, 0), [1, 1, 4, 4])
        .room(10)
        .books(request(0, 9, 0), [0, 0, 3, 3])
        .room(1)
        .lists(&[(0, 1, 1)])
}

fn several_rates() -> Talk {
    Talk::about("room, several rates")
        .done(with_rates([(0, 4, 2), (4, 10, 5)]))
        .room(38)
        .books(request(1, 14, 0), [1, 5, 4, 8])
        .room(27)
        .lists(&[(0, 1, 2), (5, 10, 25)])
        .books(request(0, 2, 0), [0, 1, 3, 4])
        .room(25)
        .books(request(5, 7, 0), [5, 6, 8, 9])
        .room(18)
        .lists(&[(1, 1, 0), (6, 10, 18)])
        .books(request(8, 5, 0), [8, 9, 11, 12])
        .room(15)
        .lists(&[(1, 1, 0), (6, 8, 10), (9, 10, 5)])
}

/// A total of 2^38: in one tick, in 2^24, and in two segments.
fn largest() -> Talk {
    let one_tick = plain(Window { start: 0, end: 1 }, two_to(38), 0);
    let longest = Window {
        start: 5,
        end: 5 + two_to(24),
    };
    let halves = RatedOpening {
        window: Window {
            start: two_to(40) - 2,
            end: two_to(40),
        },
        rates: spans_of([
            (two_to(40) - 2, two_to(40) - 1, two_to(37)),
            (two_to(40) - 1, two_to(40), two_to(37)),
        ]),
        delays: spans_of([(two_to(40) - 2, two_to(40), 0)]),
    };
    Talk::about("room, a total of 2^38")
        .done(Frame::OpenFree(one_tick))
        .line(b"15", b"000000004000000000")
        .books(request(0, two_to(38), 0), [0, 1, 0, 1])
        .room(0)
        .done(Frame::OpenFree(plain(longest, two_to(14), 0)))
        .line(b"15", b"000000004000000000")
        .books(request(5, 1, 0), [5, 5, 5, 5])
        .line(b"15", b"000000003fffffffff")
        .done(Frame::OpenFree(halves))
        .room(274_877_906_944)
}

/// Dry runs, lists, refused bookings, manual queueing and frame 15 itself.
fn refused_calls_leave_it() -> Talk {
    let dates = [3, 4, 6, 7];
    Talk::about("room, calls that leave it")
        .done(free())
        .books(request(3, 15, 0), dates)
        .room(90)
        .room(90)
        .offers(request(4, 15, 0), [4, 5, 7, 8])
        .no_offer(request(0, 61, 0))
        .room(90)
        .refuses_booking(request(3, 15, 0), dates, Refusal::NotOffered)
        .room(90)
        .refuses_booking(request(4, 15, 0), [4, 5, 7, 9], Refusal::NotOffered)
        .room(90)
        .refuses_booking(request(3, 0, 0), dates, Refusal::Bundle)
        .room(90)
        .refused(Frame::Enqueue(load(1, 0)), Refusal::NotManual)
        .refused(Frame::Dequeue(load(1, 0)), Refusal::NotManual)
        .room(90)
        .lists(&[(0, 3, 30), (4, 10, 60)])
        .room(90)
}

/// The old record is kept, and its room; the next booking goes on from there.
fn refused_openings_leave_it() -> Talk {
    let wrong = Window { start: 1, end: 1 };
    let rated = || RatedOpening {
        window: wrong,
        ..contact_a()
    };
    let refused = [
        Frame::OpenFree(rated()),
        Frame::OpenPriority(rated()),
        Frame::OpenPoly(PolyOpening {
            window: wrong,
            ..poly_a()
        }),
        Frame::OpenQueue(QueueOpening {
            window: wrong,
            ..queue_a(1, 0)
        }),
    ];
    let mut talk = Talk::about("room, refused openings leave it")
        .done(free())
        .books(request(3, 15, 0), [3, 4, 6, 7]);
    for open in refused {
        talk = talk.refused(open, Refusal::Window).room(90);
    }
    talk.books(request(4, 15, 0), [4, 5, 7, 8])
        .room(75)
        .lists(&[(0, 3, 30), (5, 10, 45)])
}

/// 63 bookings of one tick of ten, each inside the last segment, list 64; one
/// more is refused with 10.
fn full_list() -> Talk {
    let long = Window { start: 0, end: 200 };
    let mut talk = Talk::about("room, a full list")
        .done(Frame::OpenFree(plain(long, 10, 3)))
        .room(2000);
    let at_tick = |time: i64| [time, time + 1, time + 3, time + 4];
    for count in 1..64 {
        let time = 2 * count;
        talk = talk.books(request(time, 10, 0), at_tick(time));
    }
    talk.room(1370)
        .refuses_booking(request(150, 10, 0), at_tick(150), Refusal::ListFull)
        .room(1370)
        .books(request(0, 10, 0), at_tick(0))
        .room(1360)
}

/// 12 on every manager but the free-volume one, before and after a booking.
fn other_managers() -> Vec<Talk> {
    let updating = (
        "self-updating queue",
        Frame::OpenQueue(queue_a(3, flag::SELF_UPDATE)),
    );
    all_over_a()
        .into_iter()
        .filter(|(name, _)| *name != "free")
        .chain([updating])
        .map(|(name, open)| {
            Talk::about(format!("room, {name}"))
                .done(free())
                .room(100)
                .done(open)
                .line(b"15", b"0c")
                .books(request(3, 20, 1), [3, 5, 6, 8])
                .line(b"15", b"0c")
                .done(free())
                .room(100)
        })
        .collect()
}

/// One byte and no more; what is no frame leaves the record as it is.
fn lines() -> Talk {
    let mut talk = Talk::about("room, lines of another length")
        .done(free())
        .books(request(0, 15, 0), [0, 1, 3, 4]);
    for line in [
        "1",
        "5",
        "150",
        "1500",
        "1515",
        "15 ",
        " 15",
        "15\r",
        "1g",
        "g5",
        "0x15",
        "150000000000000000",
        "150000000000000055",
    ] {
        talk = talk.line(line.as_bytes(), b"ff").room(85);
    }
    talk.line(&[b"15".repeat(1024), b"0".to_vec()].concat(), b"ff")
        .line(&b"15".repeat(1024), b"ff")
        .room(85)
        .lists(&[(1, 10, 85)])
}
