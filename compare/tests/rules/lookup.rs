//! The lookup by itself, on every covering list of every short window.

use oracle::frames::{Dates, Span, Window};
use oracle::rules::cover::{covers, delays_cover};
use oracle::rules::lookup::Delays;
use oracle::rules::{EARLIER, LATER};

const LONGEST: i64 = 10;
const START: i64 = 3;

/// Every way to cut [start, end) into segments; each has its own delay.
fn covering(window: Window) -> Vec<Vec<Span>> {
    let inner = window.end - window.start - 1;
    let ways = 0..1_u32 << inner;
    let cut = |way: u32| {
        let is_cut = |place: &i64| way >> place & 1 == 1;
        let cuts = (0..inner).filter(is_cut).map(|it| window.start + 1 + it);
        let dates: Vec<i64> = [window.start]
            .into_iter()
            .chain(cuts)
            .chain([window.end])
            .collect();
        let spans = dates.windows(2).zip(1..).map(|(pair, value)| Span {
            start: pair[0],
            end: pair[1],
            value: 100 * value,
        });
        spans.collect()
    };
    ways.map(cut).collect()
}

fn windows() -> impl Iterator<Item = Window> {
    (1..=LONGEST).map(|length| Window {
        start: START,
        end: START + length,
    })
}

fn under(rule: u64, window: Window, list: &[Span]) -> Delays<'_> {
    Delays { rule, window, list }
}

/// Before the window's end exactly one segment holds a date; at it none does,
/// and the last is taken.
#[test]
fn each_date_has_exactly_one_segment() {
    let mut looked_up = 0;
    for window in windows() {
        for list in covering(window) {
            assert!(delays_cover(&list, window) || list.len() > 16);
            let later = under(LATER, window, &list);
            for date in window.start..window.end {
                let holds = |place: &usize| list[*place].start <= date && date < list[*place].end;
                let places: Vec<usize> = (0..list.len()).filter(holds).collect();
                assert_eq!(places.len(), 1);
                assert_eq!(later.place(date, 0), Some(places[0]));
                looked_up += 1;
            }
            assert_eq!(later.place(window.end, 0), Some(list.len() - 1));
        }
    }
    println!("{looked_up} dates looked up");
    assert!(looked_up > 9_000);
}

/// The two rules differ on inner boundaries, and nowhere else.
#[test]
fn only_inner_boundaries_differ() {
    for window in windows() {
        for list in covering(window) {
            let (earlier, later) = (under(EARLIER, window, &list), under(LATER, window, &list));
            for date in window.start..=window.end {
                let is_inner = list[1..].iter().any(|delay| delay.start == date);
                let (one, other) = (earlier.place(date, 0), later.place(date, 0));
                assert_eq!(other, one.map(|place| place + usize::from(is_inner)));
            }
        }
    }
}

/// Under rule 2 a send's two dates are looked up each by itself; under rule 1 the
/// end's lookup goes on from the start's, which on covering lists is the same.
#[test]
fn both_dates_of_every_send() {
    for window in windows() {
        for list in covering(window) {
            for rule in [EARLIER, LATER] {
                let delays = under(rule, window, &list);
                let received = |date| {
                    let place = delays.place(date, 0).expect("the list covers");
                    date + list[place].value
                };
                for start in window.start..=window.end {
                    for end in start..=window.end {
                        let dates = Dates([start, end, received(start), received(end)]);
                        assert_eq!(delays.dates(start, end), Ok(dates));
                    }
                }
            }
        }
    }
}

/// Lists of up to three segments about a window of three ticks, all of them:
/// those that cover are the ways to cut it.
#[test]
fn what_covers_is_a_way_to_cut() {
    let window = Window { start: 1, end: 4 };
    let ways = covering(window);
    let mut seen = 0;
    let mut lists: Vec<Vec<Span>> = vec![vec![]];
    for _ in 0..3 {
        lists = lists.iter().flat_map(|list| with_one_more(list)).collect();
        for list in &lists {
            let bare = |list: &[Span]| -> Vec<(i64, i64)> {
                list.iter().map(|span| (span.start, span.end)).collect()
            };
            let is_way = ways.iter().any(|way| bare(way) == bare(list));
            assert_eq!(covers(list, window, 16), is_way, "{list:?}");
            seen += usize::from(is_way);
        }
    }
    assert_eq!(seen, ways.len());
    assert!(!covers(&[], window, 16));
}

fn with_one_more(list: &[Span]) -> Vec<Vec<Span>> {
    let mut longer = Vec::new();
    for start in 0..=5 {
        for end in 0..=5 {
            let value = 7;
            let mut list = list.to_vec();
            list.push(Span { start, end, value });
            longer.push(list);
        }
    }
    longer
}
