//! Which answers are checked, and what is told of a difference.

use oracle::Oracle;
use oracle::earliest::claim::Place;
use oracle::earliest::figures::Figures;
use oracle::earliest::watch::{About, Difference, Watch};
use oracle::frames::{Frame, RatedOpening, Window};
use oracle::stated::{A_WINDOW, contact_a, plain, request, spans_of};

use super::lines;

fn open_a() -> Frame {
    Frame::OpenPriority(contact_a())
}

fn dry_run() -> Frame {
    Frame::DryRun(request(0, 10, 0))
}

/// The oracle's answers to these frames, watched.
fn figures(frames: &[Frame]) -> Figures {
    let mut oracle = Oracle::new();
    let mut watch = Watch::new();
    for line in frames.iter().map(Frame::encode) {
        assert_eq!(watch.see(&line, &oracle.answer(&line)), None);
    }
    watch.figures
}

/// The difference in the last of these answers.
fn difference(steps: &[(Frame, &[u8])]) -> Difference {
    let mut watch = Watch::new();
    let (last, before) = steps.split_last().unwrap();
    for (frame, answer) in before {
        assert_eq!(watch.see(&frame.encode(), answer), None);
    }
    watch.see(&last.0.encode(), last.1).expect("a difference")
}

#[test]
fn a_dry_run_right_after_its_list_is_checked() {
    let figures = figures(&[open_a(), Frame::List, dry_run()]);
    assert_eq!((figures.checked, figures.offers), (1, 1));
}

#[test]
fn what_is_passed_over() {
    let free = Frame::OpenFree(contact_a());
    let bad = Frame::DryRun(request(0, 0, 0));
    let window = Window {
        start: 0,
        end: 4_097,
    };
    let long = Frame::OpenPriority(plain(window, 1, 0));
    let passed = |frames: &[Frame]| {
        let figures = figures(frames);
        assert_eq!(figures.checked, 0);
        figures
    };
    assert_eq!(passed(&[Frame::List, dry_run()]).no_record, 1);
    assert_eq!(
        passed(&[open_a(), free, Frame::List, dry_run()]).no_record,
        1
    );
    assert_eq!(passed(&[open_a(), Frame::List, bad]).bad_bundle, 1);
    assert_eq!(passed(&[long, Frame::List, dry_run()]).long_window, 1);
    assert_eq!(passed(&[open_a(), dry_run()]).not_listed, 1);
    let between = [open_a(), Frame::List, Frame::Room, dry_run()];
    assert_eq!(passed(&between).not_listed, 1);
}

#[test]
fn a_refused_opening_keeps_the_record() {
    let backward = Window { start: 5, end: 4 };
    let wrong = Frame::OpenPriority(plain(backward, 1, 0));
    let figures = figures(&[open_a(), wrong, Frame::List, dry_run()]);
    assert_eq!(figures.checked, 1);
}

/// It is no record of document 01, so that the claim says nothing of it.
#[test]
fn a_wrong_opening_that_is_accepted_is_no_record() {
    let mut watch = Watch::new();
    let wrong = Frame::OpenPriority(RatedOpening {
        window: Window {
            start: i64::MIN,
            end: i64::MAX,
        },
        ..contact_a()
    });
    for (frame, answer) in [(wrong, "00"), (Frame::List, "0000"), (dry_run(), "07")] {
        assert_eq!(watch.see(&frame.encode(), answer.as_bytes()), None);
    }
    assert_eq!(watch.figures.no_record, 1);
}

/// Contact A's list, not booked.
fn listed_a() -> Vec<u8> {
    let mut oracle = Oracle::new();
    oracle.answer(&open_a().encode());
    oracle.answer(&Frame::List.encode())
}

#[test]
fn a_difference_tells_all_since_the_opening() {
    let found = difference(&[
        (Frame::OpenFree(contact_a()), b"00"),
        (open_a(), b"00"),
        (Frame::Room, b"0c"),
        (Frame::List, &listed_a()),
        (dry_run(), b"07"),
    ]);
    let frames = [open_a(), Frame::Room, Frame::List, dry_run()];
    let frames: Vec<Vec<u8>> = frames.iter().map(Frame::encode).collect();
    assert!(lines(&found.frames).eq(frames.iter().map(Vec::as_slice)));
    assert_eq!(found.answer, b"07");
    let about = About::DryRun {
        listed: spans_of([(0, 10, -1)]),
        request: request(0, 10, 0),
        claim: Some(Place { start: 0, end: 1 }),
    };
    assert_eq!(found.about, about);
}

/// No list at all, none of a window that ends later, and a refusal.
#[test]
fn a_list_that_does_not_cover_the_window_is_a_difference() {
    let window = Window { start: 0, end: 11 };
    let longer = Frame::OpenPriority(plain(window, 10, 0));
    let about = |open, answer| difference(&[(open, b"00"), (Frame::List, answer)]).about;
    assert_eq!(about(open_a(), b"0000"), About::List(A_WINDOW));
    assert_eq!(about(open_a(), b"01"), About::List(A_WINDOW));
    assert_eq!(about(longer, &listed_a()), About::List(window));
}
