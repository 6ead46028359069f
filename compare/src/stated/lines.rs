//! Lines that are no frames, and the longest that are.

use super::{Talk, all_over_a, contact_a, poly_a, queue_a, request, span_of};
use crate::frames::{Dates, Frame, PolyOpening, RatedOpening, Span, Window, flag};
use crate::refusal::Refusal;

pub fn talks() -> Vec<Talk> {
    vec![
        digits(),
        kinds(),
        lengths(),
        counts(),
        flags(),
        long_frames(),
        too_long(),
        nothing_changed(),
    ]
}

const FF: &[u8] = b"ff";
/// Digits of the longest line that is read.
const LONGEST: usize = 2048;

fn malformed(talk: Talk, line: impl AsRef<[u8]>) -> Talk {
    talk.line(line.as_ref(), FF)
}

/// One frame of each layout, all right.
fn samples() -> Vec<Frame> {
    let mut samples: Vec<Frame> = all_over_a().map(|(_, open)| open).into();
    samples.extend([
        Frame::DryRun(request(3, 15, 1)),
        Frame::Book(request(3, 15, 1), Dates([3, 4, 6, 7])),
        Frame::List,
        Frame::Enqueue(request(0, 15, 1).load),
        Frame::Dequeue(request(0, 15, 1).load),
        Frame::Room,
    ]);
    samples
}

/// Another digit at the front, inside and at the end, with the length kept and
/// with the length changed.
fn digits() -> Talk {
    let mut talk = Talk::about("other digits");
    talk = malformed(talk, "");
    for other in [
        "g", "G", "A", "F", " ", "\t", "\r", "x", "-", "+", ".", "/", ":", "`", "@",
    ] {
        for frame in samples() {
            let line = String::from_utf8(frame.encode()).expect("digits");
            let middle = line.len() / 2;
            talk = malformed(talk, format!("{other}{}", &line[1..]));
            talk = malformed(talk, format!("{}{other}", &line[..line.len() - 1]));
            talk = malformed(
                talk,
                format!("{}{other}{}", &line[..middle], &line[middle + 1..]),
            );
            talk = malformed(talk, format!("{line}{other}"));
            talk = malformed(talk, format!("{other}{line}"));
        }
    }
    let upper = b"10000000000000000A000000000000000F01";
    let talk = malformed(talk, upper);
    malformed(talk, "0x12")
}

/// Every kind byte alone, and every other kind byte before a dry run's fields.
fn kinds() -> Talk {
    let mut talk = Talk::about("kinds").done(Frame::OpenFree(contact_a()));
    let fields = &Frame::DryRun(request(3, 15, 1)).encode()[2..];
    let fields = std::str::from_utf8(fields).expect("digits");
    for kind in 0..=u8::MAX {
        if kind != 0x12 && kind != 0x15 {
            talk = malformed(talk, format!("{kind:02x}"));
        }
        if kind != 0x10 {
            talk = malformed(talk, format!("{kind:02x}{fields}"));
        }
    }
    talk
}

/// Each layout one digit and one byte short, and one digit and one byte long.
fn lengths() -> Talk {
    let mut talk = Talk::about("lengths");
    for frame in samples() {
        let line = frame.encode();
        for less in 1..=2.min(line.len() - 1) {
            talk = malformed(talk, &line[..line.len() - less]);
        }
        for more in ["0", "00", "000", "0000000000000000"] {
            talk = malformed(talk, [&line, more.as_bytes()].concat());
        }
        for part in [line.len() / 4 * 2, line.len() / 2] {
            if part < line.len() && part > 0 && line[..part] != *b"12" {
                talk = malformed(talk, &line[..part]);
            }
        }
    }
    talk
}

/// A count byte that does not agree with the line.
fn counts() -> Talk {
    let mut talk = Talk::about("counts against lengths");
    let rated = Frame::OpenFree(contact_a()).encode();
    let poly = Frame::OpenPoly(poly_a()).encode();
    let with_count = |line: &[u8], byte: usize, count: u8| {
        let mut line = line.to_vec();
        line[2 * byte..2 * byte + 2].copy_from_slice(format!("{count:02x}").as_bytes());
        line
    };
    for count in [0, 2, 16, 17, 255] {
        talk = malformed(talk, with_count(&rated, 17, count));
        talk = malformed(talk, with_count(&rated, 18, count));
        talk = malformed(talk, with_count(&poly, 57, count));
    }
    // Both counts wrong, and their sum right: a frame again, and refused.
    let both = with_count(&with_count(&rated, 17, 2), 18, 0);
    let other = with_count(&with_count(&rated, 17, 0), 18, 2);
    talk.line(&both, b"04").line(&other, b"04")
}

fn flags() -> Talk {
    let mut talk = Talk::about("flags");
    for flags in 0..=u8::MAX {
        let open = Frame::OpenQueue(queue_a(1, flags));
        talk = match flags {
            0..=flag::ALL => talk.done(open),
            _ => malformed(talk, open.encode()),
        };
    }
    // The flags decide before the window does.
    let mut wrong = queue_a(1, 8);
    wrong.window = Window { start: 1, end: 0 };
    malformed(talk, Frame::OpenQueue(wrong).encode())
}

fn ticks(count: i64) -> Vec<Span> {
    (0..count)
        .map(|tick| span_of((tick, tick + 1, 1)))
        .collect()
}

/// Counts of 17 and more are frames where the line's length agrees.
fn long_frames() -> Talk {
    let with = |window: i64, rates, delays| {
        Frame::OpenFree(RatedOpening {
            window: Window {
                start: 0,
                end: window,
            },
            rates,
            delays,
        })
    };
    let whole = |end| vec![span_of((0, end, 1))];
    let poly = |count| {
        Frame::OpenPoly(PolyOpening {
            delays: ticks(count),
            ..poly_a()
        })
    };
    Talk::about("the longest frames")
        .refused(with(40, ticks(40), whole(40)), Refusal::Rates)
        .refused(with(41, ticks(41), Vec::new()), Refusal::Rates)
        .refused(with(40, whole(40), ticks(40)), Refusal::Delays)
        .refused(with(41, Vec::new(), ticks(41)), Refusal::Rates)
        .refused(with(0, ticks(41), Vec::new()), Refusal::Window)
        .refused(poly(40), Refusal::Delays)
        .done(poly(16))
}

/// More than 2,048 digits: ff, whatever the line holds.
fn too_long() -> Talk {
    let rated = Frame::OpenFree(RatedOpening {
        window: Window { start: 0, end: 41 },
        rates: ticks(41),
        delays: ticks(1),
    });
    let poly = Frame::OpenPoly(PolyOpening {
        delays: ticks(41),
        ..poly_a()
    });
    let mut talk = Talk::about("too long");
    for frame in [rated, poly] {
        let line = frame.encode();
        assert!(line.len() > LONGEST);
        talk = malformed(talk, &line);
    }
    for length in [LONGEST - 1, LONGEST, LONGEST + 1, LONGEST + 2, 2 * LONGEST] {
        talk = malformed(talk, vec![b'0'; length]);
        let mut dry_run = Frame::DryRun(request(3, 15, 1)).encode();
        dry_run.resize(length, b'0');
        talk = malformed(talk, dry_run);
    }
    malformed(talk, vec![b'1'; 70_000])
}

/// A malformed line leaves the record as it is.
fn nothing_changed() -> Talk {
    let talk = Talk::about("malformed lines change nothing")
        .done(Frame::OpenFree(contact_a()))
        .books(request(3, 15, 0), [3, 4, 6, 7]);
    let talk = malformed(talk, "1200");
    let talk = malformed(talk, &Frame::OpenFree(contact_a()).encode()[1..]);
    talk.lists(&[(0, 3, 30), (4, 10, 60)])
}
