//! The stored list: the same each time, and with every refusal number at every
//! manager that can give it.

use std::collections::BTreeSet;

use oracle::drive::differ::lines;
use oracle::frames::{self, kind};
use oracle::generate::list;

/// The kind of the record or opening, whether it was the opening that was
/// refused, and the number.
fn numbers() -> BTreeSet<(u8, bool, u8)> {
    let list = list::make();
    let mut open = 0;
    let mut numbers = BTreeSet::new();
    for (line, answer) in list.lines().zip(lines(&list.answers)) {
        let number = u8::from_str_radix(std::str::from_utf8(&answer[..2]).unwrap(), 16).unwrap();
        let Some(frame) = frames::decode(line) else {
            assert_eq!(number, 0xff);
            continue;
        };
        let is_opening = frame.is_opening();
        if is_opening && number == 0 {
            open = frame.kind();
        }
        let of = if is_opening { frame.kind() } else { open };
        numbers.insert((of, is_opening, number));
    }
    numbers
}

#[test]
fn every_manager_gives_every_number_it_can() {
    let found = numbers();
    let rated = [
        (true, vec![0, 3, 4, 5, 6]),
        (false, vec![0, 2, 7, 9, 10, 12]),
    ];
    let expected = [
        (0, vec![(false, vec![1])]),
        (kind::OPEN_FREE, rated.to_vec()),
        (kind::OPEN_PRIORITY, rated.to_vec()),
        (
            kind::OPEN_POLY,
            vec![
                (true, vec![0, 3, 5, 11]),
                (false, vec![0, 2, 7, 8, 9, 10, 12]),
            ],
        ),
        (
            kind::OPEN_QUEUE,
            vec![
                (true, vec![0, 3, 5, 6, 14]),
                (false, vec![0, 2, 7, 9, 12, 13]),
            ],
        ),
    ];
    let mut all = BTreeSet::new();
    for (of, groups) in expected {
        for (is_opening, numbers) in groups {
            all.extend(numbers.into_iter().map(|number| (of, is_opening, number)));
        }
    }
    assert_eq!(found, all);
}

/// Frame 15 is asked with nothing open and of every manager.
#[test]
fn every_manager_is_asked_for_its_room() {
    let list = list::make();
    let mut open = 0;
    let mut found = BTreeSet::new();
    for (line, answer) in list.lines().zip(lines(&list.answers)) {
        match frames::decode(line).map(|frame| frame.kind()) {
            Some(kind::ROOM) => drop(found.insert((open, answer[..2].to_vec()))),
            Some(of) if of < kind::DRY_RUN && answer == b"00\n" => open = of,
            _ => {}
        }
    }
    let expected = [
        (0, b"01"),
        (kind::OPEN_FREE, b"00"),
        (kind::OPEN_PRIORITY, b"0c"),
        (kind::OPEN_POLY, b"0c"),
        (kind::OPEN_QUEUE, b"0c"),
    ];
    let expected = expected.map(|(of, number)| (of, number.to_vec()));
    assert_eq!(found, BTreeSet::from(expected));
}

#[test]
fn it_is_the_same_each_time_and_of_some_thousands() {
    let (first, second) = (list::make(), list::make());
    assert_eq!(first.frames, second.frames);
    assert_eq!(first.answers, second.answers);
    assert!((3_000..10_000).contains(&first.count), "{}", first.count);
}
