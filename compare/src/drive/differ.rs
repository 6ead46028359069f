//! Two runs of answers, line by line.

/// The first line that differs, counted from zero. A side that has ended has
/// no line there.
#[derive(Clone, Debug, PartialEq, Eq)]
pub struct Difference {
    pub place: usize,
    pub expected: Option<Vec<u8>>,
    pub got: Option<Vec<u8>>,
}

/// The lines of a run, each with its line end, if it has one.
pub fn lines(text: &[u8]) -> impl Iterator<Item = &[u8]> {
    text.split_inclusive(|byte| *byte == b'\n')
}

/// A line without its line end.
pub fn bare(line: &[u8]) -> &[u8] {
    line.strip_suffix(b"\n").unwrap_or(line)
}

pub fn first(expected: &[u8], got: &[u8]) -> Option<Difference> {
    // Nearly always all is equal, and one comparison says so.
    if expected == got {
        return None;
    }
    pairs(expected, got)
        .enumerate()
        .find(|(_, (expected, got))| expected != got)
        .map(|(place, (expected, got))| Difference {
            place,
            expected: expected.map(<[u8]>::to_vec),
            got: got.map(<[u8]>::to_vec),
        })
}

pub fn count(expected: &[u8], got: &[u8]) -> usize {
    pairs(expected, got)
        .filter(|(expected, got)| expected != got)
        .count()
}

type Pair<'a> = (Option<&'a [u8]>, Option<&'a [u8]>);

fn pairs<'a>(expected: &'a [u8], got: &'a [u8]) -> impl Iterator<Item = Pair<'a>> {
    let mut expected = lines(expected);
    let mut got = lines(got);
    std::iter::from_fn(move || match (expected.next(), got.next()) {
        (None, None) => None,
        pair => Some(pair),
    })
}

#[cfg(test)]
mod tests {
    use super::*;

    #[test]
    fn equal_runs_do_not_differ() {
        assert_eq!(first(b"00\n01\n", b"00\n01\n"), None);
        assert_eq!(count(b"00\n01\n", b"00\n01\n"), 0);
    }

    #[test]
    fn the_first_other_line_is_found() {
        let found = first(b"00\n01\n02\n", b"00\n07\n03\n").expect("a difference");
        assert_eq!(found.place, 1);
        assert_eq!(found.expected.as_deref(), Some(&b"01\n"[..]));
        assert_eq!(found.got.as_deref(), Some(&b"07\n"[..]));
        assert_eq!(count(b"00\n01\n02\n", b"00\n07\n03\n"), 2);
    }

    #[test]
    fn a_missing_line_a_further_line_and_a_missing_line_end_differ() {
        let short = first(b"00\n01\n", b"00\n").expect("a difference");
        assert_eq!((short.place, short.got), (1, None));
        let long = first(b"00\n", b"00\n01\n").expect("a difference");
        assert_eq!((long.place, long.expected), (1, None));
        let open = first(b"00\n", b"00").expect("a difference");
        assert_eq!(open.place, 0);
    }
}
