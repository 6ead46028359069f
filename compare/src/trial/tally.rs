//! How often calls of a kind had each number.

use std::collections::BTreeMap;

use super::words::grouped;

/// By what is called and the number that is answered.
#[derive(Clone, Debug, PartialEq, Eq)]
pub struct Tally<K>(BTreeMap<(K, u8), usize>);

impl<K> Default for Tally<K> {
    fn default() -> Self {
        Tally(BTreeMap::new())
    }
}

impl<K: Copy + Ord> Tally<K> {
    pub fn count(&mut self, called: K, number: u8) {
        *self.0.entry((called, number)).or_default() += 1;
    }

    pub fn all(&self) -> usize {
        self.0.values().sum()
    }

    pub fn of(&self, fits: impl Fn(K, u8) -> bool) -> usize {
        let counts = self.0.iter();
        let of_it = counts.filter(|((called, number), _)| fits(*called, *number));
        of_it.map(|(_, count)| count).sum()
    }

    /// In readable form, for each that was called.
    pub fn lines(&self) -> BTreeMap<K, String> {
        let mut lines: BTreeMap<K, String> = BTreeMap::new();
        for ((called, number), count) in &self.0 {
            let line = lines.entry(*called).or_default();
            let comma = if line.is_empty() { "" } else { ", " };
            *line += &format!("{comma}{} answered {number}", grouped(*count));
        }
        lines
    }
}
