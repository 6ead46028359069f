//! Ways to look delays up wrongly, for the wrong programs of all trials.

use oracle::frames::Dates;
use oracle::rules::lookup::Delays;
use oracle::rules::{EARLIER, LATER};

#[derive(Clone, Copy, Debug, PartialEq, Eq)]
pub enum Lookup {
    /// Rule 2 is rule 1: a boundary has the earlier delay.
    AlwaysEarlier,
    /// Rule 1 is rule 2.
    AlwaysLater,
    /// Under rule 2 the start is looked up by rule 1.
    StartEarlier,
    /// Under rule 2 the end is looked up by rule 1.
    EndEarlier,
    /// Under rule 2 the end has the delay of the tick before it.
    EndOfLastTick,
    /// Under rule 2 the end has the start's delay.
    EndAsStart,
    /// Under rule 2 nothing is found at the window's end.
    NothingAtEnd,
    /// Under rule 2 the first segment is found at the window's end.
    FirstAtEnd,
    /// Under rule 2 the window's start has the second segment.
    SecondAtStart,
}

impl Lookup {
    pub const ALL: [Lookup; 9] = [
        Lookup::AlwaysEarlier,
        Lookup::AlwaysLater,
        Lookup::StartEarlier,
        Lookup::EndEarlier,
        Lookup::EndOfLastTick,
        Lookup::EndAsStart,
        Lookup::NothingAtEnd,
        Lookup::FirstAtEnd,
        Lookup::SecondAtStart,
    ];

    /// A send's dates, as the program that is wrong in this way has them.
    pub fn dates(self, delays: Delays, start: i64, end: i64) -> Result<Dates, u8> {
        let under = |rule| Delays { rule, ..delays };
        match self {
            Lookup::AlwaysEarlier => under(EARLIER).dates(start, end),
            Lookup::AlwaysLater => under(LATER).dates(start, end),
            _ if delays.rule == EARLIER => delays.dates(start, end),
            _ => self.later(delays, start, end),
        }
    }

    /// Under rule 2.
    fn later(self, delays: Delays, start: i64, end: i64) -> Result<Dates, u8> {
        let earlier = Delays {
            rule: EARLIER,
            ..delays
        };
        let at = |delays: Delays, date| delays.dates(date, date).map(|Dates(all)| all[2] - date);
        let of = |place: usize| delays.list.get(place).map_or(Err(8), |it| Ok(it.value));
        let mut first = at(delays, start);
        let mut second = at(delays, end);
        let is_last = end == delays.window.end;
        match self {
            Lookup::StartEarlier => first = at(earlier, start),
            Lookup::EndEarlier => second = at(earlier, end),
            Lookup::EndOfLastTick if end > start => second = at(delays, end - 1),
            Lookup::EndAsStart => second = first,
            Lookup::NothingAtEnd if is_last => second = Err(8),
            Lookup::FirstAtEnd if is_last => second = of(0),
            Lookup::SecondAtStart if start == delays.window.start => first = of(1),
            _ => {}
        }
        Ok(Dates([start, end, start + first?, end + second?]))
    }
}
