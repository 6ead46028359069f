//! Flaws of the openings, of the record's test and of the lists.

use oracle::frames::{Request, Span, Window};
use oracle::modes::reading::opening::refusal;
use oracle::modes::reading::record::{Record, Send, test_request};
use oracle::modes::terms::{EXACT, Opening, PORTED, is_mode};
use oracle::rules::cover::delays_cover;
use oracle::rules::{EARLIER, LATER, is_rule};
use oracle::strict::flag::is_flag;

use super::flaw::Flaw;
use super::range;

// ---------------------------------------------------------------------------
// Openings

/// The opening as the program reads it.
pub fn opening(flaw: Flaw, opening: &Opening) -> Result<Opening, u8> {
    let read = named(flaw, opening);
    let refused = match flaw {
        Flaw::TwoAfterThree => without_mode(&read).filter(|number| *number == 3),
        Flaw::TwoLast => without_mode(&read),
        Flaw::RuleAfterThree => without_rule(&read).filter(|number| *number == 3),
        Flaw::GapAfterEleven => without_rule(&read).filter(|number| *number == 11),
        Flaw::GapIsEleven => gap(&read).map(|_| 11),
        Flaw::EarlierCovers => gap(&ruled(&read, LATER)).filter(|_| is_rule(read.rule)),
        Flaw::ElevenBeforeFive => eleven_first(&read),
        Flaw::SeventeenDelays => seventeen(&read),
        Flaw::NoBackwardDelay => {
            let is_backward = |delay: &Span| delay.end < delay.start;
            let fits = refusal(&read).is_none();
            (fits && read.contact.delays.iter().any(is_backward)).then_some(5)
        }
        _ => None,
    };
    let refused = refused.or_else(|| match range::is_of(flaw) {
        true => refusal_by_range(flaw, &read),
        false if flaw == Flaw::SeventeenDelays => None,
        false if opens_loose(flaw, &read) => None,
        false => refusal(&read),
    });
    refused.map_or(Ok(read), Err)
}

/// 5, if all that is wrong is that delays do not cover.
fn gap(opening: &Opening) -> Option<u8> {
    let refused = refusal(opening).filter(|number| *number == 5)?;
    without_rule(opening).is_none().then_some(refused)
}

/// Whether these delays open under rule 2.
fn opens_loose(flaw: Flaw, opening: &Opening) -> bool {
    let contact = &opening.contact;
    let up_to = |end| {
        let start = contact.window.start;
        delays_cover(&contact.delays, Window { start, end })
    };
    let last = contact.delays.last().map_or(0, |delay| delay.end);
    let is_loose = match flaw {
        Flaw::GapOpens => true,
        Flaw::NoneOpens => contact.delays.is_empty(),
        Flaw::LongerOpens => last > contact.window.end && up_to(last),
        _ => false,
    };
    is_loose && gap(opening).is_some()
}

fn ruled(opening: &Opening, rule: u64) -> Opening {
    Opening {
        rule,
        ..opening.clone()
    }
}

/// What is wrong with an opening but for its rule.
fn without_rule(opening: &Opening) -> Option<u8> {
    refusal(&ruled(opening, EARLIER))
}

fn named(flaw: Flaw, opening: &Opening) -> Opening {
    let mode = match (flaw, opening.mode) {
        (Flaw::ThirdOpens, 3) => EXACT,
        (Flaw::ZeroOpens, 0) => PORTED,
        (Flaw::LowByte, mode) => mode & 0xff,
        (_, mode) => mode,
    };
    let rule = match (flaw, opening.rule) {
        (Flaw::RuleThirdOpens, 3) => LATER,
        (Flaw::RuleZeroOpens, 0) => EARLIER,
        (Flaw::RuleLowByte, rule) => rule & 0xff,
        (_, rule) => rule,
    };
    Opening {
        mode,
        rule,
        ..opening.clone()
    }
}

/// What is wrong with an opening but for its mode.
fn without_mode(opening: &Opening) -> Option<u8> {
    refusal(&Opening {
        mode: PORTED,
        ..opening.clone()
    })
}

fn eleven_first(opening: &Opening) -> Option<u8> {
    let mut without_delays = opening.clone();
    without_delays.contact.delays.clear();
    refusal(&without_delays)
}

/// Of 17 segments the last is not looked at.
fn seventeen(opening: &Opening) -> Option<u8> {
    let mut shorter = opening.clone();
    if shorter.contact.delays.len() == 17 {
        shorter.contact.delays.pop();
    }
    refusal(&shorter)
}

/// 2, 3 and 5 as they are, then the numbers' limits, then the flawed steps.
fn refusal_by_range(flaw: Flaw, opening: &Opening) -> Option<u8> {
    let mut flat = opening.clone();
    flat.contact.coefficients = [0; 4];
    let limit = 1 << 61;
    let in_limits = |number: &i64| (-limit..=limit).contains(number);
    refusal(&flat).or_else(|| {
        let fits = opening.contact.coefficients.iter().all(in_limits);
        (!fits || !range::fits(flaw, opening)).then_some(11)
    })
}

// ---------------------------------------------------------------------------
// The record's test

/// The record as the program reads it.
pub fn read(flaw: Flaw, record: &Record) -> Record {
    let mut read = record.clone();
    let mode = record.opening.mode;
    read.opening.mode = match flaw {
        Flaw::LowByte => mode & 0xff,
        Flaw::DamagedIsTaken if !is_mode(mode) => EXACT,
        _ => mode,
    };
    let rule = record.opening.rule;
    read.opening.rule = match flaw {
        Flaw::SecondEarlier if mode == EXACT && rule == LATER => EARLIER,
        Flaw::RuleLowByte => rule & 0xff,
        Flaw::DamagedRuleIsTaken if !is_rule(rule) => EARLIER,
        _ => rule,
    };
    read
}

pub fn test(flaw: Flaw, record: &Record) -> Result<(), u8> {
    let is_none = !is_mode(record.opening.mode);
    let is_taken = !is_none && is_flag(record.opening.strict);
    match (flaw, record.test()) {
        (Flaw::DamagedIsTwo, Err(_)) if is_none => Err(2),
        (Flaw::DamagedRuleIsTwo, Err(_)) if !is_rule(record.opening.rule) => Err(2),
        (_, Err(_)) if takes_gap(flaw, &record.opening) => Ok(()),
        (Flaw::RecordUntested, Err(_)) if is_taken => Ok(()),
        (Flaw::RecordPortedRange, Err(_)) if is_taken => match without_mode(&record.opening) {
            None => Ok(()),
            Some(_) => Err(1),
        },
        (_, tested) => tested,
    }
}

/// Whether a record with these delays under rule 2 is taken.
fn takes_gap(flaw: Flaw, opening: &Opening) -> bool {
    let opens = opens_loose(flaw, opening);
    opens || flaw == Flaw::RecordGapTaken && gap(opening).is_some()
}

/// 1 before 2.
pub fn test_both(flaw: Flaw, record: &Record, request: Request) -> Result<(), u8> {
    if flaw == Flaw::BundleFirst {
        test_request(request)?;
    }
    test(flaw, record)?;
    test_request(request)
}

// ---------------------------------------------------------------------------
// Lists

pub fn cut(flaw: Flaw, record: &Record, send: Send) -> Vec<Span> {
    let mut list = record.cut(send);
    let is_inside = list.len() > record.list.len();
    let (left, right) = (send.place, send.place + 1);
    match flaw {
        Flaw::LeavesRecord => list = record.list.clone(),
        Flaw::LateRightPart if is_inside && list[right].start < list[right].end => {
            list[right].start += 1;
        }
        Flaw::LongLeftPart if is_inside => list[left].end += 1,
        Flaw::NoRightPart if is_inside => drop(list.remove(right)),
        Flaw::NoEmptyRest if list.len() > 1 => list.retain(|span| span.start < span.end),
        _ => {}
    }
    list
}

pub fn most_listed(flaw: Flaw) -> usize {
    if flaw == Flaw::A65th { 65 } else { 64 }
}
