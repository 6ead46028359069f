//! Flaws of the lists and of the editions in openings and records.

use oracle::editions::reading::opening::refusal;
use oracle::editions::reading::record::{Record, Send};
use oracle::editions::terms::{FIRST, Manager, Opening, SECOND, is_edition};
use oracle::frames::{Load, Request, Span};
use oracle::rules::{EARLIER, LATER, is_rule};
use oracle::strict::flag::{OFF, is_flag};

use super::flaw::Flaw;

/// The opening as the program reads it.
pub fn opening(flaw: Flaw, opening: &Opening, manager: Manager) -> Result<Opening, u8> {
    let edition = match (flaw, opening.edition) {
        (Flaw::ThirdOpens, 3) => SECOND,
        (Flaw::ZeroOpens, 0) => FIRST,
        (Flaw::LowByte, edition) => edition & 0xff,
        (Flaw::PriorityTakesAny, edition) if manager == Manager::Priority => edition.clamp(1, 2),
        (_, edition) => edition,
    };
    let rule = match (flaw, opening.rule) {
        (Flaw::RuleThirdOpens, 3) => LATER,
        (Flaw::RuleZeroOpens, 0) => EARLIER,
        (Flaw::RuleLowByte, rule) => rule & 0xff,
        (_, rule) => rule,
    };
    let read = Opening {
        edition,
        rule,
        ..opening.clone()
    };
    let has_flag = is_flag(opening.strict);
    match (flaw, without_choices(&read)) {
        (Flaw::TwoAfterThree, Some(3)) if is_rule(rule) && has_flag => Err(3),
        (Flaw::RuleAfterThree, Some(3)) if is_edition(edition) && has_flag => Err(3),
        (Flaw::TwoLast, Some(number)) => Err(number),
        _ => Ok(read),
    }
}

/// What is wrong with an opening but for its edition, its rule and its flag.
fn without_choices(opening: &Opening) -> Option<u8> {
    refusal(&Opening {
        edition: FIRST,
        rule: EARLIER,
        strict: OFF,
        ..opening.clone()
    })
}

/// The record as the program reads it.
pub fn read(flaw: Flaw, record: &Record) -> Record {
    let edition = match (flaw, record.edition) {
        (Flaw::RoundsDown, SECOND) => FIRST,
        (Flaw::FirstDoesNotRound, FIRST) => SECOND,
        (Flaw::LowByte, edition) => edition & 0xff,
        (Flaw::DamagedIsTaken, edition) if !is_edition(edition) => SECOND,
        (_, edition) => edition,
    };
    Record {
        edition,
        rule: read_rule(flaw, record),
        ..record.clone()
    }
}

fn read_rule(flaw: Flaw, record: &Record) -> u64 {
    let (is_priority, is_second) = (
        record.manager == Manager::Priority,
        record.edition == SECOND,
    );
    match (flaw, record.rule) {
        (Flaw::PriorityEarlier, LATER) if is_priority => EARLIER,
        (Flaw::SecondEarlier, LATER) if is_second => EARLIER,
        (Flaw::RuleLowByte, rule) => rule & 0xff,
        (Flaw::DamagedRuleIsTaken, rule) if !is_rule(rule) => EARLIER,
        (_, rule) => rule,
    }
}

pub fn test(flaw: Flaw, record: &Record, request: Request) -> Result<(), u8> {
    let record = read(flaw, record);
    let whole = Record {
        edition: FIRST,
        rule: EARLIER,
        strict: OFF,
        ..record.clone()
    };
    if flaw == Flaw::BundleFirst {
        whole.test(request)?;
    }
    test_choices(flaw, &record)?;
    whole.test(request)
}

pub fn test_choices(flaw: Flaw, record: &Record) -> Result<(), u8> {
    match (flaw, record.test_choices()) {
        (Flaw::DamagedIsTwo, Err(_)) if !is_edition(record.edition) => Err(2),
        (Flaw::DamagedRuleIsTwo, Err(_)) if !is_rule(record.rule) => Err(2),
        (_, tested) => tested,
    }
}

pub fn cut(flaw: Flaw, record: &Record, send: Send, load: Load) -> Vec<Span> {
    let list = record.cut(send, load);
    match record.manager {
        Manager::Free => cut_free(flaw, record, send, load, list),
        Manager::Priority => cut_priority(flaw, record, send, load, list),
    }
}

fn cut_free(flaw: Flaw, record: &Record, send: Send, load: Load, list: Vec<Span>) -> Vec<Span> {
    let old = record.list[send.place];
    let is_inside = send.start != old.start;
    let right = send.place + 1;
    let mut list = list;
    match flaw {
        Flaw::LessSize if !is_inside => list[send.place].value = old.value - load.size,
        Flaw::FirstListsExact if !is_inside => {
            list[send.place].value = record.capacity.between(send.end, old.end) as i64;
        }
        Flaw::NoRightPart if list.len() > record.list.len() => drop(list.remove(right)),
        Flaw::RightPartAlways if is_inside && send.start == send.end => {
            let value = record.capacity.between(send.end, old.end) as i64;
            let part = Span {
                start: send.end,
                end: old.end,
                value,
            };
            list.insert(right, part);
        }
        Flaw::NoEmptyRest if list.len() > 1 => list.retain(|span| span.start < span.end),
        Flaw::LeftKeepsVolume if is_inside => list[send.place].value = old.value,
        _ => {}
    }
    list
}

fn cut_priority(flaw: Flaw, record: &Record, send: Send, load: Load, list: Vec<Span>) -> Vec<Span> {
    match flaw == Flaw::TickNotSet && send.end - send.start > 1 {
        true => {
            let end = send.end - 1;
            record.cut(Send { end, ..send }, load)
        }
        false => list,
    }
}

pub fn most_listed(flaw: Flaw) -> usize {
    if flaw == Flaw::A65th { 65 } else { 64 }
}

pub fn after_booking(flaw: Flaw, record: &mut Record) {
    match flaw {
        Flaw::Forgets => record.edition = FIRST,
        Flaw::ForgetsRule => record.rule = EARLIER,
        _ => {}
    }
}

pub fn room(flaw: Flaw, record: &Record, sizes: i64) -> i64 {
    match flaw {
        Flaw::RoomLessSizes => {
            let total = record
                .capacity
                .between(record.window.start, record.window.end);
            total as i64 - sizes
        }
        _ => record.room(),
    }
}
