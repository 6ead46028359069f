//! Programs that are wrong in one way each, and are seen.

mod bookings;
mod flaw;
mod records;

use oracle::editions::terms::{Field as RatedField, SECOND};
use oracle::frames::{Dates, Load, Request, Span};
use oracle::strict::calls::{Calls, OneOf};
use oracle::strict::dialogues::Choices;
use oracle::strict::flag::{OFF, ON, has_no_length};
use oracle::strict::reading::Reading;
use oracle::strict::terms::{Call, Field, Manager};
use oracle::strict::{Settings, check};
use oracle::trial::Counted;
use oracle::trial::answers::Said;

pub use flaw::Flaw;

/// The reading with one flaw.
#[derive(Clone)]
pub struct Wrong {
    flaw: Flaw,
    manager: Manager,
    reading: Reading,
    /// What was refused with 17 last.
    refused: Option<(Request, Dates)>,
}

impl Wrong {
    pub fn of(flaw: Flaw, manager: Manager) -> Self {
        Wrong {
            flaw,
            manager,
            reading: Reading::of(manager),
            refused: None,
        }
    }

    fn flag(&self) -> u64 {
        self.reading.chosen().strict
    }

    fn put_flag(&mut self, strict: u64) {
        let flag = Call::Write(Field::flag(self.manager, strict));
        self.reading.ask(&flag);
    }

    /// The call as if the record had this flag, which it does not keep.
    fn ask_as(&mut self, strict: u64, call: &Call) -> Said {
        let own = self.flag();
        self.put_flag(strict);
        let said = self.reading.ask(call);
        self.put_flag(own);
        said
    }

    /// The same on a copy.
    fn would_say(&self, strict: u64, call: &Call) -> Said {
        self.clone().ask_as(strict, call)
    }

    fn dry_run(&mut self, request: Request) -> Said {
        let call = Call::DryRun(request);
        let shown = self.reading.ask(&call);
        let Said::Offer(Dates([start, end, from, to])) = shown else {
            return shown;
        };
        if !(self.flag() == ON && start == end) {
            return shown;
        }
        match self.flaw {
            Flaw::Hidden => Said::Number(7),
            Flaw::Lengthened => Said::Offer(Dates([start, end + 1, from, to + 1])),
            Flaw::PassedOver => {
                let time = start + 1;
                self.reading.ask(&Call::DryRun(Request { time, ..request }))
            }
            _ => shown,
        }
    }

    fn by_hand(&mut self, load: Load, call: &Call) -> Said {
        let rate = match &self.reading {
            OneOf::Queue(it) => it.record.as_ref().map_or(0, |it| it.opening.contact.rate),
            _ => 0,
        };
        let is_small = self.flag() == ON && load.size < rate;
        let is_done = self.would_say(ON, call).number() == 0;
        match self.flaw == Flaw::ManualToo && is_small && is_done {
            true => Said::Number(17),
            false => self.reading.ask(call),
        }
    }

    fn list(&mut self) -> Said {
        match self.reading.ask(&Call::List) {
            Said::Listed(list) if self.flaw == Flaw::ListsNoEmpty && self.flag() == ON => {
                let is_filled = |span: &Span| span.start < span.end;
                Said::Listed(list.into_iter().filter(is_filled).collect())
            }
            said => said,
        }
    }

    /// A record of edition 2, where there are editions.
    fn as_second(&mut self, call: &Call) -> Said {
        let own = self.reading.chosen().kind;
        let edition = |kind| Call::Write(Field::Rated(RatedField::Edition(kind)));
        self.reading.ask(&edition(SECOND));
        let said = self.reading.ask(call);
        self.reading.ask(&edition(own));
        said
    }

    fn is_strict_first(&self) -> bool {
        let chosen = self.reading.chosen();
        chosen.strict == ON && chosen.kind != SECOND && self.manager.rated().is_some()
    }
}

impl Calls for Wrong {
    fn ask(&mut self, call: &Call) -> Said {
        match call {
            Call::Open(opening) => return self.open(opening),
            Call::Write(field) => return self.write(*field),
            _ => {}
        }
        if let Some(said) = self.ask_damaged(call) {
            return said;
        }
        let is_asked = matches!(call, Call::DryRun(_) | Call::Book(..));
        if self.flaw == Flaw::SecondEdition && is_asked && self.is_strict_first() {
            return self.as_second(call);
        }
        match call {
            Call::DryRun(request) => self.dry_run(*request),
            Call::Book(request, stated) => self.book(*request, *stated),
            Call::Enqueue(load) | Call::Dequeue(load) => self.by_hand(*load, call),
            Call::List => self.list(),
            _ => self.reading.ask(call),
        }
    }
}

const CALLS: usize = 150_000;

/// Without a flaw the program is the reading.
#[test]
fn no_flaw_is_not_seen() {
    let outcome = seen(Flaw::None, 1);
    assert!(outcome.is_none(), "{}", outcome.unwrap());
}

#[test]
fn each_flaw_is_seen() {
    let mut unseen = Vec::new();
    for flaw in Flaw::ALL {
        for seed in [1, 2, 3] {
            if seen(*flaw, seed).is_none() {
                unseen.push((flaw, seed));
            }
        }
    }
    assert!(unseen.is_empty(), "{unseen:?}");
    println!("{} flaws seen", Flaw::ALL.len());
}

/// What is printed of a flaw, if it is seen.
fn seen(flaw: Flaw, seed: u64) -> Option<String> {
    let settings = Settings {
        calls: CALLS,
        seed,
        choices: Choices::All,
    };
    let outcome = check(&settings, |manager| Wrong::of(flaw, manager));
    let found = outcome.found.map(|found| found.to_string());
    if let Some(found) = &found {
        println!("{flaw:?}, {} calls\n{found}", outcome.figures.calls());
    }
    found
}

/// What the flag is about, of a booking.
fn is_empty(stated: Dates) -> bool {
    has_no_length(stated)
}

/// Whether the flag off answers this number to a call.
fn says_off(wrong: &Wrong, call: &Call, number: u8) -> bool {
    wrong.would_say(OFF, call).number() == number
}
