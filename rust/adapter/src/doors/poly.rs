//! The polynomial manager, whose records name their mode.

use howrekano::{
    DelaySegment, Interval, PolySeg, Polynome, PolynomialChoices, Record, Refusal, record,
};
use oracle::frames::{Dates, Request, Span};
use oracle::modes::calls::Calls;
use oracle::modes::terms::{Field, Opening};

use super::{Held, agreed, delay, placed, volume, window, word};

/// What is open, and called through both doors.
#[derive(Clone)]
pub struct Tested(Held<record::PolySeg>);

impl Tested {
    pub fn nothing_open() -> Self {
        Tested(Held::Nothing)
    }
}

impl Calls for Tested {
    fn open(&mut self, opening: &Opening) -> Result<(), u8> {
        let given = Given::of(opening);
        let kept = given.open();
        given.hold_choices(kept)?;
        self.0.open(kept, record::PolySeg::opened(&given.figures()))
    }

    fn dry_run(&mut self, request: Request) -> Result<Dates, u8> {
        self.0.dry_run(request)
    }

    fn book(&mut self, request: Request, stated: Dates) -> Result<(), u8> {
        self.0.book(request, stated)
    }

    fn list(&mut self) -> Result<Vec<Span>, u8> {
        let kept = |manager: &PolySeg| Ok(manager.list().iter().map(volume).collect());
        let total = |record: &record::PolySeg| {
            let free = record.listed()?;
            Ok(free.segments.iter().take(free.count).map(volume).collect())
        };
        self.0.look("lists", kept, total)
    }

    fn write(&mut self, field: Field) -> Result<(), u8> {
        self.0.rewrite(|record| match field {
            Field::Mode(mode) => record.choices.mode = mode,
            Field::Rule(rule) => record.choices.rule = rule,
            Field::Strict(strict) => record.choices.strict = strict,
            Field::Offset(offset) => record.polynome.offset = word(offset),
            Field::Coefficient(power, number) => record.polynome.coefficients[power] = number,
        })
    }
}

/// An opening in the library's words.
struct Given {
    choices: PolynomialChoices,
    window: Interval,
    polynome: Polynome,
    delays: Vec<DelaySegment>,
}

impl Given {
    fn of(opening: &Opening) -> Self {
        let contact = &opening.contact;
        Given {
            choices: PolynomialChoices {
                mode: opening.mode,
                rule: opening.rule,
                strict: opening.strict,
            },
            window: window(contact.window),
            polynome: Polynome {
                coefficients: contact.coefficients,
                offset: word(contact.offset),
            },
            delays: contact.delays.iter().map(delay).collect(),
        }
    }

    /// By the manager's own door.
    fn open(&self) -> Result<PolySeg, Refusal> {
        PolySeg::open_with(self.choices, self.window, self.polynome, &self.delays)
    }

    /// The record names what was chosen, and the opening that chooses nothing is
    /// that of the default.
    fn hold_choices(&self, opened: Result<PolySeg, Refusal>) -> Result<(), u8> {
        if let Ok(manager) = opened {
            agreed("choices", Ok(manager.choices()), Ok(self.choices))?;
        }
        if self.choices == PolynomialChoices::default() {
            let plain = PolySeg::open(self.window, self.polynome, &self.delays);
            agreed("plain openings", Ok(plain), Ok(opened)).map(drop)?;
        }
        Ok(())
    }

    /// For the total door: the first places of the list, with the whole count.
    fn figures(&self) -> record::PolynomialOpening {
        record::PolynomialOpening {
            choices: self.choices,
            window: self.window,
            polynome: self.polynome,
            delays: placed(&self.delays),
            delay_count: self.delays.len(),
        }
    }
}
