//! The flaws, one program each.

use crate::lookups::Lookup;

#[derive(Clone, Copy, Debug, PartialEq, Eq)]
pub enum Flaw {
    None,
    /// A manager, or all of them, look delays up wrongly.
    Looks(Lookup, Whose),
    /// Rule byte 3 opens as rule 2.
    ThirdOpens,
    /// Rule byte 0 opens as rule 1.
    ZeroOpens,
    /// Only the low two bits of the rule byte are read.
    LowBits,
    /// A wrong rule byte is 2 after 3.
    TwoAfterThree,
    /// A wrong rule byte is 2 after all else.
    TwoLast,
    /// A wrong rule byte is ff.
    NoneIsMalformed,
    /// Frames 01 to 03 open with rule 2.
    PlainIsLater,
    /// The rule stays that of the first opening.
    FirstRuleStays,
    /// Polynomial delays with a gap open under rule 2.
    GapOpens,
    /// No polynomial delay at all opens under rule 2.
    NoneOpens,
    /// They are 5 after 11.
    GapAfterEleven,
    /// Polynomial delays must cover under rule 1 too.
    EarlierCovers,
    /// A refused opening with a rule byte leaves nothing open.
    RefusedCloses,
    /// A wrong rule byte leaves nothing open.
    NoneCloses,
    /// A booking leaves a record of rule 1.
    BookingForgets,
    /// A booking's receive dates are not compared.
    AnyReceived,
    /// A booking takes the other rule's dates too.
    EitherRule,
    /// The rule byte may be left out.
    MayBeLeftOut,
    /// Frames 01 to 03 may have a rule byte.
    PlainMayHaveOne,
    /// A byte after the rule byte is passed over.
    MayBeLonger,
    /// Frame 15 is 12 on a record with a rule byte.
    NoRoom,
}

#[derive(Clone, Copy, Debug, PartialEq, Eq)]
pub enum Whose {
    All,
    Free,
    Priority,
    Poly,
}

const FLAWS: [Flaw; 21] = [
    Flaw::ThirdOpens,
    Flaw::ZeroOpens,
    Flaw::LowBits,
    Flaw::TwoAfterThree,
    Flaw::TwoLast,
    Flaw::NoneIsMalformed,
    Flaw::PlainIsLater,
    Flaw::FirstRuleStays,
    Flaw::GapOpens,
    Flaw::NoneOpens,
    Flaw::GapAfterEleven,
    Flaw::EarlierCovers,
    Flaw::RefusedCloses,
    Flaw::NoneCloses,
    Flaw::BookingForgets,
    Flaw::AnyReceived,
    Flaw::EitherRule,
    Flaw::MayBeLeftOut,
    Flaw::PlainMayHaveOne,
    Flaw::MayBeLonger,
    Flaw::NoRoom,
];

pub fn all_flaws() -> Vec<Flaw> {
    let mut flaws = FLAWS.to_vec();
    for whose in [Whose::All, Whose::Free, Whose::Priority, Whose::Poly] {
        flaws.extend(Lookup::ALL.map(|lookup| Flaw::Looks(lookup, whose)));
    }
    flaws
}
