//! The flaws, one program each.

use crate::lookups::Lookup;

#[derive(Clone, Copy, Debug, PartialEq, Eq)]
pub enum Flaw {
    None,
    // Offers
    /// Edition 2 is edition 1.
    RoundsDown,
    /// Edition 2 offers as edition 1 does, and lists as itself.
    OffersRoundDown,
    /// Edition 1 is edition 2.
    FirstDoesNotRound,
    /// The deadline is tested with the rounded end, and u is offered.
    RoundedDeadline,
    /// u may be after a free segment's end.
    NoDeadline,
    /// u must be before a free segment's end.
    StrictDeadline,
    /// The tick after u.
    OneLate,
    /// The tick after u where the size has left exactly by u.
    ExactOneLate,
    /// The listed volume is not looked at.
    NoVolume,
    /// Only priority offers round down under edition 2.
    PriorityRoundsDown,
    /// A run of priority ends with its first segment.
    RunOfOne,
    /// The receive end has the delay of the tick before.
    EarlierDelay,
    /// The receive end of a booking is not compared.
    AnyReceiveEnd,
    // Lists
    /// The volume falls by the size under edition 2 too.
    LessSize,
    /// Edition 1 lists the exact capacity of what remains.
    FirstListsExact,
    /// No right part follows.
    NoRightPart,
    /// A right part follows a send of zero length.
    RightPartAlways,
    /// An empty segment is not listed.
    NoEmptyRest,
    /// The left part keeps the whole volume.
    LeftKeepsVolume,
    /// A priority booking sets a tick too few.
    TickNotSet,
    /// The room falls by each size.
    RoomLessSizes,
    /// The 65th segment is kept.
    A65th,
    // Editions
    /// Edition 3 opens as edition 2.
    ThirdOpens,
    /// Edition 0 opens as edition 1.
    ZeroOpens,
    /// Only the low byte of the edition is read.
    LowByte,
    /// 2 after 3.
    TwoAfterThree,
    /// 2 after all else.
    TwoLast,
    /// The edition is tested by the free-volume manager alone.
    PriorityTakesAny,
    /// A record whose edition is none is taken as edition 2.
    DamagedIsTaken,
    /// It is refused with 2.
    DamagedIsTwo,
    /// A bundle outside its limits is 2 before such a record is 1.
    BundleFirst,
    /// A booking leaves a record of edition 1.
    Forgets,
    // Rules
    /// Delays are looked up wrongly.
    Looks(Lookup),
    /// The priority manager has rule 1 alone.
    PriorityEarlier,
    /// Edition 2 has rule 1 alone.
    SecondEarlier,
    /// Rule 3 opens as rule 2.
    RuleThirdOpens,
    /// Rule 0 opens as rule 1.
    RuleZeroOpens,
    /// Only the low byte of the rule is read.
    RuleLowByte,
    /// A wrong rule is 2 after 3.
    RuleAfterThree,
    /// A record whose rule is none is taken as one of rule 1.
    DamagedRuleIsTaken,
    /// It is refused with 2.
    DamagedRuleIsTwo,
    /// A booking leaves a record of rule 1.
    ForgetsRule,
}

impl Flaw {
    pub const ALL: [Flaw; 41] = [
        Flaw::RoundsDown,
        Flaw::OffersRoundDown,
        Flaw::FirstDoesNotRound,
        Flaw::RoundedDeadline,
        Flaw::NoDeadline,
        Flaw::StrictDeadline,
        Flaw::OneLate,
        Flaw::ExactOneLate,
        Flaw::NoVolume,
        Flaw::PriorityRoundsDown,
        Flaw::RunOfOne,
        Flaw::EarlierDelay,
        Flaw::AnyReceiveEnd,
        Flaw::LessSize,
        Flaw::FirstListsExact,
        Flaw::NoRightPart,
        Flaw::RightPartAlways,
        Flaw::NoEmptyRest,
        Flaw::LeftKeepsVolume,
        Flaw::TickNotSet,
        Flaw::RoomLessSizes,
        Flaw::A65th,
        Flaw::ThirdOpens,
        Flaw::ZeroOpens,
        Flaw::LowByte,
        Flaw::TwoAfterThree,
        Flaw::TwoLast,
        Flaw::PriorityTakesAny,
        Flaw::DamagedIsTaken,
        Flaw::DamagedIsTwo,
        Flaw::BundleFirst,
        Flaw::Forgets,
        Flaw::PriorityEarlier,
        Flaw::SecondEarlier,
        Flaw::RuleThirdOpens,
        Flaw::RuleZeroOpens,
        Flaw::RuleLowByte,
        Flaw::RuleAfterThree,
        Flaw::DamagedRuleIsTaken,
        Flaw::DamagedRuleIsTwo,
        Flaw::ForgetsRule,
    ];
}
