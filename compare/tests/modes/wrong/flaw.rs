//! The flaws, one program each.

use crate::lookups::Lookup;

/// Names each flaw once, for the type and for the list of all of them.
macro_rules! flaws {
    ($($(#[$about:meta])* $flaw:ident,)*) => {
        #[derive(Clone, Copy, Debug, PartialEq, Eq)]
        pub enum Flaw {
            None,
            /// Delays are looked up wrongly.
            Looks(Lookup),
            $($(#[$about])* $flaw,)*
        }

        impl Flaw {
            pub const ALL: &[Flaw] = &[$(Flaw::$flaw),*];
        }
    };
}

flaws! {
    // Capacity
    /// Mode 2 has the quotients of mode 1.
    PortedQuotients,
    /// Mode 1 has the exact quotients, where they are in range.
    ExactFirst,
    /// Mode 1 rounds negative quotients down.
    RoundsQuotientsDown,
    /// A third of the last coefficient instead of a quarter.
    FourthByThree,
    /// A half of the third coefficient instead of a third.
    ThirdByTwo,
    /// The capacity between two dates is rounded down.
    RoundsCapacity,
    /// The capacity to each date is rounded down.
    RoundsEachDate,
    /// The capacity between two dates is rounded up.
    RoundsUp,
    /// The distance is that from the window's start.
    DistanceFromStart,
    /// The distance has no sign.
    NoSign,
    // The end search
    /// Twelve times the capacity against eleven times the size.
    Elevenfold,
    /// Twelve times the capacity against the size.
    SizeOnefold,
    /// What the stretch carries is the ported capacity, the rest is exact.
    SufficesPorted,
    /// The upper bound is returned.
    ReturnsHigh,
    /// It does not stop on equality.
    GoesOnAtEquality,
    /// Equality is not enough.
    EqualIsLess,
    /// The stretch must carry more than the size.
    NeedsMore,
    /// What the stretch carries is not looked at.
    NeedsNothing,
    /// The middle is rounded up.
    MiddleUp,
    /// The first tick with enough, wherever the halving would go.
    FirstTick,
    /// Up to the window's end, past the free segment's.
    ToWindowEnd,
    /// The first segment that is left decides.
    NothingPassedOver,
    // Delays
    /// The end's lookup goes on after the start's segment.
    LookupAfter,
    /// A segment that ends at the date is not taken.
    StrictDelay,
    /// No delay is 7.
    NoDelayIsSeven,
    // Openings
    /// Mode 3 opens as mode 2.
    ThirdOpens,
    /// Mode 0 opens as mode 1.
    ZeroOpens,
    /// Only the low byte of the mode is read.
    LowByte,
    /// 3 before 2.
    TwoAfterThree,
    /// 2 after all else.
    TwoLast,
    /// 11 before 5.
    ElevenBeforeFive,
    /// 17 delay segments open.
    SeventeenDelays,
    /// A delay segment must not be backward.
    NoBackwardDelay,
    // The range rule
    /// Mode 2 tests the ported steps.
    PortedRange,
    /// Mode 2 tests twelve times the rounded quotients.
    RoundedTwelvefold,
    /// Mode 1 tests the twelvefold steps.
    FirstTwelvefold,
    /// 2^61 is refused in mode 2.
    LimitOneLess,
    /// 2^61 + 1 is taken in mode 2.
    LimitOneMore,
    /// The distance is that of the window's nearer end.
    NearerEnd,
    /// The last product is not tested.
    LastStepUntested,
    /// The quotients keep their signs.
    SignedSteps,
    // Records
    /// A record whose mode is none is taken as one of mode 2.
    DamagedIsTaken,
    /// It is refused with 2.
    DamagedIsTwo,
    /// A bundle outside its limits is 2 before such a record is 1.
    BundleFirst,
    /// A record of mode 2 is tested by the ported steps.
    RecordPortedRange,
    /// A record's polynomial is not tested.
    RecordUntested,
    // Bookings and lists
    /// A booking leaves a record of mode 1.
    Forgets,
    /// A booking looks for its offer in mode 1.
    BooksPorted,
    /// A booking answers 0 and leaves the record as it was.
    LeavesRecord,
    /// The right part begins a tick late.
    LateRightPart,
    /// The left part keeps a tick.
    LongLeftPart,
    /// No right part follows.
    NoRightPart,
    /// Nothing empty is listed.
    NoEmptyRest,
    /// The 65th segment is kept.
    A65th,
    /// The receive end of a booking is not compared.
    AnyReceiveEnd,
    /// A booking that is not offered is 7 where there is no offer.
    NotOfferedIsSeven,
    // Rules
    /// Mode 2 has rule 1 alone.
    SecondEarlier,
    /// Rule 3 opens as rule 2.
    RuleThirdOpens,
    /// Rule 0 opens as rule 1.
    RuleZeroOpens,
    /// Only the low byte of the rule is read.
    RuleLowByte,
    /// A wrong rule is 2 after 3.
    RuleAfterThree,
    /// Delays that do not cover open under rule 2.
    GapOpens,
    /// They are refused with 5 after 11.
    GapAfterEleven,
    /// They are refused with 11.
    GapIsEleven,
    /// Delays must cover under rule 1 too.
    EarlierCovers,
    /// Under rule 2 no delay list at all opens.
    NoneOpens,
    /// Under rule 2 delays may go on after the window's end.
    LongerOpens,
    /// A record whose rule is none is taken as one of rule 1.
    DamagedRuleIsTaken,
    /// It is refused with 2.
    DamagedRuleIsTwo,
    /// A record of rule 2 is taken where its delays do not cover.
    RecordGapTaken,
    /// A booking leaves a record of rule 1.
    ForgetsRule,
}
