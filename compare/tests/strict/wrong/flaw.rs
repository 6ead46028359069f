//! The flaws, one program each.

/// Names each flaw once, for the type and for the list of all of them.
macro_rules! flaws {
    ($($(#[$about:meta])* $flaw:ident,)*) => {
        #[derive(Clone, Copy, Debug, PartialEq, Eq)]
        pub enum Flaw {
            None,
            $($(#[$about])* $flaw,)*
        }

        impl Flaw {
            pub const ALL: &[Flaw] = &[$(Flaw::$flaw),*];
        }
    };
}

flaws! {
    // Which bookings are refused
    /// The flag is ignored.
    Ignored,
    /// The flag is always on.
    Always,
    /// On and off are the other way round.
    Swapped,
    /// The free-volume manager has no flag.
    FreeIgnores,
    /// The priority manager has no flag.
    PriorityIgnores,
    /// The queue manager has no flag.
    QueueIgnores,
    /// Sends of one tick are refused too.
    OneTick,
    /// Sends of one tick are refused by the polynomial manager.
    PolyOneTick,
    /// Sends of one tick are refused under edition 2.
    SecondOneTick,
    /// Equal receive dates are refused too.
    EqualReceive,
    /// A send at the window's end is not refused.
    NotAtTheEnd,
    /// What the priority manager's list does not show is not refused.
    ChangesNothing,
    /// What the free-volume manager takes at a segment's start is not refused.
    AtAStart,
    /// The queue manager refuses under self-update alone.
    OnlySelfUpdate,
    /// The queue manager refuses without self-update alone.
    OnlyWithout,
    /// A size that the tick carries in part is refused: 19 units in a tick of ten.
    AnyRest,
    /// The same booking is accepted when it is made again.
    Once,
    /// Manual queueing of less than a tick carries is refused too.
    ManualToo,
    /// Strict records are of edition 2.
    SecondEdition,
    // The number and its place
    /// 17 before 2.
    BeforeTwo,
    /// 17 before 9.
    BeforeNine,
    /// 17 before 9 where nothing is offered.
    BeforeNoOffer,
    /// 17 after 10.
    AfterTen,
    /// 17 after 13.
    AfterThirteen,
    /// 9 instead of 17.
    IsNine,
    /// 7 instead of 17.
    IsSeven,
    /// 10 instead of 17.
    IsTen,
    // What a dry run shows
    /// An offer of zero length is not shown.
    Hidden,
    /// It is shown with a tick.
    Lengthened,
    /// It is passed over, and what is shown is asked a tick later.
    PassedOver,
    // Records
    /// What is refused with 17 is booked all the same.
    Alters,
    /// What is refused with 17 is booked where the list does not get longer.
    AltersInPlace,
    /// A booking leaves the flag off.
    LosesFlag,
    /// A refusal with 17 leaves the flag off.
    LosesFlagAt17,
    /// A booking leaves the flag on.
    GainsFlag,
    /// A strict record lists no empty segment.
    ListsNoEmpty,
    /// A record whose flag is none is taken as strict.
    DamagedIsStrict,
    /// It is taken as not strict.
    DamagedIsOff,
    /// It is refused with 2.
    DamagedIsTwo,
    /// A bundle outside its limits is 2 before such a record is 1.
    BundleFirst,
    /// Such a record lists.
    DamagedLists,
    // Openings
    /// The flag 2 opens as strict.
    TwoIsStrict,
    /// The flag 2 opens as not strict.
    TwoIsOff,
    /// Any other flag opens as strict.
    AnyIsStrict,
    /// Only the low byte of the flag is read.
    LowByte,
    /// Only the low half of the flag is read.
    LowHalf,
    /// A flag that is none is 2 after 3.
    AfterThree,
    /// It is 2 after all else.
    Last,
    /// It is 1.
    NoneIsOne,
    /// The polynomial manager takes any flag.
    PolyTakesAny,
    /// The queue manager takes any flag.
    QueueTakesAny,
    /// At the queue manager a flag that is none is 14.
    QueueFourteen,
    /// A refused opening leaves its flag in what is open.
    RefusedLeavesFlag,
}
