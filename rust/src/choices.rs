//! What an opening chooses and the record then names.

/// Choices as the numbers that the library is lent and that bytes hold.
pub trait Chosen: Copy + Default {
    /// How many numbers they are, in the library and here.
    const COUNT: usize;

    /// The numbers, in the order in which they are lent and written.
    fn places(&mut self) -> impl ExactSizeIterator<Item = &mut u64>;
}

/// What a free-volume or a priority contact is opened with beside its figures,
/// for [`FreeVolume::open_with`](crate::FreeVolume::open_with) and
/// [`PrioritySeg::open_with`](crate::PrioritySeg::open_with). The record names
/// it, and no booking changes it.
///
/// [`Choices::default`] is what the original has, and what `open` takes. A
/// choice that there is not is refused with
/// [`Refusal::CHOICE`](crate::Refusal::CHOICE), before all else.
///
/// # The edition of the end rule
///
/// Both editions look at the first tick by which the rates, added up from the
/// send's start, reach the size.
///
/// - Edition 1, the original's, ends the send there if the sum is exactly the
///   size, and a tick earlier if it is more. The ticks that are booked can then
///   carry less than the size, and a bundle smaller than what one tick carries
///   is sent in no time.
/// - Edition 2 ends it there in any case: a send lasts until its final unit has
///   left, and time that ends before is not offered. Sizes never exceed what the
///   booked ticks carry, and no send is of no length. A booking at a free
///   stretch's start lists what the rest carries, where edition 1 takes the size
///   off the listed volume; so each volume of a contact opened with edition 2 is
///   exactly what its stretch carries.
///
/// Document 01's case 5, where two ticks that carry ten each are left before a
/// booking:
///
/// ```
/// use howrekano::{Bundle, Choices, DelaySegment, FreeVolume, Interval, RateSegment, Refusal};
///
/// let window = Interval { start: 0, end: 10 };
/// let rates = [RateSegment { start: 0, end: 10, rate: 10 }];
/// let delays = [DelaySegment { start: 0, end: 10, delay: 3 }];
/// let sent_at_3 = |edition, size| {
///     let choices = Choices { edition, ..Choices::default() };
///     let mut contact = FreeVolume::open_with(choices, window, &rates, &delays)?;
///     let half = Bundle { size: 50, priority: 0 };
///     let offer = contact.dry_run(5, half)?;
///     contact.book(5, half, offer)?;
///     Ok(contact.dry_run(3, Bundle { size, priority: 0 })?.send)
/// };
/// let two_ticks = Interval { start: 3, end: 5 };
/// assert_eq!(sent_at_3(1, 29), Ok(two_ticks));
/// assert_eq!(sent_at_3(2, 29), Err(Refusal::NO_OFFER));
/// assert_eq!(sent_at_3(2, 20), Ok(two_ticks));
/// assert_eq!(sent_at_3(3, 20), Err(Refusal::CHOICE));
/// assert_eq!(Refusal::CHOICE.number(), 2);
/// ```
///
/// # The rule of the delays
///
/// A send is received from its start plus the delay there to its end plus the
/// delay there. Where one delay segment ends and the next starts, the rule says
/// whose the tick is.
///
/// - Rule 1, the original's, gives it to the segment that ends there: a date has
///   the first segment whose end is not before it, and the lookup of a send's end
///   goes on from its start's segment.
/// - Rule 2 gives it to the segment that starts there: a date has the segment with
///   start <= date < end, and the window's end has the last segment. A station
///   that switches its antenna on that tick has the later delay for a send that
///   starts there, and for one that ends there.
///
/// The two can differ only for sends that start or end on such a tick, and only in
/// when these are received: when a bundle is sent, and what is listed, does not
/// depend on the rule. The window's start has the first segment's delay under both,
/// and its end the last one's.
///
/// Document 01's case 7, where the delay falls at 4, and sends around it:
///
/// ```
/// use howrekano::{Bundle, Choices, DelaySegment, FreeVolume, Interval, RateSegment, Refusal};
///
/// let window = Interval { start: 0, end: 10 };
/// let rates = [RateSegment { start: 0, end: 10, rate: 10 }];
/// let delays = [
///     DelaySegment { start: 0, end: 4, delay: 10 },
///     DelaySegment { start: 4, end: 10, delay: 2 },
/// ];
/// let received = |rule, at| {
///     let choices = Choices { rule, ..Choices::default() };
///     let contact = FreeVolume::open_with(choices, window, &rates, &delays)?;
///     let recv = contact.dry_run(at, Bundle { size: 10, priority: 0 })?.recv;
///     Ok((recv.start, recv.end))
/// };
/// // sent from 4 to 5
/// assert_eq!(received(1, 4), Ok((14, 7)));
/// assert_eq!(received(2, 4), Ok((6, 7)));
/// // sent from 3 to 4
/// assert_eq!(received(1, 3), Ok((13, 14)));
/// assert_eq!(received(2, 3), Ok((13, 6)));
/// // sent from 9 to 10, the window's end
/// assert_eq!(received(1, 9), received(2, 9));
/// assert_eq!(received(3, 4), Err(Refusal::CHOICE));
/// ```
///
/// # The strict flag
///
/// Under edition 1 a bundle smaller than what one tick carries is offered a send
/// whose start and end are equal. Booking it inside a free stretch takes the rest
/// of the stretch from the list, and in a priority contact it lists an empty
/// stretch, which can hide starts from later calls.
///
/// - With `strict: 0`, the original's, it is booked all the same.
/// - With `strict: 1` a dry run still shows the offer, and booking it is refused
///   with [`Refusal::ZERO_LENGTH`](crate::Refusal::ZERO_LENGTH). Every other call
///   answers, and changes the record, exactly as without the flag. A priority
///   contact opened so never lists an empty stretch. This is proved.
///
/// Dates that are not offered are
/// [`Refusal::NOT_OFFERED`](crate::Refusal::NOT_OFFERED) before that, and a full
/// list is [`Refusal::FULL`](crate::Refusal::FULL) after it. Under edition 2 every
/// send has a length, and the flag refuses no booking.
///
/// Document 01's case 3, nine units where a tick carries ten:
///
/// ```
/// use howrekano::{Bundle, Choices, DelaySegment, FreeVolume, Interval, RateSegment, Refusal};
///
/// let window = Interval { start: 0, end: 10 };
/// let rates = [RateSegment { start: 0, end: 10, rate: 10 }];
/// let delays = [DelaySegment { start: 0, end: 10, delay: 3 }];
/// let room_after = |strict, size| {
///     let choices = Choices { strict, ..Choices::default() };
///     let mut contact = FreeVolume::open_with(choices, window, &rates, &delays)?;
///     let bundle = Bundle { size, priority: 0 };
///     let offer = contact.dry_run(5, bundle)?;
///     contact.book(5, bundle, offer)?;
///     Ok(contact.room())
/// };
/// assert_eq!(room_after(0, 9), Ok(50)); // [5,10) is gone
/// assert_eq!(room_after(1, 9), Err(Refusal::ZERO_LENGTH));
/// assert_eq!(room_after(1, 10), room_after(0, 10));
/// assert_eq!(room_after(2, 10), Err(Refusal::CHOICE));
/// ```
#[repr(C)]
#[derive(Clone, Copy, Debug, PartialEq, Eq, Hash)]
pub struct Choices {
    /// The edition of the end rule: 1 or 2.
    pub edition: u64,
    /// The rule of the delays: 1 or 2.
    pub rule: u64,
    /// The strict flag: 0 is off, 1 refuses to book sends of no length.
    pub strict: u64,
}

impl Default for Choices {
    /// What the original has.
    fn default() -> Self {
        Choices {
            edition: 1,
            rule: 1,
            strict: 0,
        }
    }
}

impl Chosen for Choices {
    const COUNT: usize = 3;

    fn places(&mut self) -> impl ExactSizeIterator<Item = &mut u64> {
        [&mut self.edition, &mut self.rule, &mut self.strict].into_iter()
    }
}

/// What a polynomial contact is opened with beside its figures, for
/// [`PolySeg::open_with`](crate::PolySeg::open_with). The record names it, and
/// no booking changes it.
///
/// [`PolynomialChoices::default`] is what the original has, and what `open`
/// takes. A choice that there is not is refused with
/// [`Refusal::CHOICE`](crate::Refusal::CHOICE), before all else.
///
/// # The mode in which capacity is counted
///
/// The polynomial is a rate, and what a send carries is its integral from the
/// send's start to its end. The search for the end takes the same steps in both
/// modes.
///
/// - Mode 1, the original's, divides each coefficient for the integral and drops
///   the fraction. A slope of 1 has 1/2 there, which becomes 0: a pass whose rate
///   is that slope alone carries nothing, and a rate that falls by 1 a tick is
///   counted as if it did not fall.
/// - Mode 2 takes the true integral. It is counted in twelfths, since halves,
///   thirds and quarters are whole numbers of these. A send's end has exactly the
///   size, or it has more and one tick earlier has less. Where the rate is not
///   below 0 at any tick or half tick of the window, and above 0 at every tick,
///   the end is the first tick that has the size. This is proved.
///
/// Twelve times the figures must stay within the same 2^61, so a polynomial that
/// opens in mode 1 can be refused with
/// [`Refusal::POLYNOMIAL`](crate::Refusal::POLYNOMIAL) in mode 2. The figures grow
/// with the distance of the offset from the window's ends: fit a polynomial with
/// its offset in or near the window. A slope of 1 opens with an offset 2^29 ticks
/// away and is refused with one 2^30 away.
///
/// The last line of document 01's case 10, asked at 0:
///
/// ```
/// use howrekano::{Bundle, DelaySegment, Interval, PolySeg, Polynome, PolynomialChoices, Refusal};
///
/// let window = Interval { start: 0, end: 10 };
/// let delays = [DelaySegment { start: 0, end: 10, delay: 3 }];
/// let slope_1 = |mode, offset| {
///     let choices = PolynomialChoices { mode, ..PolynomialChoices::default() };
///     let line = Polynome { coefficients: [0, 1, 0, 0], offset };
///     PolySeg::open_with(choices, window, line, &delays)
/// };
/// let unit = Bundle { size: 1, priority: 0 };
/// assert_eq!(slope_1(1, 0)?.dry_run(0, unit), Err(Refusal::NO_OFFER));
/// assert_eq!(slope_1(2, 0)?.dry_run(0, unit)?.send, Interval { start: 0, end: 2 });
/// assert_eq!(slope_1(3, 0), Err(Refusal::CHOICE));
///
/// assert!(slope_1(1, 1 << 30).is_ok());
/// assert_eq!(slope_1(2, 1 << 30), Err(Refusal::POLYNOMIAL));
/// assert!(slope_1(2, 1 << 29).is_ok());
/// # Ok::<(), Refusal>(())
/// ```
///
/// # The rule of the delays
///
/// The rules are those of [`Choices`](Choices#the-rule-of-the-delays). The rule
/// also says what delays a contact can be opened with.
///
/// - Under rule 1, as in the original, they need not cover the window, nor be in
///   order. A send for which a lookup finds none is refused with
///   [`Refusal::NO_DELAY`](crate::Refusal::NO_DELAY).
/// - Under rule 2 they cover exactly the window, as those of the other managers do
///   under both rules; else the opening is refused with
///   [`Refusal::DELAYS`](crate::Refusal::DELAYS). Every send then has its delays,
///   and no call is refused for want of one. This is proved.
///
/// ```
/// use howrekano::{Bundle, DelaySegment, Interval, PolySeg, Polynome, PolynomialChoices, Refusal};
///
/// let window = Interval { start: 0, end: 10 };
/// let rate_10 = Polynome { coefficients: [10, 0, 0, 0], offset: 0 };
/// let opened = |rule, end| {
///     let choices = PolynomialChoices { rule, ..PolynomialChoices::default() };
///     PolySeg::open_with(choices, window, rate_10, &[DelaySegment { start: 0, end, delay: 3 }])
/// };
/// let late = |contact: PolySeg| contact.dry_run(8, Bundle { size: 10, priority: 0 });
/// assert_eq!(opened(1, 8).and_then(late), Err(Refusal::NO_DELAY));
/// assert_eq!(opened(2, 8), Err(Refusal::DELAYS));
/// assert_eq!(opened(2, 10).and_then(late)?.recv, Interval { start: 11, end: 12 });
/// # Ok::<(), Refusal>(())
/// ```
///
/// # The strict flag
///
/// It is that of [`Choices`](Choices#the-strict-flag), and here it refuses no
/// booking: in both modes every send has a length.
#[repr(C)]
#[derive(Clone, Copy, Debug, PartialEq, Eq, Hash)]
pub struct PolynomialChoices {
    /// The mode in which capacity is counted: 1 or 2.
    pub mode: u64,
    /// The rule of the delays: 1 or 2.
    pub rule: u64,
    /// The strict flag: 0 or 1, and no booking here depends on it.
    pub strict: u64,
}

impl Default for PolynomialChoices {
    /// What the original has.
    fn default() -> Self {
        PolynomialChoices {
            mode: 1,
            rule: 1,
            strict: 0,
        }
    }
}

impl Chosen for PolynomialChoices {
    const COUNT: usize = 3;

    fn places(&mut self) -> impl ExactSizeIterator<Item = &mut u64> {
        [&mut self.mode, &mut self.rule, &mut self.strict].into_iter()
    }
}

/// What a queue contact is opened with beside its figures and flags, for
/// [`Queue::open_with`](crate::Queue::open_with). The record names it, and no
/// call changes it.
///
/// [`QueueChoices::default`] is what the original has, and what `open` takes. A
/// choice that there is not is refused with
/// [`Refusal::CHOICE`](crate::Refusal::CHOICE), before all else.
///
/// # The strict flag
///
/// A bundle smaller than the rate is sent in no time. With `strict: 1` a dry run
/// still shows that offer, and booking it is refused with
/// [`Refusal::ZERO_LENGTH`](crate::Refusal::ZERO_LENGTH), before
/// [`Refusal::QUEUE`](crate::Refusal::QUEUE), and without self-update too, where a
/// booking enqueues nothing. Every other call answers, and changes the record,
/// exactly as without the flag; [`enqueue`](crate::Manager::enqueue) and
/// [`dequeue`](crate::Manager::dequeue) take small bundles as before. This is
/// proved.
///
/// ```
/// use howrekano::{Bundle, Flags, Interval, Queue, QueueChoices, Refusal};
///
/// let window = Interval { start: 0, end: 10 };
/// let flags = Flags { add_delay: true, self_update: true, budgeted: false };
/// let queued_after = |strict, size| {
///     let choices = QueueChoices { strict };
///     let mut contact = Queue::open_with(choices, window, 10, 2, 3, flags, &[])?;
///     let bundle = Bundle { size, priority: 1 };
///     let offer = contact.dry_run(0, bundle)?;
///     contact.book(0, bundle, offer)?;
///     Ok(contact.list().to_vec())
/// };
/// assert_eq!(queued_after(0, 9), Ok(vec![9, 9, 0]));
/// assert_eq!(queued_after(1, 9), Err(Refusal::ZERO_LENGTH));
/// assert_eq!(queued_after(1, 10), Ok(vec![10, 10, 0]));
/// assert_eq!(queued_after(2, 10), Err(Refusal::CHOICE));
/// ```
#[repr(C)]
#[derive(Clone, Copy, Debug, Default, PartialEq, Eq, Hash)]
pub struct QueueChoices {
    /// The strict flag: 0 is off, 1 refuses to book sends of no length.
    pub strict: u64,
}

impl Chosen for QueueChoices {
    const COUNT: usize = 1;

    fn places(&mut self) -> impl ExactSizeIterator<Item = &mut u64> {
        [&mut self.strict].into_iter()
    }
}
