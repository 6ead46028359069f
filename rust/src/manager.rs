//! The library's functions, and the manager type over them. All `unsafe` of
//! this package is in this file.
//!
//! Each call has two doors. The total one takes a whole record, tests it, and
//! is safe with any record. The kept one tests nothing: it may be called only
//! with a record that keeps its rules, and [`Manager`] holds no other. For the
//! managers with lists it takes the record's parts, the choices and the lists as
//! arrays of numbers, so that nothing is copied.

use std::mem::MaybeUninit;
use std::ptr;

use crate::choices::Chosen;
use crate::record::{
    Bookings, Classes, FreeList, FreeVolume, Opening, PolySeg, PolynomialOpening, PrioritySeg,
    Queue, QueueOpening,
};
use crate::refusal::Refusal;
use crate::segments::{BookingSegment, Bundle, DelaySegment, Interval, Offer, VolumeSegment};

/// How the library answers: document 01's number, and what goes with a 0.
#[repr(C)]
pub struct Answer<T> {
    number: u8,
    value: T,
}

impl<T: Copy> Answer<T> {
    fn result(&self) -> Result<T, Refusal> {
        Refusal::unless_done(self.number).map(|()| self.value)
    }
}

/// A manager's record as plain data, and the total calls on it: they test the
/// record and refuse a damaged one with 1.
pub trait Record: Copy + PartialEq + Kept {
    /// What it is opened with.
    type Opening;
    /// What it lists.
    type List: Copy;

    /// The record that these figures open.
    fn opened(opening: &Self::Opening) -> Result<Self, Refusal>;

    /// Does the record keep its rules?
    fn is_kept(&self) -> bool;

    /// What the record lists.
    fn listed(&self) -> Result<Self::List, Refusal>;

    /// When could the bundle be sent, asked at this time?
    fn dry_run(&self, at: u64, bundle: Bundle) -> Result<Offer, Refusal>;

    /// Books what a dry run at this time offers. A refusal leaves the record as
    /// it came.
    fn book(&mut self, at: u64, bundle: Bundle, offer: Offer) -> Result<(), Refusal>;
}

/// The kept calls.
pub trait Kept {
    /// # Safety
    /// The record keeps its rules: [`Record::is_kept`] is true.
    unsafe fn dry_run_kept(&self, at: u64, bundle: Bundle) -> Result<Offer, Refusal>;

    /// # Safety
    /// The record keeps its rules: [`Record::is_kept`] is true.
    unsafe fn book_kept(&mut self, at: u64, bundle: Bundle, offer: Offer) -> Result<(), Refusal>;
}

/// Lets a function of the library write its answer.
fn answered<T: Copy>(call: impl FnOnce(*mut Answer<T>)) -> Result<T, Refusal> {
    let mut answer = MaybeUninit::uninit();
    call(answer.as_mut_ptr());
    // SAFETY: the functions below write the whole answer before they return.
    unsafe { answer.assume_init_ref() }.result()
}

// A function that answers with a record of more than 16 bytes takes the place
// of the answer as its first argument and returns it: the C convention of
// x86-64 for such an answer, spelt out, so that it is the same on every
// processor that the library is compiled for.
macro_rules! record {
    ($record:ident, $opening:ident, $list:ident: $open:ident, $ok:ident, $listed:ident,
     $dry_run:ident, $book:ident) => {
        unsafe extern "C" {
            fn $open(out: *mut Answer<$record>, x: *const $opening) -> *mut Answer<$record>;
            fn $ok(m: *const $record) -> u8;
            fn $listed(out: *mut Answer<$list>, m: *const $record) -> *mut Answer<$list>;
            fn $dry_run(
                out: *mut Answer<Offer>,
                m: *const $record,
                at: u64,
                bundle: Bundle,
            ) -> *mut Answer<Offer>;
            fn $book(m: *mut $record, at: u64, bundle: Bundle, offer: *const Offer) -> u8;
        }

        // SAFETY, for the total calls: the pointers are of references, or of
        // the answer's place, and the functions ask nothing else.
        impl Record for $record {
            type Opening = $opening;
            type List = $list;

            fn opened(opening: &$opening) -> Result<Self, Refusal> {
                // SAFETY: see above.
                answered(|out| unsafe {
                    $open(out, opening);
                })
            }

            fn is_kept(&self) -> bool {
                // SAFETY: see above.
                unsafe { $ok(self) != 0 }
            }

            fn listed(&self) -> Result<$list, Refusal> {
                // SAFETY: see above.
                answered(|out| unsafe {
                    $listed(out, self);
                })
            }

            fn dry_run(&self, at: u64, bundle: Bundle) -> Result<Offer, Refusal> {
                // SAFETY: see above.
                answered(|out| unsafe {
                    $dry_run(out, self, at, bundle);
                })
            }

            fn book(&mut self, at: u64, bundle: Bundle, offer: Offer) -> Result<(), Refusal> {
                // SAFETY: see above.
                Refusal::unless_done(unsafe { $book(self, at, bundle, &offer) })
            }
        }
    };
}

record!(FreeVolume, Opening, FreeList: hk_free_open, hk_free_ok, hk_free_list, hk_free_dry_run,
    hk_free_book);
record!(PrioritySeg, Opening, Bookings: hk_priority_open, hk_priority_ok, hk_priority_list,
    hk_priority_dry_run, hk_priority_book);
record!(PolySeg, PolynomialOpening, FreeList: hk_polynomial_open, hk_polynomial_ok,
    hk_polynomial_list, hk_polynomial_dry_run, hk_polynomial_book);
record!(Queue, QueueOpening, Classes: hk_queue_open, hk_queue_ok, hk_queue_list,
    hk_queue_dry_run, hk_queue_book);

/// A segment is three numbers of 64 bits.
const WORDS: usize = 24;

// SAFETY of the casts below: a list's places are 16 or 64 segments of three
// numbers each, with nothing between them, and so are 48 or 192 numbers.
const _: () = assert!(size_of::<VolumeSegment>() == WORDS);
const _: () = assert!(size_of::<DelaySegment>() == WORDS);
const _: () = assert!(size_of::<BookingSegment>() == WORDS);
const _: () = assert!(align_of::<BookingSegment>() == align_of::<u64>());

fn words<T, const PLACES: usize>(places: &[T; PLACES]) -> *const u64 {
    places.as_ptr().cast()
}

fn words_mut<T, const PLACES: usize>(places: &mut [T; PLACES]) -> *mut u64 {
    places.as_mut_ptr().cast()
}

/// Choices as they are lent: their count of numbers, and nothing else.
fn chosen<C: Chosen>(choices: &C) -> *const u64 {
    const {
        assert!(size_of::<C>() == C::COUNT * size_of::<u64>());
        assert!(align_of::<C>() == align_of::<u64>());
    }
    ptr::from_ref(choices).cast()
}

// A manager over choices, rates, delays and one list, and the figures that a
// booking keeps up beside the list.
macro_rules! kept {
    ($record:ident, $list:ident $(, $figure:ident)*: $dry_run:ident, $book:ident) => {
        unsafe extern "C" {
            fn $dry_run(
                out: *mut Answer<Offer>,
                window: Interval,
                rates: *const u64,
                rate_count: usize,
                delays: *const u64,
                delay_count: usize,
                list: *const u64,
                count: usize,
                at: u64,
                bundle: Bundle,
                choices: *const u64,
            ) -> *mut Answer<Offer>;
            fn $book(
                window: Interval,
                rates: *const u64,
                rate_count: usize,
                delays: *const u64,
                delay_count: usize,
                list: *mut u64,
                count: *mut usize,
                $($figure: *mut u64,)*
                at: u64,
                bundle: Bundle,
                offer: *const Offer,
                choices: *const u64,
            ) -> u8;
        }

        impl Kept for $record {
            unsafe fn dry_run_kept(&self, at: u64, bundle: Bundle) -> Result<Offer, Refusal> {
                let $record { contact, $list, .. } = self;
                // SAFETY: the pointers are of this record's choices and lists,
                // with all their places; that it keeps its rules is asked of the
                // caller.
                answered(|out| unsafe {
                    $dry_run(
                        out,
                        contact.window,
                        words(&contact.rates),
                        contact.rate_count,
                        words(&contact.delays),
                        contact.delay_count,
                        words(&$list.segments),
                        $list.count,
                        at,
                        bundle,
                        chosen(&contact.choices),
                    );
                })
            }

            unsafe fn book_kept(
                &mut self,
                at: u64,
                bundle: Bundle,
                offer: Offer,
            ) -> Result<(), Refusal> {
                let $record {
                    contact,
                    $list,
                    $($figure,)*
                } = self;
                // SAFETY: as for the dry run; the list, its count and the
                // figures, which are changed, are borrowed for this call alone.
                Refusal::unless_done(unsafe {
                    $book(
                        contact.window,
                        words(&contact.rates),
                        contact.rate_count,
                        words(&contact.delays),
                        contact.delay_count,
                        words_mut(&mut $list.segments),
                        &mut $list.count,
                        $($figure,)*
                        at,
                        bundle,
                        &offer,
                        chosen(&contact.choices),
                    )
                })
            }
        }
    };
}

kept!(FreeVolume, free, room: hk_free_dry_run_kept, hk_free_book_kept);
kept!(PrioritySeg, bookings: hk_priority_dry_run_kept, hk_priority_book_kept);

unsafe extern "C" {
    fn hk_polynomial_dry_run_kept(
        out: *mut Answer<Offer>,
        window: Interval,
        coefficients: *const i64,
        offset: u64,
        delays: *const u64,
        delay_count: usize,
        free: *const u64,
        count: usize,
        at: u64,
        bundle: Bundle,
        choices: *const u64,
    ) -> *mut Answer<Offer>;
    fn hk_polynomial_book_kept(
        window: Interval,
        coefficients: *const i64,
        offset: u64,
        delays: *const u64,
        delay_count: usize,
        free: *mut u64,
        count: *mut usize,
        at: u64,
        bundle: Bundle,
        offer: *const Offer,
        choices: *const u64,
    ) -> u8;
    fn hk_queue_dry_run_kept(
        out: *mut Answer<Offer>,
        m: *const Queue,
        at: u64,
        bundle: Bundle,
    ) -> *mut Answer<Offer>;
    fn hk_queue_book_kept(m: *mut Queue, at: u64, bundle: Bundle, offer: *const Offer) -> u8;
}

impl Kept for PolySeg {
    unsafe fn dry_run_kept(&self, at: u64, bundle: Bundle) -> Result<Offer, Refusal> {
        // SAFETY: as for the free-volume manager.
        answered(|out| unsafe {
            hk_polynomial_dry_run_kept(
                out,
                self.window,
                self.polynome.coefficients.as_ptr(),
                self.polynome.offset,
                words(&self.delays),
                self.delay_count,
                words(&self.free.segments),
                self.free.count,
                at,
                bundle,
                chosen(&self.choices),
            );
        })
    }

    unsafe fn book_kept(&mut self, at: u64, bundle: Bundle, offer: Offer) -> Result<(), Refusal> {
        // SAFETY: as for the free-volume manager.
        Refusal::unless_done(unsafe {
            hk_polynomial_book_kept(
                self.window,
                self.polynome.coefficients.as_ptr(),
                self.polynome.offset,
                words(&self.delays),
                self.delay_count,
                words_mut(&mut self.free.segments),
                &mut self.free.count,
                at,
                bundle,
                &offer,
                chosen(&self.choices),
            )
        })
    }
}

impl Kept for Queue {
    unsafe fn dry_run_kept(&self, at: u64, bundle: Bundle) -> Result<Offer, Refusal> {
        // SAFETY: the pointer is of a reference; that the record keeps its
        // rules is asked of the caller.
        answered(|out| unsafe {
            hk_queue_dry_run_kept(out, self, at, bundle);
        })
    }

    unsafe fn book_kept(&mut self, at: u64, bundle: Bundle, offer: Offer) -> Result<(), Refusal> {
        // SAFETY: as for the dry run.
        Refusal::unless_done(unsafe { hk_queue_book_kept(self, at, bundle, &offer) })
    }
}

unsafe extern "C" {
    // An answer of at most 16 bytes is returned as it is.
    fn hk_free_room(m: *const FreeVolume) -> Answer<u64>;
    fn hk_free_room_kept(m: *const FreeVolume) -> u64;
}

impl FreeVolume {
    /// [`Manager::room`] of any record: a damaged one is refused, one whose
    /// stored room is not its list's too.
    pub fn room_left(&self) -> Result<u64, Refusal> {
        // SAFETY: the pointer is of a reference; the total call asks nothing else.
        unsafe { hk_free_room(self) }.result()
    }
}

unsafe extern "C" {
    fn hk_queue_enqueue(m: *mut Queue, bundle: Bundle) -> u8;
    fn hk_queue_enqueue_kept(m: *mut Queue, bundle: Bundle) -> u8;
    fn hk_queue_dequeue(m: *mut Queue, bundle: Bundle) -> u8;
    fn hk_queue_dequeue_kept(m: *mut Queue, bundle: Bundle) -> u8;
}

impl Queue {
    /// [`Manager::enqueue`] on any record: a damaged one is refused.
    pub fn enqueue(&mut self, bundle: Bundle) -> Result<(), Refusal> {
        // SAFETY: the pointer is of a reference; the total call asks nothing else.
        Refusal::unless_done(unsafe { hk_queue_enqueue(self, bundle) })
    }

    /// [`Manager::dequeue`] on any record: a damaged one is refused.
    pub fn dequeue(&mut self, bundle: Bundle) -> Result<(), Refusal> {
        // SAFETY: the pointer is of a reference; the total call asks nothing else.
        Refusal::unless_done(unsafe { hk_queue_dequeue(self, bundle) })
    }
}

/// A manager: a record that keeps its rules. It comes from an opening or from
/// a tested record, and every call is proved to leave one that keeps them.
#[derive(Clone, Copy, Debug, PartialEq, Eq)]
pub struct Manager<R: Record>(R);

impl<R: Record> Manager<R> {
    pub(crate) fn opened(opening: &R::Opening) -> Result<Self, Refusal> {
        R::opened(opening).map(Manager)
    }

    /// Takes up a record from elsewhere. A damaged one is refused.
    pub fn from_record(record: R) -> Result<Self, Refusal> {
        match record.is_kept() {
            true => Ok(Manager(record)),
            false => Err(Refusal::RECORD),
        }
    }

    /// The record, to be looked at or kept elsewhere.
    pub fn record(&self) -> &R {
        &self.0
    }

    /// When could the bundle be sent, asked at this time? Nothing is booked.
    #[inline]
    pub fn dry_run(&self, at: u64, bundle: Bundle) -> Result<Offer, Refusal> {
        // SAFETY: the record of a manager keeps its rules.
        unsafe { self.0.dry_run_kept(at, bundle) }
    }

    /// Books what a dry run at this time offers. Where the record has changed
    /// so that it offers something else, the booking is refused with
    /// [`Refusal::NOT_OFFERED`] and the record is as before. A contact opened with
    /// [the strict flag](crate::Choices#the-strict-flag) refuses a send of no length
    /// with [`Refusal::ZERO_LENGTH`].
    #[inline]
    pub fn book(&mut self, at: u64, bundle: Bundle, offer: Offer) -> Result<(), Refusal> {
        // SAFETY: the record of a manager keeps its rules, and a booking
        // leaves one that does.
        unsafe { self.0.book_kept(at, bundle, offer) }
    }
}

impl Manager<FreeVolume> {
    /// The room left in the pass: the sum of the listed volumes, which every
    /// booking keeps up. One read, whatever is listed.
    ///
    /// A bundle of this size need not fit, since the room may lie in several
    /// stretches. It never exceeds what the listed time carries at the contact's
    /// rates.
    ///
    /// Under edition 1 of the end rule (see [`Choices`](crate::Choices)) a booking
    /// at a stretch's start takes its size off the volume, and one inside a
    /// stretch works the volumes out anew, so that the room can rise by it. Under
    /// edition 2 every booking works them out anew: the room of a contact opened
    /// so is exactly what the listed time carries, and no booking raises it.
    #[inline]
    pub fn room(&self) -> u64 {
        // SAFETY: the pointer is of a reference; the record of a manager keeps
        // its rules.
        unsafe { hk_free_room_kept(&self.0) }
    }
}

impl Manager<Queue> {
    /// Adds the size to the queues of the bundle's class and those below it.
    pub fn enqueue(&mut self, bundle: Bundle) -> Result<(), Refusal> {
        // SAFETY: the pointer is of a reference; the record of a manager keeps
        // its rules, and queueing leaves one that does.
        Refusal::unless_done(unsafe { hk_queue_enqueue_kept(&mut self.0, bundle) })
    }

    /// Takes the size from the queues that [`Manager::enqueue`] adds it to.
    pub fn dequeue(&mut self, bundle: Bundle) -> Result<(), Refusal> {
        // SAFETY: as for `enqueue`.
        Refusal::unless_done(unsafe { hk_queue_dequeue_kept(&mut self.0, bundle) })
    }
}
