//! The numbers an answer begins with.

/// Document 01's refusals, under its numbers.
#[derive(Clone, Copy, Debug, PartialEq, Eq)]
#[repr(u8)]
pub enum Refusal {
    /// The record breaks its rules. Records come from openings only here, and
    /// no sum is stored that could differ from its list, so this is always
    /// "nothing is open".
    NothingOpen = 1,
    /// Of a bundle, or of a rule byte (document 02, R-4).
    Bundle = 2,
    Window = 3,
    Rates = 4,
    Delays = 5,
    Volume = 6,
    NoOffer = 7,
    NoDelay = 8,
    NotOffered = 9,
    ListFull = 10,
    Polynomial = 11,
    /// Manual queueing on a self-updating manager, or a frame that another
    /// manager answers: 13 and 14 on all but the queue manager, 15 on all but
    /// the free-volume manager.
    NotManual = 12,
    QueueBound = 13,
    Classes = 14,
    /// Not in document 01: the original panicked, or answered what no answer
    /// can hold. No program writes it, so it always shows as a difference.
    Fault = 0xfe,
    Malformed = 0xff,
}

/// The number of an answer that is no refusal.
pub const DONE: u8 = 0;

impl Refusal {
    /// Document 01's, from 1 to 14.
    const ALL: [Refusal; 14] = [
        Refusal::NothingOpen,
        Refusal::Bundle,
        Refusal::Window,
        Refusal::Rates,
        Refusal::Delays,
        Refusal::Volume,
        Refusal::NoOffer,
        Refusal::NoDelay,
        Refusal::NotOffered,
        Refusal::ListFull,
        Refusal::Polynomial,
        Refusal::NotManual,
        Refusal::QueueBound,
        Refusal::Classes,
    ];

    pub fn number(self) -> u8 {
        self as u8
    }

    /// The refusal of a reading's number; a fault where there is none.
    pub fn of(number: u8) -> Refusal {
        let known = Self::ALL.iter().find(|refusal| refusal.number() == number);
        *known.unwrap_or(&Refusal::Fault)
    }
}
