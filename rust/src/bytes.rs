//! Records as bytes: the kind and form, then the fields in order, numbers of 8
//! bytes, big-endian, counts before their lists, and of each list the used
//! places only.
//!
//! A form that was written once is read for good: what it lacks is worked out,
//! or is what the original has, and the record then passes the same test as any
//! other.

use crate::choices::{Choices, Chosen, PolynomialChoices, QueueChoices};
use crate::manager::{Manager, Record};
use crate::record::{
    Bookings, Contact, DELAYS, FreeList, FreeVolume, LISTED, PolySeg, PrioritySeg, Queue,
};
use crate::refusal::Refusal;
use crate::segments::{BookingSegment, DelaySegment, Flags, Interval, Polynome, VolumeSegment};

/// Which record follows: the kinds of document 01's openings, and above them
/// the record's form.
const FREE: u8 = 0x21;
const PRIORITY: u8 = 0x12;
const POLYNOMIAL: u8 = 0x13;
const QUEUE: u8 = 0x14;

/// The forms that records had before they named their choices.
const FREE_WITHOUT_CHOICES: u8 = 0x11;
const PRIORITY_WITHOUT_CHOICES: u8 = 2;
const POLYNOMIAL_WITHOUT_CHOICES: u8 = 3;
const QUEUE_WITHOUT_CHOICES: u8 = 4;

/// The form that free-volume records had before they held their room.
const FREE_WITHOUT_ROOM: u8 = 1;

/// What can be written and read back.
pub trait Bytes: Sized {
    fn write(&self, out: &mut Vec<u8>);

    /// `None` where the bytes end early or say what no field can hold.
    fn read(from: &mut &[u8]) -> Option<Self>;
}

impl<R: Record + Bytes> Manager<R> {
    /// The record as bytes, for [`Manager::from_bytes`].
    pub fn to_bytes(&self) -> Vec<u8> {
        let mut out = Vec::new();
        self.record().write(&mut out);
        out
    }

    /// The manager whose record these bytes are. Damaged ones are refused with
    /// [`Refusal::RECORD`].
    pub fn from_bytes(mut bytes: &[u8]) -> Result<Self, Refusal> {
        let record = R::read(&mut bytes).ok_or(Refusal::RECORD)?;
        match bytes.is_empty() {
            true => Manager::from_record(record),
            false => Err(Refusal::RECORD),
        }
    }
}

impl Bytes for u8 {
    fn write(&self, out: &mut Vec<u8>) {
        out.push(*self);
    }

    fn read(from: &mut &[u8]) -> Option<Self> {
        from.split_off_first().copied()
    }
}

impl Bytes for u64 {
    fn write(&self, out: &mut Vec<u8>) {
        out.extend(self.to_be_bytes());
    }

    fn read(from: &mut &[u8]) -> Option<Self> {
        let (number, rest) = from.split_first_chunk()?;
        *from = rest;
        Some(u64::from_be_bytes(*number))
    }
}

impl Bytes for i64 {
    fn write(&self, out: &mut Vec<u8>) {
        self.cast_unsigned().write(out);
    }

    fn read(from: &mut &[u8]) -> Option<Self> {
        u64::read(from).map(u64::cast_signed)
    }
}

impl Bytes for bool {
    fn write(&self, out: &mut Vec<u8>) {
        u8::from(*self).write(out);
    }

    fn read(from: &mut &[u8]) -> Option<Self> {
        match u8::read(from)? {
            0 => Some(false),
            1 => Some(true),
            _ => None,
        }
    }
}

impl<T: Bytes + Default + Copy, const N: usize> Bytes for [T; N] {
    fn write(&self, out: &mut Vec<u8>) {
        self.iter().for_each(|one| one.write(out));
    }

    fn read(from: &mut &[u8]) -> Option<Self> {
        let mut all = [T::default(); N];
        for one in &mut all {
            *one = T::read(from)?;
        }
        Some(all)
    }
}

/// A count in one byte, and as many of the places.
fn write_list<T: Bytes, const N: usize>(places: &[T; N], count: usize, out: &mut Vec<u8>) {
    let used = &places[..count.min(N)];
    (used.len() as u8).write(out);
    used.iter().for_each(|one| one.write(out));
}

fn read_list<T: Bytes + Default + Copy, const N: usize>(
    from: &mut &[u8],
) -> Option<([T; N], usize)> {
    let count = usize::from(u8::read(from)?);
    let mut places = [T::default(); N];
    for place in places.get_mut(..count)? {
        *place = T::read(from)?;
    }
    Some((places, count))
}

/// A struct as its fields in order, each of them [`Bytes`].
macro_rules! fields {
    ($($name:ident { $($field:ident),* })*) => {$(
        impl Bytes for $name {
            fn write(&self, out: &mut Vec<u8>) {
                $(self.$field.write(out);)*
            }

            fn read(from: &mut &[u8]) -> Option<Self> {
                Some($name { $($field: Bytes::read(from)?),* })
            }
        }
    )*};
}

fields! {
    Interval { start, end }
    VolumeSegment { start, end, volume }
    DelaySegment { start, end, delay }
    BookingSegment { start, end, level }
    Polynome { coefficients, offset }
    Flags { add_delay, self_update, budgeted }
}

/// A count in one byte, and as many numbers. Bytes with fewer numbers than
/// there are choices were written before the rest could be chosen.
impl<C: Chosen> Bytes for C {
    fn write(&self, out: &mut Vec<u8>) {
        let mut choices = *self;
        let places = choices.places();
        (places.len() as u8).write(out);
        places.for_each(|place| place.write(out));
    }

    fn read(from: &mut &[u8]) -> Option<Self> {
        let count = usize::from(u8::read(from)?);
        let mut choices = C::default();
        if count > choices.places().len() {
            return None;
        }
        for place in choices.places().take(count) {
            *place = u64::read(from)?;
        }
        Some(choices)
    }
}

impl Bytes for Contact {
    fn write(&self, out: &mut Vec<u8>) {
        self.choices.write(out);
        self.window.write(out);
        write_list(&self.rates, self.rate_count, out);
        write_list(&self.delays, self.delay_count, out);
    }

    fn read(from: &mut &[u8]) -> Option<Self> {
        let choices = Choices::read(from)?;
        Contact::read_with(choices, from)
    }
}

impl Contact {
    /// The contact of these choices, from the bytes that follow them.
    fn read_with(choices: Choices, from: &mut &[u8]) -> Option<Self> {
        let window = Interval::read(from)?;
        let (rates, rate_count) = read_list(from)?;
        let (delays, delay_count) = read_list(from)?;
        Some(Contact {
            choices,
            window,
            rates,
            rate_count,
            delays,
            delay_count,
        })
    }
}

impl Bytes for FreeList {
    fn write(&self, out: &mut Vec<u8>) {
        write_list(&self.segments, self.count, out);
    }

    fn read(from: &mut &[u8]) -> Option<Self> {
        let (segments, count) = read_list::<_, LISTED>(from)?;
        Some(FreeList { segments, count })
    }
}

impl Bytes for Bookings {
    fn write(&self, out: &mut Vec<u8>) {
        write_list(&self.segments, self.count, out);
    }

    fn read(from: &mut &[u8]) -> Option<Self> {
        let (segments, count) = read_list::<_, LISTED>(from)?;
        Some(Bookings { segments, count })
    }
}

impl FreeList {
    /// The room of a list that was stored without it. Nothing rests on this
    /// sum: the record's test adds the list up itself.
    fn room(&self) -> Option<u64> {
        let mut volumes = self.segments.iter().map(|segment| segment.volume);
        volumes.try_fold(0, u64::checked_add)
    }
}

impl Bytes for FreeVolume {
    fn write(&self, out: &mut Vec<u8>) {
        FREE.write(out);
        self.contact.write(out);
        self.free.write(out);
        self.room.write(out);
    }

    fn read(from: &mut &[u8]) -> Option<Self> {
        let form = u8::read(from)?;
        let contact = match form {
            FREE => Contact::read(from)?,
            FREE_WITHOUT_CHOICES | FREE_WITHOUT_ROOM => {
                Contact::read_with(Choices::default(), from)?
            }
            _ => return None,
        };
        let free = FreeList::read(from)?;
        let room = match form {
            FREE_WITHOUT_ROOM => free.room()?,
            _ => u64::read(from)?,
        };
        Some(FreeVolume {
            contact,
            free,
            room,
        })
    }
}

impl Bytes for PrioritySeg {
    fn write(&self, out: &mut Vec<u8>) {
        PRIORITY.write(out);
        self.contact.write(out);
        self.bookings.write(out);
    }

    fn read(from: &mut &[u8]) -> Option<Self> {
        let contact = match u8::read(from)? {
            PRIORITY => Contact::read(from)?,
            PRIORITY_WITHOUT_CHOICES => Contact::read_with(Choices::default(), from)?,
            _ => return None,
        };
        Some(PrioritySeg {
            contact,
            bookings: Bytes::read(from)?,
        })
    }
}

impl Bytes for PolySeg {
    fn write(&self, out: &mut Vec<u8>) {
        POLYNOMIAL.write(out);
        self.choices.write(out);
        self.window.write(out);
        self.polynome.write(out);
        write_list(&self.delays, self.delay_count, out);
        self.free.write(out);
    }

    fn read(from: &mut &[u8]) -> Option<Self> {
        let choices = match u8::read(from)? {
            POLYNOMIAL => Bytes::read(from)?,
            POLYNOMIAL_WITHOUT_CHOICES => PolynomialChoices::default(),
            _ => return None,
        };
        let window = Bytes::read(from)?;
        let polynome = Bytes::read(from)?;
        let (delays, delay_count) = read_list::<_, DELAYS>(from)?;
        let free = Bytes::read(from)?;
        Some(PolySeg {
            choices,
            window,
            polynome,
            delays,
            delay_count,
            free,
        })
    }
}

impl Bytes for Queue {
    fn write(&self, out: &mut Vec<u8>) {
        QUEUE.write(out);
        self.choices.write(out);
        self.window.write(out);
        self.rate.write(out);
        self.delay.write(out);
        (self.classes as u64).write(out);
        self.flags.write(out);
        self.queues.write(out);
        self.budgets.write(out);
    }

    fn read(from: &mut &[u8]) -> Option<Self> {
        let choices = match u8::read(from)? {
            QUEUE => Bytes::read(from)?,
            QUEUE_WITHOUT_CHOICES => QueueChoices::default(),
            _ => return None,
        };
        Some(Queue {
            choices,
            window: Bytes::read(from)?,
            rate: Bytes::read(from)?,
            delay: Bytes::read(from)?,
            classes: usize::try_from(u64::read(from)?).ok()?,
            flags: Bytes::read(from)?,
            queues: Bytes::read(from)?,
            budgets: Bytes::read(from)?,
        })
    }
}
