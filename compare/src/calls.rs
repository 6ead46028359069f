//! The original's calls in the frames' numbers. The manager's own answer is
//! always the original's; only its form changes here.

use asabr::bundle::Bundle;
use asabr::contact::{Contact, ContactInfo};
use asabr::contact_manager::segmentation::Segment;
use asabr::contact_manager::{ContactManager, ContactManagerTxData};
use asabr::types::{Date, NodeID, TimeInterval};

use crate::frames::{Dates, Load, Request, Span, Window};
use crate::guard::guarded;
use crate::refusal::Refusal;

/// The delay of the segment that `poly` adds after the listed ones: far above
/// any date, and no sum with a date overflows. Only a failed lookup meets it.
pub const NO_DELAY: i128 = 1 << 100;

pub fn segments(spans: &[Span]) -> Vec<Segment<i128>> {
    spans
        .iter()
        .map(|span| Segment {
            start: span.start.into(),
            end: span.end.into(),
            val: span.value.into(),
        })
        .collect()
}

fn bundle(load: Load) -> Bundle {
    Bundle {
        priority: load.priority as i8,
        size: load.size.into(),
        // No manager reads it.
        expiration: Date::MAX,
    }
}

/// Opens what has passed all tests. That the original then refuses, by its
/// `None` or by a panic, is a fault.
pub fn open<M: ContactManager>(
    window: Window,
    manager: impl FnOnce() -> M,
) -> Result<Contact<M>, Refusal> {
    let info = ContactInfo::new(
        NodeID::from(0),
        NodeID::from(1),
        window.start.into(),
        window.end.into(),
    );
    let opened = guarded(|| Contact::try_new(info, manager()))?;
    opened.map(|(contact, ..)| contact).ok_or(Refusal::Fault)
}

pub fn dry_run<M: ContactManager>(
    contact: &Contact<M>,
    request: Request,
) -> Result<Dates, Refusal> {
    let bundle = bundle(request.load);
    let offer = guarded(|| contact.dry_run_tx(request.time.into(), &bundle))?;
    dates(offer.ok_or(Refusal::NoOffer)?)
}

fn dates(offer: ContactManagerTxData) -> Result<Dates, Refusal> {
    if offer.recv.start >= NO_DELAY || offer.recv.end >= NO_DELAY {
        return Err(Refusal::NoDelay);
    }
    Ok(Dates([
        number(offer.send.start)?,
        number(offer.send.end)?,
        number(offer.recv.start)?,
        number(offer.recv.end)?,
    ]))
}

pub fn number(value: i128) -> Result<i64, Refusal> {
    value.try_into().map_err(|_| Refusal::Fault)
}

/// Refusal 9: the dates must be those of a dry run at the stated time.
pub fn test_offered<M: ContactManager>(
    contact: &Contact<M>,
    request: Request,
    stated: Dates,
) -> Result<(), Refusal> {
    match dry_run(contact, request) {
        Ok(offered) if offered == stated => Ok(()),
        Err(Refusal::Fault) => Err(Refusal::Fault),
        _ => Err(Refusal::NotOffered),
    }
}

/// Books what was offered. The original's error is for what never was.
pub fn schedule<M: ContactManager>(
    contact: &mut Contact<M>,
    load: Load,
    stated: Dates,
) -> Result<(), Refusal> {
    let [send_start, send_end, receive_start, receive_end] = stated.0.map(Date::from);
    let data = ContactManagerTxData {
        send: TimeInterval {
            start: send_start,
            end: send_end,
        },
        recv: TimeInterval {
            start: receive_start,
            end: receive_end,
        },
    };
    let bundle = bundle(load);
    guarded(|| contact.schedule_tx(data, &bundle))?.map_err(|_| Refusal::Fault)
}

/// Refusal 12 is the original's `false`.
pub fn enqueue<M: ContactManager>(contact: &mut Contact<M>, load: Load) -> Result<(), Refusal> {
    let bundle = bundle(load);
    guarded(|| contact.manual_enqueue(&bundle))?
        .then_some(())
        .ok_or(Refusal::NotManual)
}

/// Refusal 12 is the original's `false`.
pub fn dequeue<M: ContactManager>(contact: &mut Contact<M>, load: Load) -> Result<(), Refusal> {
    let bundle = bundle(load);
    guarded(|| contact.manual_dequeue(&bundle))?
        .then_some(())
        .ok_or(Refusal::NotManual)
}
