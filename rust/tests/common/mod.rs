//! What several tests ask of a contact or of a record, whichever manager's it is.

use std::fmt::Debug;

use howrekano::{Bundle, Manager, Offer, Record, Refusal};

/// What is offered, by both doors.
pub fn offered<R: Record>(contact: &Manager<R>, at: u64, bundle: Bundle) -> Result<Offer, Refusal> {
    let offer = contact.dry_run(at, bundle);
    assert_eq!(contact.record().dry_run(at, bundle), offer);
    offer
}

/// Books with this offer, by both doors: they leave the same record, and it keeps
/// its rules.
pub fn book_stated<R: Record + Debug>(
    contact: &mut Manager<R>,
    at: u64,
    bundle: Bundle,
    offer: Offer,
) -> Result<(), Refusal> {
    let mut record = *contact.record();
    let booked = contact.book(at, bundle, offer);
    assert_eq!(record.book(at, bundle, offer), booked);
    assert_eq!(record, *contact.record());
    assert!(record.is_kept());
    booked
}

/// Books what is offered.
#[allow(dead_code)] // A test that states its own offers has no use for it.
pub fn book<R: Record + Debug>(
    contact: &mut Manager<R>,
    at: u64,
    bundle: Bundle,
) -> Result<Offer, Refusal> {
    let offer = offered(contact, at, bundle)?;
    book_stated(contact, at, bundle, offer)?;
    Ok(offer)
}

/// Every total call refuses the record with 1 and leaves it as it came.
pub fn refuses<R: Record + Debug>(record: R) {
    let [some, none] = [10, 0].map(|size| Bundle { size, priority: 0 });
    let mut after = record;
    assert!(!record.is_kept());
    assert_eq!(Manager::from_record(record).err(), Some(Refusal::RECORD));
    assert_eq!(record.listed().err(), Some(Refusal::RECORD));
    assert_eq!(record.dry_run(3, some), Err(Refusal::RECORD));
    // 1 goes before 2: what is wrong is the record's, not the caller's.
    assert_eq!(record.dry_run(3, none), Err(Refusal::RECORD));
    let booked = after.book(3, some, Offer::default());
    assert_eq!(booked, Err(Refusal::RECORD));
    assert_eq!(after, record);
}
