//! What the adapter books with, where `schedule_tx` does not say the time that
//! was asked.

use adapter::asabr::bundle::Bundle;
use adapter::asabr::contact::{Contact, ContactInfo};
use adapter::asabr::contact_manager::ContactManager;
use adapter::asabr::contact_manager::segmentation::Segment;
use adapter::asabr::contact_manager::segmentation::pseg::PSegmentationManager;
use adapter::asabr::types::NodeID;
use adapter::{PrioritySeg, Queue, Queueing, Rated};
use howrekano::Flags;

fn bundle(size: i128, priority: i8) -> Bundle {
    Bundle {
        priority,
        size,
        expiration: i128::MAX,
    }
}

fn contact<M: ContactManager>(manager: M) -> Contact<M> {
    let info = ContactInfo::new(NodeID::from(0), NodeID::from(1), 0, 10);
    Contact::try_new(info, manager).unwrap().0
}

fn book<M: ContactManager>(contact: &mut Contact<M>, at: i128, bundle: &Bundle) -> (i128, i128) {
    let offer = contact.dry_run_tx(at, bundle).unwrap();
    contact.schedule_tx(offer, bundle).unwrap();
    (offer.send.start, offer.send.end)
}

fn segments(value: i128) -> Vec<Segment<i128>> {
    vec![Segment {
        start: 0,
        end: 10,
        val: value,
    }]
}

/// An empty segment at the send start is passed over when asked there.
#[test]
fn an_empty_segment_is_booked() {
    let parts = Rated::new(&segments(10), &segments(3)).unwrap();
    let mut ours = contact(PrioritySeg::made(parts));
    let mut original = contact(PSegmentationManager::new(segments(10), segments(3)));
    for (at, size, priority) in [(5, 9, 0), (0, 50, 2), (5, 50, 2)] {
        let bundle = bundle(size, priority);
        assert_eq!(
            book(&mut ours, at, &bundle),
            book(&mut original, at, &bundle)
        );
    }
    let last = bundle(9, 1);
    assert!(ours.dry_run_tx(5, &last).is_none());
    assert!(original.dry_run_tx(5, &last).is_none());
    assert_eq!(book(&mut ours, 0, &last), (5, 5));
    assert_eq!(book(&mut original, 0, &last), (5, 5));
}

/// With added delay alone, what is queued is added to the asked time.
#[test]
fn queued_volume_is_taken_off() {
    let flags = Flags {
        add_delay: true,
        ..Flags::default()
    };
    let parts = Queueing {
        rate: 10,
        delay: 2,
        classes: 3,
        flags,
        budgets: Vec::new(),
    };
    let mut ours = contact(Queue::made(parts));
    assert!(ours.manual_enqueue(&bundle(25, 1)));
    assert_eq!(book(&mut ours, 3, &bundle(25, 0)), (5, 7));
}

/// A contact of numbers outside the limits is not opened, and a lifespan that
/// is not the window is not answered.
#[test]
fn what_the_limits_refuse() {
    assert!(Rated::new(&segments(-1), &segments(3)).is_none());
    let parts = Rated::new(&segments(1 << 40), &segments(3)).unwrap();
    let info = ContactInfo::new(NodeID::from(0), NodeID::from(1), 0, 10);
    assert!(Contact::try_new(info, PrioritySeg::made(parts)).is_none());
    let parts = Rated::new(&segments(10), &segments(3)).unwrap();
    let ours = contact(PrioritySeg::made(parts));
    let other = adapter::asabr::types::TimeInterval { start: 0, end: 9 };
    let answer = ours.manager.dry_run_tx(other, 0, &bundle(1, 0));
    assert!(answer.is_none());
}
