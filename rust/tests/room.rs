//! Document 02's R-1 through the package: the room left in a pass, and the
//! records that hold it, as bytes too.

use howrekano::{Bundle, DelaySegment, FreeVolume, Interval, PrioritySeg, RateSegment, Refusal};

const WINDOW: Interval = Interval { start: 0, end: 10 };
const RATE: RateSegment = RateSegment {
    start: 0,
    end: 10,
    rate: 10,
};
const DELAY: DelaySegment = DelaySegment {
    start: 0,
    end: 10,
    delay: 3,
};

fn contact_a() -> FreeVolume {
    FreeVolume::open(WINDOW, &[RATE], &[DELAY]).unwrap()
}

/// Books what is offered for a size; the room after it.
fn after(contact: &mut FreeVolume, at: u64, size: u64) -> u64 {
    let bundle = Bundle { size, priority: 0 };
    let offer = contact.dry_run(at, bundle).unwrap();
    contact.book(at, bundle, offer).unwrap();
    contact.room()
}

#[test]
fn it_is_the_total_at_first_and_kept_up_by_every_booking() {
    let mut contact = contact_a();
    assert_eq!(contact.room(), 100);
    // Cases 1 to 4 of document 01.
    assert_eq!(after(&mut contact, 3, 15), 90);
    assert_eq!(after(&mut contact_a(), 0, 15), 85);
    assert_eq!(after(&mut contact_a(), 5, 9), 50);
    assert_eq!(after(&mut contact_a(), 0, 100), 0);
}

#[test]
fn it_rises_where_a_stretch_is_worked_out_anew() {
    let mut contact = contact_a();
    assert_eq!(after(&mut contact, 0, 19), 81);
    assert_eq!(after(&mut contact, 1, 19), 62);
    assert_eq!(after(&mut contact, 5, 10), 70);
}

#[test]
fn a_refused_booking_leaves_it() {
    let mut contact = contact_a();
    let bundle = Bundle {
        size: 15,
        priority: 0,
    };
    let offer = contact.dry_run(3, bundle).unwrap();
    contact.book(3, bundle, offer).unwrap();
    assert_eq!(contact.book(3, bundle, offer), Err(Refusal::NOT_OFFERED));
    assert_eq!(contact.room(), 90);
}

#[test]
fn a_record_with_another_room_is_damaged() {
    let mut record = *contact_a().record();
    assert_eq!(record.room_left(), Ok(100));
    for room in [0, 99, 101, u64::MAX] {
        record.room = room;
        assert_eq!(record.room_left(), Err(Refusal::RECORD));
        assert_eq!(
            FreeVolume::from_record(record).err(),
            Some(Refusal::RECORD),
            "{room}"
        );
    }
}

/// Contact A, [3,4) booked, as this package wrote it before records held their
/// room.
const EARLIER: &str = "\
    01 0000000000000000 000000000000000a \
    01 0000000000000000 000000000000000a 0000000000000064 \
    01 0000000000000000 000000000000000a 0000000000000003 \
    02 0000000000000000 0000000000000003 000000000000001e \
       0000000000000004 000000000000000a 000000000000003c";

fn bytes(text: &str) -> Vec<u8> {
    let digits: Vec<u8> = text.bytes().filter(|digit| *digit != b' ').collect();
    let pairs = digits.chunks(2).map(|pair| str::from_utf8(pair).unwrap());
    pairs
        .map(|pair| u8::from_str_radix(pair, 16).unwrap())
        .collect()
}

#[test]
fn bytes_hold_it_and_those_of_the_earlier_form_are_read() {
    let mut contact = contact_a();
    after(&mut contact, 3, 15);
    let earlier = bytes(EARLIER);
    assert_eq!(FreeVolume::from_bytes(&earlier), Ok(contact));
    // The form now: another first byte, the choices, and the room at the end.
    let now = contact.to_bytes();
    let chosen = "03 0000000000000001 0000000000000001 0000000000000000";
    assert_eq!(now[..26], bytes(&format!("21 {chosen}")));
    assert_eq!(now[26..now.len() - 8], earlier[1..]);
    assert_eq!(now[now.len() - 8..], 90_u64.to_be_bytes());
    assert_eq!(FreeVolume::from_bytes(&now), Ok(contact));
}

#[test]
fn bytes_with_another_room_or_of_no_form_are_refused() {
    let mut contact = contact_a();
    after(&mut contact, 3, 15);
    let damaged = Err(Refusal::RECORD);
    let now = contact.to_bytes();
    let mut other = now.clone();
    *other.last_mut().unwrap() ^= 1;
    assert_eq!(FreeVolume::from_bytes(&other), damaged);
    // The earlier form has no place for a room, and the form now needs one.
    assert_eq!(FreeVolume::from_bytes(&now[..now.len() - 8]), damaged);
    let mut earlier = bytes(EARLIER);
    earlier.extend(90_u64.to_be_bytes());
    assert_eq!(FreeVolume::from_bytes(&earlier), damaged);
    // Volumes that no 64 bits add up to.
    let mut large = bytes(EARLIER);
    let length = large.len();
    large[length - 24 - 8] = 0xff;
    large[length - 8] = 0xff;
    assert_eq!(FreeVolume::from_bytes(&large), damaged);
    for first in [0, 2, 3, 4, 0x11, 0x12, 0x31, 0xff] {
        other.clone_from(&now);
        other[0] = first;
        assert_eq!(FreeVolume::from_bytes(&other), damaged, "{first}");
    }
    let priority = PrioritySeg::open(WINDOW, &[RATE], &[DELAY]).unwrap();
    assert_eq!(FreeVolume::from_bytes(&priority.to_bytes()), damaged);
}
