//! The forms of the four managers' records as bytes: the one that is written, and
//! those that earlier versions wrote.

use howrekano::{
    Bundle, Choices, DelaySegment, Flags, FreeVolume, Interval, Manager, PolySeg, Polynome,
    PolynomialChoices, PrioritySeg, Queue, QueueChoices, RateSegment, Record, Refusal,
};

/// An edition or a mode, a rule and a strict flag.
type Chosen = [u64; 3];

/// What the original has.
const ORIGINAL: Chosen = [1, 1, 0];

const CHOSEN: [Chosen; 8] = [
    ORIGINAL,
    [1, 2, 0],
    [2, 1, 0],
    [2, 2, 0],
    [1, 1, 1],
    [1, 2, 1],
    [2, 1, 1],
    [2, 2, 1],
];

const WINDOW: Interval = Interval { start: 0, end: 10 };
const RATES: [RateSegment; 1] = [RateSegment {
    start: 0,
    end: 10,
    rate: 10,
}];
const DELAYS: [DelaySegment; 1] = [DelaySegment {
    start: 0,
    end: 10,
    delay: 3,
}];

/// A polynomial whose quotients are whole, so that both modes answer alike.
const POLYNOME: Polynome = Polynome {
    coefficients: [10, 2, -3, 4],
    offset: 1,
};

const CLASSES: usize = 3;
const BUDGETS: [u64; CLASSES] = [90, 80, 70];
const FLAGS: Flags = Flags {
    add_delay: true,
    self_update: true,
    budgeted: true,
};

/// A record's bytes from the window up to the list: those of contact A of document
/// 01, of the polynomial, and of a queue with contact A's figures.
const CONTACT: &str = "\
    0000000000000000 000000000000000a \
    01 0000000000000000 000000000000000a 0000000000000064 \
    01 0000000000000000 000000000000000a 0000000000000003";
const POLYNOMIAL: &str = "\
    0000000000000000 000000000000000a \
    000000000000000a 0000000000000002 fffffffffffffffd 0000000000000004 \
    0000000000000001 \
    01 0000000000000000 000000000000000a 0000000000000003";
const QUEUE: &str = "\
    0000000000000000 000000000000000a \
    000000000000000a 0000000000000003 0000000000000003 \
    01 01 01";

/// What is listed after 10 units at 3, which is the same under both editions, in
/// both modes, under both rules, and with the strict flag or without.
const FREE: &str = "\
    02 0000000000000000 0000000000000003 000000000000001e \
       0000000000000004 000000000000000a 000000000000003c";
const ROOM: &str = "000000000000005a";
const BOOKINGS: &str = "\
    03 0000000000000000 0000000000000003 0000000000000000 \
       0000000000000003 0000000000000004 0000000000000001 \
       0000000000000004 000000000000000a 0000000000000000";
const BARE: &str = "\
    02 0000000000000000 0000000000000003 0000000000000000 \
       0000000000000004 000000000000000a 0000000000000000";
/// The queues, and the budgets behind them.
const QUEUED: &str = "\
    000000000000000a 0000000000000000 0000000000000000 0000000000000000 \
    0000000000000000 0000000000000000 0000000000000000 0000000000000000 \
    000000000000005a 0000000000000050 0000000000000046 0000000000000000 \
    0000000000000000 0000000000000000 0000000000000000 0000000000000000";

/// Whole records as version 0.5.0 wrote them, after 10 units at 3: with edition 2 or
/// mode 2 and rule 2, and a queue, which named no choices.
mod version_0_5_0 {
    pub const FREE: &str = "\
        21 02 0000000000000002 0000000000000002 \
        0000000000000000 000000000000000a \
        01 0000000000000000 000000000000000a 0000000000000064 \
        01 0000000000000000 000000000000000a 0000000000000003 \
        02 0000000000000000 0000000000000003 000000000000001e \
           0000000000000004 000000000000000a 000000000000003c \
        000000000000005a";
    pub const PRIORITY: &str = "\
        12 02 0000000000000002 0000000000000002 \
        0000000000000000 000000000000000a \
        01 0000000000000000 000000000000000a 0000000000000064 \
        01 0000000000000000 000000000000000a 0000000000000003 \
        03 0000000000000000 0000000000000003 0000000000000000 \
           0000000000000003 0000000000000004 0000000000000001 \
           0000000000000004 000000000000000a 0000000000000000";
    pub const POLYNOMIAL: &str = "\
        13 02 0000000000000002 0000000000000002 \
        0000000000000000 000000000000000a \
        000000000000000a 0000000000000002 fffffffffffffffd 0000000000000004 \
        0000000000000001 \
        01 0000000000000000 000000000000000a 0000000000000003 \
        02 0000000000000000 0000000000000003 0000000000000000 \
           0000000000000004 000000000000000a 0000000000000000";
    pub const QUEUE: &str = "\
        04 0000000000000000 000000000000000a \
        000000000000000a 0000000000000003 0000000000000003 \
        01 01 01 \
        000000000000000a 0000000000000000 0000000000000000 0000000000000000 \
        0000000000000000 0000000000000000 0000000000000000 0000000000000000 \
        000000000000005a 0000000000000050 0000000000000046 0000000000000000 \
        0000000000000000 0000000000000000 0000000000000000 0000000000000000";

    /// Edition 1 and rule 2, after 9 units at 5: an empty stretch is listed.
    pub const PRIORITY_WITH_EMPTY: &str = "\
        12 02 0000000000000001 0000000000000002 \
        0000000000000000 000000000000000a \
        01 0000000000000000 000000000000000a 0000000000000064 \
        01 0000000000000000 000000000000000a 0000000000000003 \
        03 0000000000000000 0000000000000005 0000000000000000 \
           0000000000000005 0000000000000005 0000000000000001 \
           0000000000000005 000000000000000a 0000000000000000";
}

/// Choices as they are written: their count, and each. Versions 0.3.0 and 0.4.0
/// wrote the edition or the mode alone, and 0.5.0 no strict flag.
fn named(choices: &[u64]) -> String {
    let numbers = choices.iter().map(|number| format!(" {number:016x}"));
    format!("{:02x}{}", choices.len(), numbers.collect::<String>())
}

fn bytes(parts: &[&str]) -> Vec<u8> {
    let digits: Vec<u8> = parts
        .iter()
        .flat_map(|part| part.bytes().filter(|digit| *digit != b' '))
        .collect();
    let pairs = digits.chunks(2).map(|pair| str::from_utf8(pair).unwrap());
    pairs
        .map(|pair| u8::from_str_radix(pair, 16).unwrap())
        .collect()
}

/// Books what is offered for this size at this time.
fn after<R: Record>(mut contact: Manager<R>, at: u64, size: u64) -> Manager<R> {
    let bundle = Bundle { size, priority: 0 };
    let offer = contact.dry_run(at, bundle).unwrap();
    contact.book(at, bundle, offer).unwrap();
    contact
}

fn booked<R: Record>(contact: Manager<R>) -> Manager<R> {
    after(contact, 3, 10)
}

fn choices([edition, rule, strict]: Chosen) -> Choices {
    Choices {
        edition,
        rule,
        strict,
    }
}

fn free(chosen: Chosen) -> FreeVolume {
    booked(FreeVolume::open_with(choices(chosen), WINDOW, &RATES, &DELAYS).unwrap())
}

fn priority_opened(chosen: Chosen) -> PrioritySeg {
    PrioritySeg::open_with(choices(chosen), WINDOW, &RATES, &DELAYS).unwrap()
}

fn priority(chosen: Chosen) -> PrioritySeg {
    booked(priority_opened(chosen))
}

fn polynomial([mode, rule, strict]: Chosen) -> PolySeg {
    let choices = PolynomialChoices { mode, rule, strict };
    booked(PolySeg::open_with(choices, WINDOW, POLYNOME, &DELAYS).unwrap())
}

fn queue(strict: u64) -> Queue {
    let choices = QueueChoices { strict };
    let (rate, delay) = (RATES[0].rate, DELAYS[0].delay);
    booked(Queue::open_with(choices, WINDOW, rate, delay, CLASSES, FLAGS, &BUDGETS).unwrap())
}

#[test]
fn the_form_now_names_the_choices() {
    for chosen in CHOSEN {
        let named = &named(&chosen);
        let written = bytes(&["21", named, CONTACT, FREE, ROOM]);
        let contact = free(chosen);
        assert_eq!(contact.to_bytes(), written);
        assert_eq!(FreeVolume::from_bytes(&written), Ok(contact));
        let written = bytes(&["12", named, CONTACT, BOOKINGS]);
        let contact = priority(chosen);
        assert_eq!(contact.to_bytes(), written);
        assert_eq!(PrioritySeg::from_bytes(&written), Ok(contact));
        let written = bytes(&["13", named, POLYNOMIAL, BARE]);
        let contact = polynomial(chosen);
        assert_eq!(contact.to_bytes(), written);
        assert_eq!(PolySeg::from_bytes(&written), Ok(contact));
    }
    for strict in [0, 1] {
        let written = bytes(&["14", &named(&[strict]), QUEUE, QUEUED]);
        let contact = queue(strict);
        assert_eq!(contact.to_bytes(), written);
        assert_eq!(Queue::from_bytes(&written), Ok(contact));
    }
}

#[test]
fn earlier_forms_are_read_with_the_originals_choices() {
    // Version 0.2.0, version 0.1.0, the priority record of both, the polynomial one
    // of these and version 0.3.0, and the queue's of all up to 0.5.0.
    let with_room = bytes(&["11", CONTACT, FREE, ROOM]);
    let without = bytes(&["01", CONTACT, FREE]);
    let bookings = bytes(&["02", CONTACT, BOOKINGS]);
    let bare = bytes(&["03", POLYNOMIAL, BARE]);
    let queued = bytes(&["04", QUEUE, QUEUED]);
    assert_eq!(FreeVolume::from_bytes(&with_room), Ok(free(ORIGINAL)));
    assert_eq!(FreeVolume::from_bytes(&without), Ok(free(ORIGINAL)));
    assert_eq!(PrioritySeg::from_bytes(&bookings), Ok(priority(ORIGINAL)));
    assert_eq!(PolySeg::from_bytes(&bare), Ok(polynomial(ORIGINAL)));
    assert_eq!(Queue::from_bytes(&queued), Ok(queue(0)));
}

/// These choices, as written, are read as those.
fn is_read_as(written: &[u64], chosen: Chosen) {
    let named = &named(written);
    let read = FreeVolume::from_bytes(&bytes(&["21", named, CONTACT, FREE, ROOM]));
    assert_eq!(read, Ok(free(chosen)));
    let read = PrioritySeg::from_bytes(&bytes(&["12", named, CONTACT, BOOKINGS]));
    assert_eq!(read, Ok(priority(chosen)));
    let read = PolySeg::from_bytes(&bytes(&["13", named, POLYNOMIAL, BARE]));
    assert_eq!(read, Ok(polynomial(chosen)));
}

/// So bytes of this form stay readable when there is one more to choose.
#[test]
fn choices_that_are_not_written_are_the_originals() {
    is_read_as(&[], ORIGINAL);
    for choice in [1, 2] {
        is_read_as(&[choice], [choice, 1, 0]);
        for rule in [1, 2] {
            is_read_as(&[choice, rule], [choice, rule, 0]);
        }
    }
    let none = bytes(&["14", &named(&[]), QUEUE, QUEUED]);
    assert_eq!(Queue::from_bytes(&none), Ok(queue(0)));
}

/// Reads the same from what was written then and from what is written now.
fn is_read_again<R: Record + std::fmt::Debug>(
    earlier: &str,
    contact: Manager<R>,
    read: impl Fn(&[u8]) -> Result<Manager<R>, Refusal>,
    written: impl Fn(&Manager<R>) -> Vec<u8>,
) {
    assert_eq!(read(&bytes(&[earlier])), Ok(contact));
    assert_eq!(read(&written(&contact)), Ok(contact));
    assert_ne!(written(&contact), bytes(&[earlier]));
}

#[test]
fn what_version_0_5_0_wrote_is_read_without_the_strict_flag() {
    use version_0_5_0 as then;
    let second = [2, 2, 0];
    is_read_again(
        then::FREE,
        free(second),
        FreeVolume::from_bytes,
        FreeVolume::to_bytes,
    );
    is_read_again(
        then::PRIORITY,
        priority(second),
        PrioritySeg::from_bytes,
        PrioritySeg::to_bytes,
    );
    is_read_again(
        then::POLYNOMIAL,
        polynomial(second),
        PolySeg::from_bytes,
        PolySeg::to_bytes,
    );
    is_read_again(then::QUEUE, queue(0), Queue::from_bytes, Queue::to_bytes);
    is_read_again(
        then::PRIORITY_WITH_EMPTY,
        after(priority_opened([1, 2, 0]), 5, 9),
        PrioritySeg::from_bytes,
        PrioritySeg::to_bytes,
    );
}

#[test]
fn choices_that_there_are_not_are_damage() {
    const NONE: [u64; 3] = [0, 3, u64::MAX];
    const NO_FLAGS: [u64; 4] = [2, 3, 255, u64::MAX];
    let alone = NONE.map(|choice| named(&[choice]));
    let without_flag = NONE.map(|none| [[none, 1], [1, none]].map(|choices| named(&choices)));
    let first = NONE.map(|choice| named(&[choice, 1, 0]));
    let rules = NONE.map(|rule| named(&[1, rule, 0]));
    let flags = NO_FLAGS.map(|strict| named(&[1, 1, strict]));
    // One number more than there is to choose, and counts above the numbers.
    let counts = [("04", 4), ("04", 3), ("ff", 3), ("03", 2)];
    let more = counts.map(|(count, numbers)| counted(count, numbers));
    for named in &[
        &alone[..],
        without_flag.as_flattened(),
        &first,
        &rules,
        &flags,
        &more,
    ]
    .concat()
    {
        let read = FreeVolume::from_bytes(&bytes(&["21", named, CONTACT, FREE, ROOM]));
        assert_eq!(read, Err(Refusal::RECORD), "{named}");
        let read = PrioritySeg::from_bytes(&bytes(&["12", named, CONTACT, BOOKINGS]));
        assert_eq!(read, Err(Refusal::RECORD), "{named}");
        let read = PolySeg::from_bytes(&bytes(&["13", named, POLYNOMIAL, BARE]));
        assert_eq!(read, Err(Refusal::RECORD), "{named}");
    }
    let flags = NO_FLAGS.map(|strict| named(&[strict]));
    let counts = [("02", 2), ("02", 1), ("ff", 1), ("01", 0)];
    let more = counts.map(|(count, numbers)| counted(count, numbers));
    for named in &[&flags[..], &more].concat() {
        let read = Queue::from_bytes(&bytes(&["14", named, QUEUE, QUEUED]));
        assert_eq!(read, Err(Refusal::RECORD), "{named}");
    }
}

/// This count, and so many ones.
fn counted(count: &str, numbers: usize) -> String {
    format!("{count} {}", "0000000000000001".repeat(numbers))
}

/// A record in bytes is tested by the rule that they name.
#[test]
fn a_polynomials_delays_cover_its_window_under_rule_2() {
    let delay = "000000000000000a 0000000000000003";
    let ends_early = POLYNOMIAL.replace(delay, "0000000000000009 0000000000000003");
    assert_ne!(ends_early, POLYNOMIAL);
    let read = |named: &str| PolySeg::from_bytes(&bytes(&["13", named, &ends_early, BARE]));
    for rule_1 in [&[1][..], &[1, 1], &[1, 1, 0]] {
        assert!(read(&named(rule_1)).is_ok());
    }
    for rule_2 in [&[1, 2][..], &[1, 2, 0]] {
        assert_eq!(read(&named(rule_2)), Err(Refusal::RECORD));
    }
}

/// An earlier form passes the same test as any other record.
#[test]
fn an_earlier_form_is_tested() {
    let long = "01 0000000000000000 000000000000000b 000000000000006e";
    let read = FreeVolume::from_bytes(&bytes(&["11", CONTACT, long, "000000000000006e"]));
    assert_eq!(read, Err(Refusal::RECORD));
    let read = FreeVolume::from_bytes(&bytes(&["01", CONTACT, long]));
    assert_eq!(read, Err(Refusal::RECORD));
    let read = PrioritySeg::from_bytes(&bytes(&["02", CONTACT, long]));
    assert_eq!(read, Err(Refusal::RECORD));
    let long = "01 0000000000000000 000000000000000b 0000000000000000";
    let read = PolySeg::from_bytes(&bytes(&["03", POLYNOMIAL, long]));
    assert_eq!(read, Err(Refusal::RECORD));
    // A fourth class's budget, where there are three classes.
    let fourth = QUEUED.replace(
        "0000000000000046 0000000000000000",
        "0000000000000046 0000000000000001",
    );
    assert_ne!(fourth, QUEUED);
    let read = Queue::from_bytes(&bytes(&["04", QUEUE, &fourth]));
    assert_eq!(read, Err(Refusal::RECORD));
}

/// Reads these bytes, and none that are cut, longer or of another record's form.
fn reads_whole<R: Record + std::fmt::Debug>(
    whole: &[u8],
    read: impl Fn(&[u8]) -> Result<Manager<R>, Refusal>,
    others: &[u8],
) {
    assert!(read(whole).is_ok());
    for length in 0..whole.len() {
        assert_eq!(read(&whole[..length]), Err(Refusal::RECORD), "{length}");
    }
    assert_eq!(read(&[whole, &[0]].concat()), Err(Refusal::RECORD));
    for form in others {
        let other = [&[*form], &whole[1..]].concat();
        assert_eq!(read(&other), Err(Refusal::RECORD), "{form}");
    }
}

/// All first bytes but those that the record has had.
fn others(forms: &[u8]) -> Vec<u8> {
    (0..=u8::MAX).filter(|form| !forms.contains(form)).collect()
}

#[test]
fn cut_bytes_longer_ones_and_those_of_another_form_are_refused() {
    let free_forms = [
        bytes(&["21", &named(&[2, 2, 1]), CONTACT, FREE, ROOM]),
        bytes(&["21", &named(&[2, 2]), CONTACT, FREE, ROOM]),
        bytes(&["21", &named(&[2]), CONTACT, FREE, ROOM]),
        bytes(&["11", CONTACT, FREE, ROOM]),
        bytes(&["01", CONTACT, FREE]),
    ];
    let priority_forms = [
        bytes(&["12", &named(&[2, 2, 1]), CONTACT, BOOKINGS]),
        bytes(&["12", &named(&[2, 2]), CONTACT, BOOKINGS]),
        bytes(&["12", &named(&[2]), CONTACT, BOOKINGS]),
        bytes(&["02", CONTACT, BOOKINGS]),
    ];
    let polynomial_forms = [
        bytes(&["13", &named(&[2, 2, 1]), POLYNOMIAL, BARE]),
        bytes(&["13", &named(&[2, 2]), POLYNOMIAL, BARE]),
        bytes(&["13", &named(&[2]), POLYNOMIAL, BARE]),
        bytes(&["03", POLYNOMIAL, BARE]),
    ];
    let queue_forms = [
        bytes(&["14", &named(&[1]), QUEUE, QUEUED]),
        bytes(&["04", QUEUE, QUEUED]),
    ];
    for whole in &free_forms {
        reads_whole(whole, FreeVolume::from_bytes, &others(&[0x21, 0x11, 1]));
    }
    for whole in &priority_forms {
        reads_whole(whole, PrioritySeg::from_bytes, &others(&[0x12, 2]));
    }
    for whole in &polynomial_forms {
        reads_whole(whole, PolySeg::from_bytes, &others(&[0x13, 3]));
    }
    for whole in &queue_forms {
        reads_whole(whole, Queue::from_bytes, &others(&[0x14, 4]));
    }
    let all = [
        &free_forms[..],
        &priority_forms,
        &polynomial_forms,
        &queue_forms,
    ];
    for (manager, forms) in all.into_iter().enumerate() {
        for whole in forms {
            let read = [
                FreeVolume::from_bytes(whole).err(),
                PrioritySeg::from_bytes(whole).err(),
                PolySeg::from_bytes(whole).err(),
                Queue::from_bytes(whole).err(),
            ];
            let mut expected = [Some(Refusal::RECORD); 4];
            expected[manager] = None;
            assert_eq!(read, expected);
        }
    }
}

/// One form's first byte before the rest of the other.
#[test]
fn the_forms_of_a_record_are_not_taken_for_each_other() {
    for choices in [&[1][..], &[1, 1], &ORIGINAL] {
        let mixed = bytes(&["03", &named(choices), POLYNOMIAL, BARE]);
        assert_eq!(PolySeg::from_bytes(&mixed), Err(Refusal::RECORD));
    }
    let mixed = bytes(&["13", POLYNOMIAL, BARE]);
    assert_eq!(PolySeg::from_bytes(&mixed), Err(Refusal::RECORD));
    for mixed in [
        bytes(&["04", &named(&[]), QUEUE, QUEUED]),
        bytes(&["04", &named(&[0]), QUEUE, QUEUED]),
        bytes(&["14", QUEUE, QUEUED]),
    ] {
        assert_eq!(Queue::from_bytes(&mixed), Err(Refusal::RECORD));
    }
}
