/* The static library for C. Times, volumes, rates and delays are whole numbers within document 01's limits; 01's numbers are answered, and 02's 17.
   The total calls take any record, test it, and answer 1 if it is damaged. The calls whose names end in _kept test nothing: they may be
   made only with a record that comes from an opening or that hk_.._ok has passed, and they leave one that keeps its rules. Their lists
   are lent as numbers: (const uint64_t *)record.contact.rates, and so on, with all their places. */
#ifndef HOWREKANO_H
#define HOWREKANO_H
#include <stdbool.h>
#include <stddef.h>
#include <stdint.h>

typedef struct { uint64_t start, end; } hk_interval;
typedef struct { uint64_t start, end, value; } hk_segment; /* value: a rate, a volume, a delay, or a level: 0 unbooked, else the priority and one */
typedef struct { uint64_t size; uint8_t priority; } hk_bundle;
typedef struct { hk_interval send, recv; } hk_dates;
typedef struct { uint8_t number; hk_dates dates; } hk_offer;
typedef struct { hk_segment segments[64]; size_t count; } hk_list;
typedef struct { uint8_t number; hk_list list; } hk_listing;

/* What an opening of the free-volume or the priority manager chooses and the record names; no booking changes it. Write each by its name,
   { .edition = 1, .rule = 1, .strict = 0 } for what the original has: an opening that is left zero is refused with 2, before all else, as is one
   with a choice that there is not; a record that names one is damaged, and refused with 1.
   The edition, 1 or 2, is that of the end rule. Both look at the first tick by which the rates, added up from the send's start, reach the
   size. 1, the original's, ends the send there if the sum is exactly the size, and a tick earlier if it is more: the booked ticks can then
   carry less than the size, and a bundle smaller than what one tick carries is sent in no time. 2 ends it there in any case, when its final
   unit has left; a booking at a free segment's start then lists what the rest carries, and sizes never exceed what the booked ticks carry.
   The rule, 1 or 2, is that of the delays: whose is the tick at which one delay segment ends and the next starts? 1, the original's, gives it to
   the one that ends there: a date has the first segment whose end is not before it, and the lookup of a send's end goes on from its start's
   segment. 2 gives it to the one that starts there: a date has the segment with start <= date < end, and the window's end has the last segment.
   The two can differ only for sends that start or end on such a tick, and only in when these are received.
   The strict flag, 0 or 1, says whether an offer whose send start and end are equal can be booked. 0, the original's, books it: inside a free
   segment that takes the rest of the segment from the list, and inside a priority segment it lists an empty one. Under 1 a dry run still shows the
   offer, and booking it is 17, after 9 and before 10; every other call answers, and alters the record, as under 0. Under edition 2 every send has
   a length, and no booking is 17 */
typedef struct { uint64_t edition, rule, strict; } hk_choices;

/* the free-volume and the priority manager; in a record a rate stands as a volume, its rate times its length */
typedef struct {
    hk_choices choices;
    hk_interval window;
    hk_segment rates[16]; size_t rate_count;
    hk_segment delays[16]; size_t delay_count;
} hk_contact;
typedef struct { hk_contact contact; hk_list list; uint64_t room; } hk_free; /* room: the sum of the listed volumes */
typedef struct { hk_contact contact; hk_list list; } hk_priority;
typedef struct { uint8_t number; hk_free manager; } hk_free_opened;
typedef struct { uint8_t number; hk_priority manager; } hk_priority_opened;
typedef struct { uint8_t number; uint64_t room; } hk_room;

#define HK_LISTED(M) \
    hk_##M##_opened hk_##M##_open(const hk_contact *opening); \
    bool hk_##M##_ok(const hk_##M *m); \
    hk_listing hk_##M##_list(const hk_##M *m); \
    hk_offer hk_##M##_dry_run(const hk_##M *m, uint64_t at, hk_bundle bundle); \
    uint8_t hk_##M##_book(hk_##M *m, uint64_t at, hk_bundle bundle, const hk_dates *dates); \
    hk_offer hk_##M##_dry_run_kept(hk_interval window, const uint64_t *rates, size_t rate_count, const uint64_t *delays, \
        size_t delay_count, const uint64_t *list, size_t count, uint64_t at, hk_bundle bundle, const hk_choices *choices);
HK_LISTED(free)
HK_LISTED(priority)
uint8_t hk_free_book_kept(hk_interval window, const uint64_t *rates, size_t rate_count, const uint64_t *delays, size_t delay_count,
    uint64_t *list, size_t *count, uint64_t *room, uint64_t at, hk_bundle bundle, const uint64_t dates[4], const hk_choices *choices);
uint8_t hk_priority_book_kept(hk_interval window, const uint64_t *rates, size_t rate_count, const uint64_t *delays, size_t delay_count,
    uint64_t *list, size_t *count, uint64_t at, hk_bundle bundle, const uint64_t dates[4], const hk_choices *choices);

/* hk_priority_dry_run and its kept twin: while no listed segment is empty, the offer starts at the first tick there is, not before the asked
   time and inside the window, from which the bundle has an end by the window's end and every instant up to it, the start itself included, is
   booked below its priority; and 7 says that there is none. Under edition 1 booking a bundle smaller than what a tick carries can list an
   empty segment; then a start can be hidden, or a booked tick offered (docs/PROMISES.md, 'The earliest place'). Under edition 2, and under the
   strict flag, no booking adds one */

/* the room left in a pass: what its free list adds up to. A bundle of that size need not fit, since the room may lie in several stretches. Under
   edition 1 a booking inside a stretch can raise it; under edition 2, opened so, it is what the listed ticks carry, and no booking raises it */
hk_room hk_free_room(const hk_free *m);
uint64_t hk_free_room_kept(const hk_free *m);

/* What an opening of the polynomial manager chooses and the record names; no booking changes it. Write each by its name,
   { .mode = 1, .rule = 1, .strict = 0 } for what the original has: as with hk_choices, an opening with a choice that there is not, or left zero, is
   refused with 2, before all else, and a record that names one with 1.
   The mode, 1 or 2, is how the capacity of a send, the integral of the rate, is counted. 1, the original's, divides each coefficient for the
   integral and drops the fraction: a rate that is a slope of 1 alone carries nothing. 2 takes the true integral, in twelfths: the end has exactly
   the size, or it has more and one tick earlier has less; where the rate is not below 0 at any tick or half tick of the window, and above 0 at
   every tick, it is the first tick that has the size. Twelve times the figures must stay within the same 2^61, so a polynomial that opens in mode
   1 can be 11 in mode 2: put the offset in or near the window (a slope of 1 opens with an offset 2^29 ticks away, and is 11 with one 2^30 away).
   The rule is that of hk_choices. Under 1 the delays need not cover the window, nor be in order, and a send for which a lookup finds none is 8.
   Under 2 they cover exactly the window, as the other managers' do under both, else the opening is 5; no call then answers 8.
   The strict flag is that of hk_choices. In both modes every send has a length, and no booking is 17 */
typedef struct { uint64_t mode, rule, strict; } hk_polynomial_choices;

/* the polynomial manager */
typedef struct { int64_t coefficients[4]; uint64_t offset; } hk_polynome;
typedef struct {
    hk_polynomial_choices choices;
    hk_interval window;
    hk_polynome polynome;
    hk_segment delays[16]; size_t delay_count;
} hk_polynomial_opening;
typedef struct {
    hk_polynomial_choices choices;
    hk_interval window;
    hk_polynome polynome;
    hk_segment delays[16]; size_t delay_count;
    hk_list free;
} hk_polynomial;
typedef struct { uint8_t number; hk_polynomial manager; } hk_polynomial_opened;

hk_polynomial_opened hk_polynomial_open(const hk_polynomial_opening *opening);
bool hk_polynomial_ok(const hk_polynomial *m);
hk_listing hk_polynomial_list(const hk_polynomial *m);
hk_offer hk_polynomial_dry_run(const hk_polynomial *m, uint64_t at, hk_bundle bundle);
uint8_t hk_polynomial_book(hk_polynomial *m, uint64_t at, hk_bundle bundle, const hk_dates *dates);
hk_offer hk_polynomial_dry_run_kept(hk_interval window, const int64_t coefficients[4], uint64_t offset, const uint64_t *delays,
    size_t delay_count, const uint64_t *free, size_t count, uint64_t at, hk_bundle bundle, const hk_polynomial_choices *choices);
uint8_t hk_polynomial_book_kept(hk_interval window, const int64_t coefficients[4], uint64_t offset, const uint64_t *delays,
    size_t delay_count, uint64_t *free, size_t *count, uint64_t at, hk_bundle bundle, const uint64_t dates[4],
    const hk_polynomial_choices *choices);

/* What an opening of the queue manager chooses and the record names; no call changes it. The strict flag is that of hk_choices: { .strict = 0 }, which
   is also what is left zero, for what the original has; another than 0 or 1 is refused with 2, before all else, and in a record with 1. A bundle
   smaller than the rate is sent in no time. Under 1 booking it is 17, after 9 and before 13, without self-update too; hk_queue_enqueue and
   hk_queue_dequeue take it as under 0 */
typedef struct { uint64_t strict; } hk_queue_choices;

/* the queue manager */
typedef struct { bool add_delay, self_update, budgeted; } hk_flags;
typedef struct {
    hk_queue_choices choices;
    hk_interval window;
    uint64_t rate, delay; size_t classes;
    hk_flags flags;
    uint64_t budgets[8];
} hk_queue_opening;
typedef struct {
    hk_queue_choices choices;
    hk_interval window;
    uint64_t rate, delay; size_t classes;
    hk_flags flags;
    uint64_t queues[8], budgets[8];
} hk_queue;
typedef struct { uint8_t number; hk_queue manager; } hk_queue_opened;
typedef struct { uint8_t number; size_t classes; uint64_t queues[8]; } hk_queue_listing;

hk_queue_opened hk_queue_open(const hk_queue_opening *opening);
bool hk_queue_ok(const hk_queue *m);
hk_queue_listing hk_queue_list(const hk_queue *m);
hk_offer hk_queue_dry_run(const hk_queue *m, uint64_t at, hk_bundle bundle);
hk_offer hk_queue_dry_run_kept(const hk_queue *m, uint64_t at, hk_bundle bundle);
uint8_t hk_queue_book(hk_queue *m, uint64_t at, hk_bundle bundle, const hk_dates *dates);
uint8_t hk_queue_book_kept(hk_queue *m, uint64_t at, hk_bundle bundle, const hk_dates *dates);
uint8_t hk_queue_enqueue(hk_queue *m, hk_bundle bundle);
uint8_t hk_queue_enqueue_kept(hk_queue *m, hk_bundle bundle);
uint8_t hk_queue_dequeue(hk_queue *m, hk_bundle bundle);
uint8_t hk_queue_dequeue_kept(hk_queue *m, hk_bundle bundle);
#endif
