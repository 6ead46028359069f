/* Cases 1, 3, 5, 7, 8, 9, 10 and 11 of document 01, 02's room, both editions of the end rule, both modes of the polynomial, both rules of the
   delays and the strict flag, from C, by both doors, on the library as the kit compiles it for x86-64. */
#include "howrekano.h"

int printf(const char *, ...);
int memcmp(const void *, const void *, size_t);

static void show(const char *what, hk_offer o)
{
    printf("%s: %d, send %lu %lu, receive %lu %lu\n", what, o.number, o.dates.send.start, o.dates.send.end, o.dates.recv.start, o.dates.recv.end);
}

static void list(const char *what, int number, const hk_list *l)
{
    printf("%s: %d,", what, number);
    for (size_t i = 0; i < l->count; i++)
        printf(" [%lu,%lu) %lu", l->segments[i].start, l->segments[i].end, l->segments[i].value);
    printf("\n");
}

static const uint64_t *words(const hk_segment *s) { return (const uint64_t *)s; }

/* what a kept call takes of a contact, of a list, and of a polynomial record */
#define CONTACT(m) (m)->contact.window, words((m)->contact.rates), (m)->contact.rate_count, words((m)->contact.delays), (m)->contact.delay_count
#define LIST(m) (uint64_t *)(m)->list.segments, &(m)->list.count
#define POLYNOMIAL(m) (m)->window, (m)->polynome.coefficients, (m)->polynome.offset, words((m)->delays), (m)->delay_count

/* a dry run and the booking of what it offers, by the kept door, and the room that is left */
static void free_booked(hk_free *m, uint64_t at, hk_bundle b)
{
    hk_offer o = hk_free_dry_run_kept(CONTACT(m), words(m->list.segments), m->list.count, at, b, &m->contact.choices);
    show("kept offer", o);
    int n = hk_free_book_kept(CONTACT(m), LIST(m), &m->room, at, b, (const uint64_t *)&o.dates, &m->contact.choices);
    list("kept booking", n, &m->list);
    printf("kept room: %lu\n", hk_free_room_kept(m));
}

static void priority_booked(hk_priority *m, uint64_t at, hk_bundle b)
{
    hk_offer o = hk_priority_dry_run_kept(CONTACT(m), words(m->list.segments), m->list.count, at, b, &m->contact.choices);
    show("kept offer", o);
    int n = hk_priority_book_kept(CONTACT(m), LIST(m), at, b, (const uint64_t *)&o.dates, &m->contact.choices);
    list("kept booking", n, &m->list);
}

static void polynomial_booked(hk_polynomial *m, uint64_t at, hk_bundle b)
{
    hk_offer o = hk_polynomial_dry_run_kept(POLYNOMIAL(m), words(m->free.segments), m->free.count, at, b, &m->choices);
    show("kept offer", o);
    int n = hk_polynomial_book_kept(POLYNOMIAL(m), (uint64_t *)m->free.segments, &m->free.count, at, b, (const uint64_t *)&o.dates, &m->choices);
    list("kept booking", n, &m->free);
}

static void room(const char *what, const hk_free *m)
{
    hk_room r = hk_free_room(m);
    printf("%s: %d, %lu\n", what, r.number, r.room);
}

static void free_volume(const hk_contact *opening)
{
    hk_free_opened opened = hk_free_open(opening);
    printf("free: %d, ok %d\n", opened.number, hk_free_ok(&opened.manager));
    hk_bundle b = {15, 0};
    hk_free kept = opened.manager, total = opened.manager;
    room("room", &total);
    free_booked(&kept, 3, b);
    hk_offer o = hk_free_dry_run(&total, 3, b);
    show("total offer", o);
    int n = hk_free_book(&total, 3, b, &o.dates);
    hk_listing l = hk_free_list(&total);
    list("total booking", n + l.number, &l.list);
    room("room", &total);
    printf("again: %d\n", hk_free_book(&total, 3, b, &o.dates));
    total.room++;
    room("a room that is not the list's", &total);
    printf("damaged: %d %d %d\n", hk_free_ok(&total), hk_free_dry_run(&total, 3, b).number, hk_free_book(&total, 3, b, &o.dates));
    total.room--;
    total.list.count = 65;
    printf("damaged: %d %d %d\n", hk_free_ok(&total), hk_free_dry_run(&total, 3, b).number, hk_free_book(&total, 3, b, &o.dates));
}

/* the room rises by a booking inside a stretch, whose parts are worked out anew */
static void rises(const hk_contact *opening)
{
    hk_free m = hk_free_open(opening).manager;
    free_booked(&m, 0, (hk_bundle){19, 0});
    free_booked(&m, 1, (hk_bundle){19, 0});
    free_booked(&m, 5, (hk_bundle){10, 0});
    room("room", &m);
}

/* case 5, then what the booking at a stretch's start leaves, by both doors */
static void edition(hk_contact opening, uint64_t number)
{
    opening.choices.edition = number;
    hk_free_opened opened = hk_free_open(&opening);
    hk_free m = opened.manager;
    printf("edition %lu: %d, named %lu\n", number, opened.number, m.contact.choices.edition);
    if (opened.number != 0)
        return;
    free_booked(&m, 5, (hk_bundle){50, 0});
    show("29 at 3", hk_free_dry_run(&m, 3, (hk_bundle){29, 0}));
    show("20 at 3", hk_free_dry_run(&m, 3, (hk_bundle){20, 0}));
    free_booked(&m, 0, (hk_bundle){15, 0});
    room("room", &m);
    hk_priority p = hk_priority_open(&opening).manager;
    priority_booked(&p, 5, (hk_bundle){9, 0});
    m.contact.choices.edition = p.contact.choices.edition = 3;
    hk_bundle b = {20, 0};
    printf("damaged: %d %d\n", hk_free_dry_run(&m, 3, b).number, hk_priority_dry_run(&p, 3, b).number);
}

static void numbers(const char *what, const hk_contact *opening, const hk_polynomial_opening *line)
{
    printf("%s: %d %d %d\n", what, hk_free_open(opening).number, hk_priority_open(opening).number, hk_polynomial_open(line).number);
}

/* 2 goes before 3: no edition or mode, no rule, and no window; a strict flag that is zero is off, and another than 0 or 1 is 2 */
static void left_zero(void)
{
    hk_contact opening = {{0}};
    hk_polynomial_opening line = {{0}};
    hk_queue_opening queue = {{0}};
    numbers("left zero", &opening, &line);
    opening.choices.edition = line.choices.mode = 1;
    numbers("but for the edition and the mode", &opening, &line);
    opening.choices.rule = line.choices.rule = 1;
    numbers("but for the choices", &opening, &line);
    printf("a queue: %d\n", hk_queue_open(&queue).number);
    opening.choices.strict = line.choices.strict = queue.choices.strict = 2;
    numbers("with another flag", &opening, &line);
    printf("a queue: %d\n", hk_queue_open(&queue).number);
}

static void priority(const hk_contact *opening)
{
    hk_priority_opened opened = hk_priority_open(opening);
    printf("priority: %d\n", opened.number);
    priority_booked(&opened.manager, 2, (hk_bundle){30, 1});
    priority_booked(&opened.manager, 0, (hk_bundle){30, 2});
}

/* case 10 by both doors: a rate of 10, then a line with slope 1, and that line with its offset 2^30 ticks away */
static void mode(const hk_contact *c, uint64_t number)
{
    hk_polynomial_opening opening = {{.mode = number, .rule = 1, .strict = 0}, c->window, {{10, 0, 0, 0}, 0}, {c->delays[0]}, 1};
    hk_polynomial_opened opened = hk_polynomial_open(&opening);
    hk_polynomial m = opened.manager;
    printf("mode %lu: %d, named %lu\n", number, opened.number, m.choices.mode);
    if (opened.number != 0)
        return;
    show("15 at 3", hk_polynomial_dry_run(&m, 3, (hk_bundle){15, 0}));
    polynomial_booked(&m, 3, (hk_bundle){20, 0});
    opening.polynome = (hk_polynome){{0, 1, 0, 0}, 0};
    m = hk_polynomial_open(&opening).manager;
    hk_bundle one = {1, 0};
    hk_offer o = hk_polynomial_dry_run(&m, 0, one);
    show("slope 1, 1 at 0", o);
    polynomial_booked(&m, 0, one);
    m.choices.mode = 3;
    printf("damaged: %d %d %d\n", hk_polynomial_ok(&m), hk_polynomial_dry_run(&m, 0, one).number, hk_polynomial_book(&m, 0, one, &o.dates));
    opening.polynome.offset = 1 << 30;
    printf("offset 2^30: %d\n", hk_polynomial_open(&opening).number);
}

/* case 7 by both doors, of the three managers, then records with another rule; delays that leave a gap */
static void rule(hk_contact opening, uint64_t number)
{
    opening.choices.rule = number;
    opening.delays[0] = (hk_segment){0, 4, 10};
    opening.delays[1] = (hk_segment){4, 10, 2};
    opening.delay_count = 2;
    hk_polynomial_opening flat = {{.mode = 1, .rule = number, .strict = 0}, opening.window, {{10, 0, 0, 0}, 0}, {opening.delays[0], opening.delays[1]}, 2};
    printf("rule %lu\n", number);
    numbers("opened", &opening, &flat);
    hk_free f = hk_free_open(&opening).manager;
    hk_priority p = hk_priority_open(&opening).manager;
    hk_polynomial m = hk_polynomial_open(&flat).manager;
    printf("named: %lu %lu %lu\n", f.contact.choices.rule, p.contact.choices.rule, m.choices.rule);
    if (f.contact.choices.rule == 0)
        return;
    hk_bundle b = {10, 0};
    show("free, 10 at 4", hk_free_dry_run(&f, 4, b));
    free_booked(&f, 4, b);
    show("priority, 10 at 4", hk_priority_dry_run(&p, 4, b));
    priority_booked(&p, 4, b);
    show("polynomial, 10 at 4", hk_polynomial_dry_run(&m, 4, b));
    polynomial_booked(&m, 4, b);
    f.contact.choices.rule = p.contact.choices.rule = m.choices.rule = 3;
    printf("damaged: %d %d %d\n", hk_free_dry_run(&f, 4, b).number, hk_priority_dry_run(&p, 4, b).number, hk_polynomial_dry_run(&m, 4, b).number);
    opening.delays[1].start = flat.delays[1].start = 5;
    numbers("a gap", &opening, &flat);
}

static void queue(const hk_contact *c)
{
    hk_queue_opening opening = {{.strict = 0}, c->window, 10, 2, 3, {true, true, false}, {0}};
    hk_queue_opened opened = hk_queue_open(&opening);
    hk_queue m = opened.manager;
    hk_bundle b = {25, 1};
    hk_offer o = hk_queue_dry_run_kept(&m, 0, b);
    show("queue", o);
    int n = hk_queue_book_kept(&m, 0, b, &o.dates);
    hk_queue_listing l = hk_queue_list(&m);
    printf("kept booking: %d, %zu classes, %lu %lu %lu\n", opened.number + n + l.number, l.classes, l.queues[0], l.queues[1], l.queues[2]);
    show("queue", hk_queue_dry_run(&m, 0, (hk_bundle){25, 0}));
    printf("enqueue: %d\n", hk_queue_enqueue(&m, b));
}

/* 9 units at 5, where a tick carries 10, by the total door; the record as it came? Then by the kept one, then dates that are not offered, then 10 units */
static void strict_free(hk_free m)
{
    hk_bundle small = {9, 0};
    hk_free before = m;
    hk_offer o = hk_free_dry_run(&m, 5, small);
    show("free, 9 at 5", o);
    int n = hk_free_book(&m, 5, small, &o.dates);
    list("total booking", n, &m.list);
    printf("as it came: %d\n", memcmp(&m, &before, sizeof m) == 0);
    m = before;
    free_booked(&m, 5, small);
    printf("as it came: %d\n", memcmp(&m, &before, sizeof m) == 0);
    m = before;
    o.dates.recv.end++;
    printf("other dates: %d\n", hk_free_book(&m, 5, small, &o.dates));
    free_booked(&m, 5, (hk_bundle){10, 0});
}

/* the same, then with a list of 63 segments, in which the empty one has no place */
static void strict_priority(hk_priority m)
{
    hk_bundle small = {9, 0}, tick = {10, 0};
    hk_priority before = m;
    hk_offer o = hk_priority_dry_run(&m, 5, small);
    show("priority, 9 at 5", o);
    int n = hk_priority_book(&m, 5, small, &o.dates);
    list("total booking", n, &m.list);
    printf("as it came: %d\n", memcmp(&m, &before, sizeof m) == 0);
    show("then 100 at 0", hk_priority_dry_run(&m, 0, (hk_bundle){100, 0}));
    m = before;
    priority_booked(&m, 5, small);
    m = before;
    o.dates.recv.end++;
    printf("other dates: %d\n", hk_priority_book(&m, 5, small, &o.dates));
    hk_contact opening = m.contact;
    opening.window.end = opening.rates[0].end = opening.delays[0].end = 100;
    opening.rates[0].value = 10;
    m = hk_priority_open(&opening).manager;
    for (uint64_t at = 1; at < 63; at += 2) {
        o = hk_priority_dry_run(&m, at, tick);
        hk_priority_book(&m, at, tick, &o.dates);
    }
    o = hk_priority_dry_run(&m, 80, tick);
    hk_offer none = hk_priority_dry_run(&m, 80, small);
    printf("%zu listed, 10 at 80: %d, 9 at 80: %d\n", m.list.count, hk_priority_book(&m, 80, tick, &o.dates), hk_priority_book(&m, 80, small, &none.dates));
}

static void queues(const char *what, int number, const hk_queue *m)
{
    printf("%s: %d, %lu %lu %lu\n", what, number, m->queues[0], m->queues[1], m->queues[2]);
}

/* the same, then with a queue below the bundle's class that is full, and by hand */
static void strict_queue(hk_queue_opening opening)
{
    hk_bundle small = {9, 1};
    hk_queue m = hk_queue_open(&opening).manager;
    hk_offer o = hk_queue_dry_run(&m, 5, small);
    show("queue, 9 at 5", o);
    int n = hk_queue_book(&m, 5, small, &o.dates);
    queues("total booking", n, &m);
    m = hk_queue_open(&opening).manager;
    show("kept offer", hk_queue_dry_run_kept(&m, 5, small));
    n = hk_queue_book_kept(&m, 5, small, &o.dates);
    queues("kept booking", n, &m);
    m = hk_queue_open(&opening).manager;
    m.queues[0] = (uint64_t)1 << 41;
    printf("a full queue: %d\n", hk_queue_book(&m, 5, small, &o.dates));
    o.dates.recv.end++;
    printf("other dates: %d\n", hk_queue_book(&m, 5, small, &o.dates));
    opening.flags.self_update = false;
    m = hk_queue_open(&opening).manager;
    o.dates.recv.end--;
    n = hk_queue_book(&m, 5, small, &o.dates);
    queues("without self-update", n, &m);
    n = hk_queue_enqueue(&m, small);
    queues("by hand", n, &m);
    m.choices.strict = 2;
    printf("damaged: %d %d %d\n", hk_queue_ok(&m), hk_queue_book(&m, 5, small, &o.dates), hk_queue_enqueue(&m, small));
}

/* the strict flag off, on, and neither */
static void strict(hk_contact opening, uint64_t flag)
{
    hk_polynomial_opening flat = {{.mode = 1, .rule = 1, .strict = flag}, opening.window, {{10, 0, 0, 0}, 0}, {opening.delays[0]}, 1};
    hk_queue_opening queue = {{.strict = flag}, opening.window, 10, 3, 3, {true, true, false}, {0}};
    opening.choices.strict = flag;
    printf("strict %lu\n", flag);
    numbers("opened", &opening, &flat);
    hk_queue_opened q = hk_queue_open(&queue);
    hk_free f = hk_free_open(&opening).manager;
    hk_priority p = hk_priority_open(&opening).manager;
    hk_polynomial m = hk_polynomial_open(&flat).manager;
    printf("a queue: %d\n", q.number);
    printf("named: %lu %lu %lu %lu\n", f.contact.choices.strict, p.contact.choices.strict, m.choices.strict, q.manager.choices.strict);
    if (q.number != 0)
        return;
    strict_free(f);
    strict_priority(p);
    strict_queue(queue);
    show("polynomial, 9 at 5", hk_polynomial_dry_run(&m, 5, (hk_bundle){9, 0}));
    polynomial_booked(&m, 5, (hk_bundle){9, 0});
    opening.choices.edition = 2;
    hk_free second = hk_free_open(&opening).manager;
    printf("edition 2\n");
    free_booked(&second, 5, (hk_bundle){9, 0});
    f.contact.choices.strict = p.contact.choices.strict = m.choices.strict = 2;
    hk_bundle b = {9, 0};
    printf("damaged: %d %d %d\n", hk_free_dry_run(&f, 5, b).number, hk_priority_dry_run(&p, 5, b).number, hk_polynomial_dry_run(&m, 5, b).number);
}

int main(void)
{
    hk_contact opening = {{.edition = 1, .rule = 1, .strict = 0}, {0, 10}, {{0, 10, 10}}, 1, {{0, 10, 3}}, 1};
    free_volume(&opening);
    rises(&opening);
    priority(&opening);
    queue(&opening);
    edition(opening, 1);
    edition(opening, 2);
    edition(opening, 3);
    mode(&opening, 1);
    mode(&opening, 2);
    mode(&opening, 3);
    rule(opening, 1);
    rule(opening, 2);
    rule(opening, 3);
    strict(opening, 0);
    strict(opening, 1);
    strict(opening, 2);
    left_zero();
    return 0;
}
