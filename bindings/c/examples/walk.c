/*
 * A walk through an arrival, one box at a time, with the name of each box.
 *
 * A packet of B, host 1, arrives at A, host 0, which takes its clock from B. It reports four hosts,
 * of which B alone is up. So the walk goes through steps 1 to 5, then through all lines of host 1,
 * and the others end at line a. It leaves what an action on the same packet does.
 */
#undef NDEBUG
#include <assert.h>
#include <stdio.h>
#include <string.h>

#include "hello_host.h"

enum {
    A = 0, /* numbers of the hosts, and their ids */
    B = 1,
    LINK = 1, /* both have one link */
    ENTRIES = 2 * HELLO_PLACES,
    NHOSTS = 4
};

/* The entries of both hosts. */
static hello_entry entries[ENTRIES];

/* The table of the class, which both hosts use: its NHOSTS, and no rows. */
static const hello_class_table table = {.nhosts = NHOSTS};

static hello_address address_of(size_t number)
{
    hello_address address = {192, 0, 2, (uint8_t)(1 + number)};
    return address;
}

/* Initializes host `number`, with its clock at `time` ms; it has heard the other before. */
static void set_up(hello_host *h, size_t number, int64_t time)
{
    hello_address address = {192, 0, 2, (uint8_t)(1 + number)};
    *h = hello_host_at(address, 1, &table, number, entries, ENTRIES);
    h->settings.clock_host = B;
    h->settings.time = time;
    uint8_t answer = hello_host_initialize(h);
    assert(answer == HELLO_DONE);
    h->links.all[0].neighbor = address_of(1 - number);
    h->links.all[0].keep_alive = 1;
    h->links.all[0].tsp = -60;
}

/* B reports itself and sends; answers the length. */
static size_t send_now(hello_host *b, uint8_t *message)
{
    uint8_t answer = hello_host_self_report(b);
    assert(answer == HELLO_DONE);
    hello_sent sent = hello_host_send(b, LINK, message, HELLO_LONGEST_MESSAGE);
    assert(sent.answer == HELLO_DONE);
    return sent.length;
}

/* Prints the name of a place. */
static void print_place(hello_stepped place)
{
    if (place.line == 0)
        printf("step %d\n", place.step);
    else
        printf("host %d, line %c\n", (int)place.id, 'a' + place.line - 1);
}

/* Walks through the arrival of a message at A; answers the number of boxes. */
static int walk_through(hello_host *a, const uint8_t *message, size_t length)
{
    hello_stepped next = hello_host_open_walk(a, LINK, message, length);
    int boxes = 0;
    while (next.step != 0) {
        assert(next.answer == HELLO_DONE);
        print_place(next);
        boxes++;
        /* Its other calls are refused meanwhile. */
        uint8_t answer = hello_host_tick(a);
        assert(answer == HELLO_IN_WALK);
        next = hello_host_step(a);
    }
    assert(next.answer == HELLO_DONE);
    next = hello_host_step(a);
    assert(next.answer == HELLO_NO_WALK);
    return boxes;
}

static int same_entry(hello_entry x, hello_entry y)
{
    return x.delay == y.delay && x.offset == y.offset && x.ttl == y.ttl && x.pid == y.pid &&
           x.here == y.here && x.time == y.time;
}

int main(void)
{
    static hello_host a, b, other;
    static hello_entry acted[ENTRIES];
    static uint8_t message[HELLO_LONGEST_MESSAGE];

    set_up(&a, A, 1000);
    set_up(&b, B, 1020);
    size_t length = send_now(&b, message);

    /* The same host acts on the packet at once. */
    other = a;
    memcpy(acted, entries, sizeof entries);
    other.entries = acted;
    uint8_t answer = hello_host_act(&other, LINK, message, length);
    assert(answer == HELLO_DONE);

    int boxes = walk_through(&a, message, length);
    for (int id = 0; id < NHOSTS; id++)
        assert(same_entry(entries[id], acted[id]));
    assert(entries[B].delay == HELLO_MIN_DELAY && entries[B].ttl == HELLO_HOLD_DOWN &&
           entries[B].pid == LINK);
    assert(a.clock.clock == other.clock.clock && a.clock.delta == other.clock.delta);
    assert(a.clock.date == other.clock.date && a.clock.hold == other.clock.hold);
    assert(a.links.all[0].tsp == other.links.all[0].tsp && a.links.all[0].keep_alive == 4);

    printf("%d boxes, and A has for B: DELAY %d ms, OFFSET %d ms.\n", boxes, (int)entries[B].delay,
           (int)entries[B].offset);
    return 0;
}
