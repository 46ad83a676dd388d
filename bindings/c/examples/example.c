/*
 * An exchange of two hosts: how A learns DELAY and OFFSET of B.
 *
 * B's clock is 500 ms ahead of A's. A sends at 40,000 by its clock; B gets it at 40,530 by its
 * own, and answers at 45,530; A gets the answer at 45,081. So the way there and back took 81 ms,
 * and A takes B to be 489 ms ahead.
 */
#undef NDEBUG
#include <assert.h>
#include <stdio.h>

#include "hello_host.h"

enum {
    LINK = 1, /* both hosts have one link */
    ENTRIES = 2 * HELLO_PLACES,
    MESSAGE = 64 /* octets, enough for two hosts' table */
};

/* The entries of both hosts. */
static hello_entry entries[ENTRIES];

/* The table of the class, which both hosts use: its NHOSTS, and no rows. */
static const hello_class_table table = {.nhosts = 2};

/* The address of host `number`: 192.0.2.1 and 192.0.2.2; the ids are 0 and 1. */
static hello_address address_of(size_t number)
{
    hello_address address = {192, 0, 2, (uint8_t)(1 + number)};
    return address;
}

/* Initializes host `number`, with its clock at `time` ms. */
static void set_up(hello_host *h, size_t number, int64_t time)
{
    hello_address address = {192, 0, 2, (uint8_t)(1 + number)};
    *h = hello_host_at(address, 1, &table, number, entries, ENTRIES);
    h->settings.time = time;
    uint8_t answer = hello_host_initialize(h);
    assert(answer == HELLO_DONE);
}

/* The clock's integer milliseconds. */
static int64_t reading(hello_host *h)
{
    hello_time time = hello_host_read(h);
    assert(time.answer == HELLO_DONE);
    return time.time;
}

/* Ticks until the clock reads `time` ms. */
static void wait_until(hello_host *h, int64_t time)
{
    while (reading(h) < time) {
        uint8_t answer = hello_host_tick(h);
        assert(answer == HELLO_DONE);
    }
    assert(reading(h) == time);
}

/* Reports the host itself in its own table. */
static void self_report(hello_host *h)
{
    uint8_t answer = hello_host_self_report(h);
    assert(answer == HELLO_DONE);
}

/* Writes the message that the host sends now; answers its length. */
static size_t send_now(hello_host *h, uint8_t *message)
{
    hello_sent sent = hello_host_send(h, LINK, message, MESSAGE);
    assert(sent.answer == HELLO_DONE);
    return sent.length;
}

/* Takes a message that arrives now: looks at it, then acts on it. Answers what it says. */
static hello_inspected take_now(hello_host *h, const uint8_t *message, size_t length)
{
    hello_inspected said = hello_host_inspect(h, LINK, message, length);
    assert(said.answer == HELLO_DONE);
    uint8_t answer = hello_host_act(h, LINK, message, length);
    assert(answer == HELLO_DONE);
    return said;
}

static int same_address(hello_address x, hello_address y)
{
    return x.first == y.first && x.second == y.second && x.third == y.third && x.fourth == y.fourth;
}

int main(void)
{
    hello_host a, b;
    uint8_t message[MESSAGE];
    size_t length;
    hello_inspected said;

    set_up(&a, 0, 39900);
    set_up(&b, 1, 40400);

    /* B introduces itself, so that A knows its neighbor. */
    length = send_now(&b, message);
    wait_until(&a, 39930);
    said = take_now(&a, message, length);
    assert(same_address(said.source, address_of(1)) && said.time == 40400);
    assert(said.tsp == 0 && said.nhosts == 0); /* B has heard nobody yet */
    assert(same_address(a.links.all[0].neighbor, address_of(1)));

    wait_until(&a, 40000);
    length = send_now(&a, message);
    wait_until(&b, 40530);
    said = take_now(&b, message, length);
    assert(said.time == 40000);
    assert(b.links.all[0].tsp == -530);

    wait_until(&b, 45530);
    self_report(&b);
    length = send_now(&b, message);
    wait_until(&a, 45081);
    said = take_now(&a, message, length);
    assert(said.time == 45530 && said.tsp == 45000 && said.nhosts == 2);

    /* DELAY 81 counts as the least one, 100; OFFSET is 449 + 81 / 2. */
    hello_entry b_at_a = entries[1];
    assert(b_at_a.delay == 100);
    assert(b_at_a.offset == 489);
    assert(b_at_a.ttl == 120);
    assert(b_at_a.pid == LINK);
    assert(b_at_a.time == 45081);

    hello_route route = hello_host_lookup(&a, address_of(1));
    assert(route.answer == HELLO_DONE && route.id == 1 && route.pid == LINK);

    printf("A has for B: DELAY %d ms, OFFSET %d ms.\n", (int)b_at_a.delay, (int)b_at_a.offset);
    return 0;
}
