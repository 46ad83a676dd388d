/*
 * The net table of a class, which the tutor changes and both hosts use.
 *
 * A, host 0, leads to net 10; then B, host 1, does, also in the middle of a walk. Then the class gets
 * another NHOSTS, and a host must be initialized by it.
 */
#undef NDEBUG
#include <assert.h>
#include <stdio.h>

#include "hello_host.h"
#include "hello_nets.h"

enum {
    A = 0, /* numbers of the hosts, and their ids */
    B = 1,
    LINK = 1, /* both have one link */
    ENTRIES = 2 * HELLO_PLACES,
    NHOSTS = 4
};

/* The entries of both hosts, and the table of the class, still to be initialized. */
static hello_entry entries[ENTRIES];
static hello_class_table table;

/* The net of class A that is looked up, and an address there. */
static const hello_net net10 = {10, 0, 0};
static const hello_address there = {10, 1, 2, 3};

static uint8_t initialize(hello_host *h) { return hello_host_initialize(h); }

static hello_route lookup(hello_host *h) { return hello_host_lookup(h, there); }

static hello_stepped step(hello_host *h) { return hello_host_step(h); }

/* Initializes host `number`: its one link is a broadcast link to an address of net 10, and it is up
 * in its own table. */
static void set_up(hello_host *h, size_t number)
{
    hello_address address = {192, 0, 2, (uint8_t)(1 + number)};
    *h = hello_host_at(address, 1, &table, number, entries, ENTRIES);
    h->settings.links[0].broadcast = 1;
    h->settings.links[0].neighbor = there;
    assert(initialize(h) == HELLO_DONE);
    assert(hello_host_self_report(h) == HELLO_DONE);
}

int main(void)
{
    static hello_host a, b;
    static uint8_t message[HELLO_LONGEST_MESSAGE];

    /* The tutor's calls come first: a table of NHOSTS 0 is refused. */
    assert(hello_net_remove(&table, 1) == HELLO_OUT_OF_RANGE);
    assert(hello_net_afresh(&table, 256) == HELLO_SETTING);
    assert(hello_net_afresh(&table, NHOSTS) == HELLO_DONE);
    set_up(&a, A);
    set_up(&b, B);
    assert(lookup(&a).answer == HELLO_NO_HOST);

    /* A row more, at the end; both hosts use it. */
    hello_net_added added = hello_net_add(&table, net10, NHOSTS);
    assert(added.answer == HELLO_SETTING && added.row == 0);
    added = hello_net_add(&table, net10, A);
    assert(added.answer == HELLO_DONE && added.row == 1);
    hello_route route = lookup(&a);
    assert(route.answer == HELLO_DONE && route.id == A && route.pid == 0);
    assert(lookup(&b).answer == HELLO_HOST_DOWN); /* B has not heard of A yet */
    assert(hello_net_change(&table, 2, B) == HELLO_NO_ROW);

    /* A walk uses the table of the box that looks it up, which is step 5. */
    hello_sent sent = hello_host_send(&b, LINK, message, sizeof message);
    assert(sent.answer == HELLO_DONE);
    hello_stepped next = hello_host_open_walk(&a, LINK, message, sent.length);
    while (next.step != 5)
        next = step(&a);
    assert(hello_net_change(&table, 1, B) == HELLO_DONE);
    next = step(&a);
    assert(next.answer == HELLO_DONE && next.line == 1 && next.id == B);
    while (next.step != 0)
        next = step(&a);
    route = lookup(&a);
    assert(route.answer == HELLO_DONE && route.id == B && route.pid == LINK);

    /* 32 rows are all. */
    for (size_t row = 2; row <= HELLO_ROWS; row++)
        assert(hello_net_add(&table, net10, A).row == row);
    assert(hello_net_add(&table, net10, A).answer == HELLO_TABLE_FULL);
    assert(hello_net_remove(&table, 1) == HELLO_DONE);
    assert(lookup(&a).id == A);

    /* Another NHOSTS: a host's settings must have it too. */
    assert(hello_net_afresh(&table, NHOSTS + 1) == HELLO_DONE);
    assert(lookup(&b).answer == HELLO_SETTING);
    b.settings.layout.nhosts = NHOSTS + 1;
    assert(initialize(&b) == HELLO_DONE);
    assert(lookup(&b).answer == HELLO_NO_HOST);

    printf("Net 10 was reached by host %d, and then by host %d, link %d.\n", A, B, LINK);
    return 0;
}
