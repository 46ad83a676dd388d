/*
 * Several hosts at one: A, of id 0, carries the hosts of ids 2 and 3 too, and B learns all three.
 *
 * B's clock is 500 ms behind A's, and the messages take no time. So B has the same DELAY and OFFSET
 * for each of the three.
 */
#undef NDEBUG
#include <assert.h>
#include <stdio.h>
#include <string.h>

#include "hello_host.h"

enum {
    A = 0, /* numbers of the hosts, and their own ids */
    B = 1,
    LINK = 1, /* both have one link */
    ENTRIES = 2 * HELLO_PLACES,
    NHOSTS = 5,
    AHEAD = 500
};

/* The entries of both hosts. */
static hello_entry entries[ENTRIES];
/* The table of the class, which both hosts use: its NHOSTS, and no rows. */
static const hello_class_table table = {.nhosts = NHOSTS};

/* Initializes the host; returns the number. */
static uint8_t initialize(hello_host *h) { return hello_host_initialize(h); }

/* The settings of host `number`, with its own id marked and its clock at `time` ms. */
static void set_up(hello_host *h, size_t number, int64_t time)
{
    hello_address address = {192, 0, 2, (uint8_t)(1 + number)};
    *h = hello_host_at(address, 1, &table, number, entries, ENTRIES);
    h->settings.time = time;
}

static uint8_t second(hello_host *h) { return hello_host_second(h); }

/* Reports the hosts that live at the host, in its own table. */
static void self_report(hello_host *h) { assert(hello_host_self_report(h) == HELLO_DONE); }

/* One host sends, and the other takes the message at once; what the action answers. */
static uint8_t exchange(hello_host *from, hello_host *to)
{
    uint8_t message[HELLO_LONGEST_MESSAGE];
    hello_sent sent = hello_host_send(from, LINK, message, sizeof message);
    assert(sent.answer == HELLO_DONE);
    return hello_host_act(to, LINK, message, sent.length);
}

/* The entry of an id in the host's table. */
static hello_entry *entry_of(const hello_host *h, size_t id)
{
    return &entries[HELLO_PLACES * h->number + id];
}

int main(void)
{
    hello_host a, b;
    set_up(&a, A, 40000 + AHEAD);
    set_up(&b, B, 40000);

    /* No id at NHOSTS or above can live here, 255 never, and the own id must. */
    hello_settings good = a.settings;
    hello_mark(&a.settings, NHOSTS);
    assert(initialize(&a) == HELLO_SETTING);
    a.settings = good;
    hello_mark(&a.settings, HELLO_MARKS - 1);
    assert(initialize(&a) == HELLO_SETTING);
    memset(&a.settings.marks, 0, sizeof a.settings.marks);
    hello_mark(&a.settings, 2);
    assert(initialize(&a) == HELLO_SETTING);

    a.settings = good;
    hello_mark(&a.settings, 2);
    hello_mark(&a.settings, 3);
    assert(initialize(&a) == HELLO_DONE);
    assert(initialize(&b) == HELLO_DONE);
    for (size_t id = 0; id < NHOSTS; id++) {
        assert(entry_of(&a, id)->here == (id == 0 || id == 2 || id == 3));
        assert(entry_of(&b, id)->here == (id == 1));
    }

    /* A self-report covers all three: from now on they are up in A's own table. */
    self_report(&a);
    self_report(&b);
    for (size_t id = 0; id < NHOSTS; id++)
        assert(entry_of(&a, id)->delay == (entry_of(&a, id)->here ? 0 : 30000));

    /* Both hear the other, then each other's times, then A's table. */
    assert(exchange(&a, &b) == HELLO_DONE);
    assert(exchange(&b, &a) == HELLO_DONE);
    assert(exchange(&a, &b) == HELLO_DONE);
    for (size_t id = 0; id < NHOSTS; id++) {
        hello_entry e = *entry_of(&b, id);
        assert(e.here == (id == B));
        if (entry_of(&a, id)->here)
            assert(e.delay == 100 && e.offset == AHEAD && e.pid == LINK);
    }

    /* An entry whose mark is not that of the settings is refused; past NHOSTS it does not matter. */
    assert(second(&a) == HELLO_DONE);
    entry_of(&a, NHOSTS)->here = 1;
    assert(second(&a) == HELLO_DONE);
    entry_of(&a, 1)->here = 1;
    assert(second(&a) == HELLO_OUT_OF_RANGE);
    entry_of(&a, 1)->here = 0;
    entry_of(&a, 2)->here = 2;
    assert(second(&a) == HELLO_OUT_OF_RANGE);
    entry_of(&a, 2)->here = 1;
    assert(second(&a) == HELLO_DONE);

    printf("B has for hosts 0, 2 and 3, which live at A: DELAY %d ms, OFFSET %d ms.\n",
           (int)entry_of(&b, 3)->delay, (int)entry_of(&b, 3)->offset);
    return 0;
}
