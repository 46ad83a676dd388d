/*
 * A host with a crystal clock, over midnight and back.
 *
 * Its counter of 1,000 Hz overflows each 65,536 ms, and so CLOCK-TICK is 65,536 ms. It starts at
 * 23:59, and the counter at 0.
 */
#undef NDEBUG
#include <assert.h>
#include <stdio.h>

#include "hello_host.h"

enum {
    HOLD_INTERVAL = 10,
    FIRST = 1 << 10 | 1 << 5, /* 1 January 1972 */
    SECOND = 1 << 10 | 2 << 5,
    AWAITED = 0x8000
};

static hello_host host;
static hello_entry entries[HELLO_PLACES];

/* The table of the class, which the host uses: its NHOSTS, and no rows. */
static const hello_class_table table = {.nhosts = 1};

static void set_up(void)
{
    hello_address address = {192, 0, 2, 1};
    host = hello_host_at(address, 1, &table, 0, entries, HELLO_PLACES);
    host.settings.hold_interval = HOLD_INTERVAL;
    host.settings.clock_tick = (int64_t)65536 * HELLO_UNITS_PER_MS;
    host.settings.time = 86340000;
    host.settings.date = FIRST;
    assert(hello_host_initialize(&host) == HELLO_DONE);
}

/* A count without the mark. */
static hello_counter at(uint16_t count)
{
    hello_counter counter = {count, 0, 0};
    return counter;
}

/* Reads the clock: it must be that time and date. The ms of CLOCK after the reading. */
static int64_t reads(hello_counter counter, int64_t time, uint16_t date)
{
    host.counter = counter;
    hello_time now = hello_host_read(&host);
    assert(now.answer == HELLO_DONE);
    assert(now.time == time);
    assert(now.date == (date | AWAITED));
    return host.clock.clock / HELLO_UNITS_PER_MS;
}

int main(void)
{
    assert(hello_date(1972, 1, 1) == FIRST);
    assert(hello_date(1972, 1, 2) == SECOND);
    assert(hello_date(2004, 1, 1) == 0);
    set_up();
    assert(reads(at(59999), 86399999, FIRST) == 86340000);
    assert(host.clock.hold == 0);

    /* The sum is past midnight: CLOCK is below zero until the tick. */
    assert(reads(at(60001), 1, SECOND) == -60000);
    assert(host.clock.hold == HOLD_INTERVAL);
    host.counter = at(0);
    assert(hello_host_tick(&host) == HELLO_DONE);
    assert(reads(at(0), 5536, SECOND) == 5536);

    /* The counter overflows after its count: the mark is for the tick. */
    hello_counter overflowed = {65535, 1, 3};
    assert(reads(overflowed, 5536 + 65536 + 3, SECOND) == 5536 + 65536);
    assert(reads(at(4), 5536 + 65536 + 4, SECOND) == 5536 + 65536);

    /* Set back by 80 s, at a count of 10: the sum is before midnight. */
    host.counter = at(10);
    assert(hello_host_set(&host, -80000) == HELLO_DONE);
    assert(reads(at(10), 86400000 - 8918, FIRST) == 86400000 - 8928);

    printf("A crystal clock was read over midnight and back.\n");
    return 0;
}
