/*
 * An exercise in one file, run by the class bench: the half-delay error.
 *
 * Ben's clock is 500 ms ahead of Ada's. A message from Ada to Ben takes no time, one back 101 ms.
 * In the first round they hear of each other; what Ada gets in the second is believed. Her OFFSET
 * for Ben is then 449: off by half of the way there and back.
 *
 * The file is written here, record by record; docs/BENCH.md has what is in each octet. A
 * program that is given a file, as tools/bench and ./run --save write them, reads it into an array
 * as it is.
 */
#undef NDEBUG
#include <assert.h>
#include <stdio.h>
#include <string.h>

#include "hello_bench.h"

enum {
    ADA = 0, /* numbers of the hosts, their ids, and the ends of the cable that are theirs */
    BEN = 1,
    HOSTS = 2,
    EVENTS = 10,
    TO_BEN = 0, /* slots for what is on its way */
    TO_ADA = 1
};

/* Kinds of events. */
enum { SELF_REPORT = 5, SEND = 6, ARRIVAL = 7 };

/* A file, and how much of it is written. */
typedef struct file {
    uint8_t octets[HELLO_BENCH_LONGEST_FILE];
    size_t length;
} file;

/* Writes a number of that many octets, the high one first. */
static void put(file *f, uint64_t number, int octets)
{
    for (int i = octets - 1; i >= 0; i--)
        f->octets[f->length++] = (uint8_t)(number >> 8 * i);
}

/* The record of a host with one link and a crystal clock, which starts at `time` ms. */
static void put_host(file *f, uint8_t id, uint32_t time)
{
    put(f, (192u << 24 | 2u << 8) + 1 + id, 4);      /* LOCAL-ADDRESS 192.0.2.1 and on */
    put(f, 1, 1);                                    /* ADDRESS-OFFSET */
    put(f, HELLO_NO_CLOCK_HOST, 1);                  /* clock setting is off */
    put(f, HOSTS, 2);                                /* NHOSTS */
    put(f, 1, 2);                                    /* HOLD-INTERVAL in seconds */
    put(f, 1 << 10 | 1 << 5, 2);                     /* 1 January 1972 */
    put(f, time, 4);                                 /* the starting time */
    put(f, 65536 * (uint64_t)HELLO_UNITS_PER_MS, 8); /* CLOCK-TICK */
    put(f, 1, 1);                                    /* one link */
    f->length += 8 * 5;                              /* point-to-point: zeros */
    f->octets[f->length + id] = 1;                   /* its own id lives here */
    f->length += 256;
}

static void put_event(file *f, uint8_t kind, uint8_t host, uint8_t end, uint8_t slot,
                      uint16_t count)
{
    put(f, kind, 1);
    put(f, host, 1);
    put(f, 0, 1); /* cable 0 */
    put(f, end, 1);
    put(f, slot, 1);
    put(f, 0, 1);     /* no mark for counter overflow */
    put(f, count, 2); /* what the crystal's counter shows */
    put(f, 0, 2 + 4);
}

/* The host at an end sends at `count` ms of the exercise, and the message arrives that many later. */
static void put_message(file *f, uint8_t end, uint8_t slot, uint16_t count, uint16_t takes)
{
    put_event(f, SEND, 0, end, slot, count);
    put_event(f, ARRIVAL, 0, 0, slot, (uint16_t)(count + takes));
}

static void put_exercise(file *f)
{
    size_t cables = 20 + 321 * HOSTS;
    put(f, HOSTS, 4);
    put(f, 1, 4);
    put(f, EVENTS, 4);
    put(f, cables, 4);
    put(f, cables + 4, 4);
    put_host(f, ADA, 40000);
    put_host(f, BEN, 40500);
    put(f, ADA << 24 | 1 << 16 | BEN << 8 | 1, 4); /* from Ada's link 1 to Ben's */
    put_event(f, SELF_REPORT, ADA, 0, 0, 0);
    put_event(f, SELF_REPORT, BEN, 0, 0, 0);
    for (uint16_t start = 0; start <= 101; start += 101) {
        put_message(f, ADA, TO_BEN, start, 0);
        put_message(f, BEN, TO_ADA, start, 101);
    }
}

/* All that a bench is lent beside its file. */
static hello_class_table table = {.nhosts = HOSTS};
static hello_bench_host hosts[HOSTS];
static uint8_t copies[HOSTS * HELLO_LONGEST_MESSAGE];
static hello_entry run[HOSTS * HELLO_PLACES];
static uint8_t slots[HELLO_BENCH_SLOTS * HELLO_BENCH_SLOT_LENGTH];
static uint8_t answers[EVENTS];
static hello_bench_progress progress;

static uint8_t set_up(const file *f)
{
    return hello_bench_set_up(f->octets, f->length, &table, hosts, HOSTS, copies, sizeof copies,
                              run, HOSTS * HELLO_PLACES, slots, sizeof slots, answers, EVENTS,
                              &progress);
}

static hello_bench_ran run_events(const file *f, size_t allowance)
{
    return hello_bench_run(f->octets, f->length, &table, hosts, HOSTS, copies, sizeof copies, run,
                           HOSTS * HELLO_PLACES, slots, sizeof slots, answers, EVENTS, &progress,
                           allowance);
}

int main(void)
{
    static file f;
    put_exercise(&f);

    /* An octet is missing, then a cable leads to a host that there is not. */
    f.length--;
    assert(set_up(&f) == HELLO_HEADER);
    f.length++;
    f.octets[20 + 321 * HOSTS] = HOSTS;
    assert(set_up(&f) == HELLO_ABSENT);
    f.octets[20 + 321 * HOSTS] = ADA;
    assert(set_up(&f) == HELLO_DONE);

    /* Up to Ben's first message, which is on its way in its slot. */
    hello_bench_ran ran = run_events(&f, 5);
    assert(ran.answer == HELLO_DONE && ran.count == 5 && progress.done == 5);
    const uint8_t *slot = slots + TO_ADA * HELLO_BENCH_SLOT_LENGTH;
    assert(slot[0] << 8 | slot[1]); /* the length of the packet */
    assert(slot[2] == 0 && slot[3] == BEN);

    /* All that is left; another allowance, and it would end alike. */
    ran = run_events(&f, SIZE_MAX);
    assert(ran.answer == HELLO_DONE && ran.count == EVENTS - 5 && progress.done == EVENTS);
    for (int event = 0; event < EVENTS; event++)
        assert(answers[event] == HELLO_DONE);
    assert(run_events(&f, 1).count == 0);

    hello_entry learned = run[HELLO_PLACES * ADA + BEN];
    assert(learned.delay == 101 && learned.offset == 449);
    printf("%d events, and Ada has for Ben: DELAY %d ms, OFFSET %d ms.\n", (int)progress.done,
           (int)learned.delay, (int)learned.offset);
    return 0;
}
