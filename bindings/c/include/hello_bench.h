/*
 * The class bench: an exercise that is set up from one file and run, event by event. Calls of
 * the proved library libclass_bench.a, which is beside libhello.a.
 *
 * A bench file has the hosts with their settings, the cables between them and the events in their
 * order; docs/BENCH.md says what is in each octet, and tools/bench makes one of a text. An
 * event is one call of a host: a tick, an adjust, a set, a second, a self-report, a send into a
 * slot, or the arrival of a slot's packet at the far end of its cable.
 *
 * The caller keeps the bench. Both calls borrow it, and the file and the class's net table,
 * a hello_class_table of hello.h whose NHOSTS is that of every host of the file.
 *
 *   borrowed   how long, at least              what it has
 *   hosts      the file's hosts                of each host the clock, the links and the walk
 *   copies     HELLO_LONGEST_MESSAGE octets    the packets of the hosts' walks, host 0's first; no
 *              for each host                   call here changes them
 *   entries    HELLO_PLACES for each host      the entries that all hosts share, as in hello.h
 *   slots      32 slots of 1,056 octets        packets on their way, each after its label
 *   answers    the file's events               the number of each event's answer
 *   progress                                   how many events are done
 *
 * Each may be longer, and what is after that stays. The label of a slot has four octets: the length of
 * its packet, high octet first, 0 if the slot was never filled; the cable; and the end that the
 * packet was sent from. An event that is refused counts as carried out. Its answer is one of those
 * of hello.h; the arrival of a slot that was never filled has answer 3, and no host is asked.
 *
 *   no.  meaning                                                               changes
 *   0    done                                                                  as its rule says
 *   12   hosts, copies, entries, slots or answers are shorter than the file    nothing
 *        needs, or the net table is bad; in a run also a slot with a packet whose
 *        length, cable or end cannot be, or more events done than there are
 *   18   the file's header or length: a count over its most, a start that is   nothing
 *        not the end of the section before it, or another length
 *   19   a record of the file names something that is not there, or has        nothing
 *        settings that 1 refuses, an NHOSTS unlike the net table's among them
 *
 * Tested in the order 18, 19, 12. No call needs another one before it. What a caller owes is
 * in hello.h: valid pointers that are not null, lengths in elements, all that is borrowed written
 * before, nothing passed twice.
 */
#ifndef HELLO_BENCH_H
#define HELLO_BENCH_H

#include "hello.h"

#ifdef __cplusplus
extern "C" {
#endif

/* The answers. */
#define HELLO_HEADER 18
#define HELLO_ABSENT 19

/* A file has HELLO_HOSTS hosts at most, and as many cables, events and octets as these. */
#define HELLO_BENCH_CABLES 32
#define HELLO_BENCH_EVENTS 2048
#define HELLO_BENCH_LONGEST_FILE 33956

/* Octets of the header and of each record; docs/BENCH.md has what is in each octet. */
#define HELLO_BENCH_HEADER_LENGTH 20
#define HELLO_BENCH_HOST_LENGTH 321
#define HELLO_BENCH_CABLE_LENGTH 4
#define HELLO_BENCH_EVENT_LENGTH 14

/* The kinds of events, the first octet of a record. */
#define HELLO_BENCH_TICK 1
#define HELLO_BENCH_ADJUST 2
#define HELLO_BENCH_SET 3
#define HELLO_BENCH_SECOND 4
#define HELLO_BENCH_SELF_REPORT 5
#define HELLO_BENCH_SEND 6
#define HELLO_BENCH_ARRIVAL 7

#define HELLO_BENCH_LABEL_LENGTH 4 /* octets of a slot before its packet */

#define HELLO_BENCH_SLOTS 32         /* slots of a bench */
#define HELLO_BENCH_SLOT_LENGTH 1056 /* octets of a slot: its label, then a longest message */

/* A host of the bench. What is there does not matter to set-up, but it must have been written. */
typedef struct hello_bench_host {
    hello_clock clock;
    hello_links links;
    hello_walk walk;
} hello_bench_host;

/* How many events are done. Put back to 0, the next run begins with the file's first event. */
typedef struct hello_bench_progress {
    size_t done;
} hello_bench_progress;

/* What a run returns. */
typedef struct hello_bench_ran {
    uint8_t answer;
    size_t count; /* how many events it carried out; 0 when refused */
} hello_bench_ran;

/*
 * Initializes all hosts of the file, each by its own settings, in rising order; the slots, the
 * answers of the file's events and the number of events done are then zero. Returns 0, 12, 18, 19.
 */
uint8_t hello_bench_set_up(const uint8_t *file, size_t file_length, const hello_class_table *table,
                           hello_bench_host *hosts, size_t hosts_length, const uint8_t *copies,
                           size_t copies_length, hello_entry *entries, size_t entries_length,
                           uint8_t *slots, size_t slots_length, uint8_t *answers,
                           size_t answers_length, hello_bench_progress *progress);

/*
 * Carries out the next events of the file in order, at most `allowance` of them, until the file
 * ends. The number of each one's answer goes to its place in the answers. Returns 0, 12, 18, 19.
 */
hello_bench_ran hello_bench_run(const uint8_t *file, size_t file_length,
                                const hello_class_table *table, hello_bench_host *hosts,
                                size_t hosts_length, const uint8_t *copies, size_t copies_length,
                                hello_entry *entries, size_t entries_length, uint8_t *slots,
                                size_t slots_length, uint8_t *answers, size_t answers_length,
                                hello_bench_progress *progress, size_t allowance);

#ifdef __cplusplus
}
#endif

#endif
