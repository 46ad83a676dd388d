/*
 * A HELLO host of RFC 891: the calls of the proved library libhello.a, for x86-64 Linux.
 *
 * A host has settings, a clock, links and a host table. The caller keeps them, and each call borrows
 * them. Its table and its packets name other hosts by their ids. hello_host.h has a struct that holds
 * all of a host, with a function of one argument for each call: begin there.
 *
 * All hosts of a class use one net table, which each of their calls borrows too. It has the class's
 * NHOSTS, which must be that of each host's settings. No call of a host changes it; the tutor's calls
 * in hello_nets.h do.
 *
 * All hosts of a class share one array of entries, the host table: host k, from 0 to 15, owns the 255
 * entries from 255 k, and only the first NHOSTS of them, one for each id, ever change. So there must be
 * at least 255 k + 255 entries for host k. More do not harm.
 *
 * Addresses, nets and ids:
 *
 *   class  first octet  net                     host octet  on the host's net if these octets are equal
 *   A      1 to 127     the first octet, 0, 0   the third   first, second, fourth
 *   B, C   128 to 223   the first three octets  the fourth  first, second, third
 *
 * An id is the host octet minus ADDRESS-OFFSET, from 0 to NHOSTS - 1. An address on another net gets the
 * id of the first row of the net table with its net; a row of net zero matches every net.
 *
 * The main loop of a host, with the intervals that RFC 891 suggests:
 *
 *   call               how often
 *   hello_initialize   once, and again to start anew
 *   hello_tick         each time that the clock hardware ticks: each CLOCK-TICK of a line clock, each
 *                      overflow of a crystal's counter
 *   hello_adjust       every HELLO_ADJUST_MS of a line clock, every HELLO_ADJUST_CRYSTAL_MS of a crystal
 *   hello_second       every second
 *   hello_self_report  every second
 *   hello_send         every HELLO_INTERVAL_LEAST to HELLO_INTERVAL_MOST seconds for each link
 *   hello_receive      for each packet that arrives
 *
 * Every call returns one of the numbers below. It needs no other call before it, no good settings and no
 * good packet. hello_initialize initializes a host; each later call borrows the clock, the links, the
 * walk with its copy and the host table as they are after the host's last call.
 *
 *   no.  meaning                                        changes
 *   0    done                                           as the call's rule says
 *   1    a setting is out of its range, the own id is   nothing
 *        not marked, an id from NHOSTS on is marked,
 *        or NHOSTS is not that of the net table
 *   2    the buffer is shorter than the message         nothing
 *   3    the IP header is not in form                   nothing
 *   4    the IP checksum is not good                    nothing
 *   5    the IP protocol is not 63                      nothing
 *   6    the HELLO is not in form                       nothing
 *   7    the HELLO checksum is not good                 nothing
 *   8    the packet has a table, and its NHOSTS or      nothing
 *        ADDRESS-OFFSET is not ours
 *   9    the source is our own LOCAL-ADDRESS, on a      nothing
 *        point-to-point link
 *   10   the delay is not valid: from the neighbor on   act, receive: the clock, by its reading;
 *        a point-to-point link, the packet's TSP is 0   that link's KEEP-ALIVE and TSP; step: the
 *        or HOLD is not 0                               walk, which ends
 *   11   the address has no id                          act, receive: the clock, by its reading;
 *                                                       that link's KEEP-ALIVE, TSP and
 *                                                       NEIGHBOR-ADDRESS; step: the walk, which
 *                                                       ends; lookup: nothing
 *   12   the host's number is over 15; the link is not  nothing
 *        from 1 to the host's count (8 at most); the
 *        host's 255 places are not all in the host
 *        table; the copy of a walk to open has no
 *        space for 1,052 octets; the net table is bad:
 *        over 32 rows, an NHOSTS not 1 to 255 or a
 *        row's id not below it; other state of the
 *        caller is out of range; or an entry's mark is
 *        not the settings'. Of a bench: state smaller
 *        than the file needs; in a run also a filled
 *        slot with a length over 1,052, an absent
 *        cable or an end other than 0 and 1, or more
 *        events done than the file has
 *   13   the host looked up is down: its DELAY is       nothing
 *        30,000
 *   16   the host is in the middle of a walk            nothing
 *   17   no walk is open                                nothing
 *
 * All calls return 0, 1 and 12, and all except hello_initialize and hello_step 16; hello_send also 2;
 * hello_inspect, hello_act, hello_receive and hello_open_walk 3 to 9, hello_act, hello_receive and
 * hello_step 10 and 11; hello_step 17; hello_lookup 11 and 13.
 *
 * 12 is tested first in all calls, then 16, then upwards in number. For 12, hello_initialize tests the
 * host's number, the number of entries and the class's table only; every other call tests the ranges of
 * all that it borrows: the class's table too, the clock, the host's links, which are the first
 * link_count (8 at most), an open walk with its packet, and the host's first NHOSTS entries (255 at
 * most) with their marks.
 *
 * A host may carry further ones, each with an id of its own: several hosts live at one. The settings
 * mark their ids beside its own, hello_initialize writes each entry's mark, and hello_self_report
 * reports them all. No call changes a mark, and a link may still update a marked entry.
 *
 * A walk is an arrival one box at a time: hello_open_walk tests and copies the packet, and each
 * hello_step makes the changes of one step of the arrival, or of one line of a host's update, and
 * returns the next place. At its end, the answer and the state are those of hello_act with the counter
 * of the first step and the class's table of step 5. While it is open, the host refuses its other calls
 * with 16, except hello_initialize, which drops it. The caller keeps the walk, at first
 * HELLO_WALK_CLOSED, and the octets of its copy, HELLO_LONGEST_MESSAGE of them; each call borrows both.
 *
 * What a caller owes, and the library cannot test:
 *   - each pointer is valid for its type, or for as many elements as the length after it says,
 *     and aligned;
 *   - what is borrowed without const is writable, even if the call changes nothing in it;
 *   - all that is borrowed has been written before, whatever it is: hello_initialize too reads the
 *     clock, the links, the walk and the entries before it writes them;
 *   - what one call borrows does not overlap, and no other thread uses it during the call;
 *   - a length counts elements: entries of the host table, octets of a copy, buffer or packet;
 *   - a pointer before a length of 0 is not null either.
 * No value of a member is undefined: one out of its range gives 1 or 12.
 *
 * A call need not keep the padding between members, so structs are not to be compared or hashed
 * octet by octet.
 *
 * A host has a line clock, which is CLOCK alone, or a crystal clock, which is CLOCK plus the count
 * of a 16-bit counter of 1,000 Hz. Each call that reads the clock gets a hello_counter, and
 * tick, adjust and set get the count; a line clock passes HELLO_LINE_CLOCK, and 0. Nothing in the
 * settings says which clock a host has.
 *
 * The library keeps nothing between calls, allocates nothing and does no input or output.
 */
#ifndef HELLO_H
#define HELLO_H

#include <stddef.h>
#include <stdint.h>

#ifdef __cplusplus
extern "C" {
#endif

/* The version of this header; hello_version, below, has that of the library. */
#define HELLO_VERSION_MAJOR 0
#define HELLO_VERSION_MINOR 1
#define HELLO_VERSION_PATCH 0
#define HELLO_VERSION "0.1.0"

#define HELLO_PLACES 255           /* entries of the host table that one host owns */
#define HELLO_HOSTS 16             /* hosts that one host table can have */
#define HELLO_LINKS 8              /* links that a host can have */
#define HELLO_ROWS 32              /* rows that a net table can have */
#define HELLO_MARKS 256            /* ids that can be marked, from 0 */
#define HELLO_NO_CLOCK_HOST 255    /* clock_host if clock setting is off */
#define HELLO_UNITS_PER_MS 65536   /* clock units to a millisecond */
#define HELLO_LONGEST_MESSAGE 1052 /* octets of a message with the table of 255 hosts */

#define HELLO_IP_PROTOCOL 63  /* the IP protocol of HELLO */
#define HELLO_IP_OCTETS 20    /* octets of the IP header */
#define HELLO_FIXED_OCTETS 12 /* octets of a HELLO without hosts */
#define HELLO_HOST_OCTETS 4   /* octets of a HELLO for each host */

#define HELLO_DOWN 30000    /* DELAY of an entry that is down, ms */
#define HELLO_MIN_DELAY 100 /* the least DELAY that a link stores, ms */
#define HELLO_HOLD_DOWN 120 /* TTL of an entry that was updated or went down, s */
#define HELLO_KEEP_ALIVE 4  /* KEEP-ALIVE of a link that has heard a message */
#define HELLO_DAY 86400000  /* milliseconds of a day */
#define HELLO_FIRST_YEAR 1972
#define HELLO_LAST_YEAR 2003

#define HELLO_INTERVAL_LEAST 8       /* seconds between two sends on a fast link */
#define HELLO_INTERVAL_MOST 30       /* seconds between two sends on a slow one */
#define HELLO_ADJUST_MS 500          /* between two adjusts of a line clock */
#define HELLO_ADJUST_CRYSTAL_MS 4000 /* between two adjusts of a crystal clock */

/* The answers. */
#define HELLO_DONE 0
#define HELLO_SETTING 1
#define HELLO_SHORT_BUFFER 2
#define HELLO_IP_FORM 3
#define HELLO_IP_CHECKSUM 4
#define HELLO_PROTOCOL 5
#define HELLO_HELLO_FORM 6
#define HELLO_HELLO_CHECKSUM 7
#define HELLO_OTHER_LAYOUT 8
#define HELLO_LOOPED_LINE 9
#define HELLO_DELAY_NOT_VALID 10
#define HELLO_NO_HOST 11
#define HELLO_OUT_OF_RANGE 12
#define HELLO_HOST_DOWN 13
#define HELLO_IN_WALK 16
#define HELLO_NO_WALK 17

/* What an answer means, in words; of all answers, also those of the other headers. */
static inline const char *hello_answer_text(uint8_t answer)
{
    /* clang-format off */
    switch (answer) {
    case 0: return "done";
    case 1: return "a setting is out of its range, the own id is not marked, an id from NHOSTS on is marked, or NHOSTS is not that of the net table";
    case 2: return "the buffer is shorter than the message";
    case 3: return "the IP header is not in form";
    case 4: return "the IP checksum is not good";
    case 5: return "the IP protocol is not 63";
    case 6: return "the HELLO is not in form";
    case 7: return "the HELLO checksum is not good";
    case 8: return "the packet has a table, and its NHOSTS or ADDRESS-OFFSET is not ours";
    case 9: return "the source is our own LOCAL-ADDRESS, on a point-to-point link";
    case 10: return "the delay is not valid: from the neighbor on a point-to-point link, the packet's TSP is 0 or HOLD is not 0";
    case 11: return "the address has no id";
    case 12: return "the host's number is over 15; the link is not from 1 to the host's count (8 at most); the host's 255 places are not all in the host table; the copy of a walk to open has no space for 1,052 octets; the net table is bad: over 32 rows, an NHOSTS not 1 to 255 or a row's id not below it; other state of the caller is out of range; or an entry's mark is not the settings'. Of a bench: state smaller than the file needs; in a run also a filled slot with a length over 1,052, an absent cable or an end other than 0 and 1, or more events done than the file has";
    case 13: return "the host looked up is down: its DELAY is 30,000";
    case 14: return "the text has another form, its number of lines included";
    case 15: return "a number of the text does not fit its field";
    case 16: return "the host is in the middle of a walk";
    case 17: return "no walk is open";
    case 18: return "the file's header or length: a count over its most, a start that is not where the section before it ends, or another length";
    case 19: return "a record of the file names something that is not there, or has settings that 1 refuses";
    case 21: return "the net table has 32 rows";
    case 22: return "there is no row of that number; none is number 0";
    case 23: return "the header has not 48 octets";
    case 24: return "the version is not 4";
    case 25: return "the packet mode or the association is outside the table, or the leap is over 3";
    case 26: return "one of the four tests of the times failed";
    case 27: return "the capture has over 65,536 octets";
    default: return "no answer of the library";
    }
    /* clang-format on */
}

/*
 * The version of the library, such as "0.1.0". It is in the installed library (./install) and in
 * libhello.so; the archive that rt makes alone does not have it.
 */
const char *hello_version(void);

/* An internet address, first octet first. */
typedef struct hello_address {
    uint8_t first;
    uint8_t second;
    uint8_t third;
    uint8_t fourth;
} hello_address;

/* The setting of one link. */
typedef struct hello_link_setting {
    uint8_t broadcast;      /* 0 point-to-point, 1 broadcast; anything else is a setting outside
                               its range */
    hello_address neighbor; /* NEIGHBOR-ADDRESS of a broadcast link; else not looked at */
} hello_link_setting;

/* The layout of host ids, the same at all hosts of a net. */
typedef struct hello_layout {
    uint8_t address_offset; /* ADDRESS-OFFSET: an id is the host octet less this number */
    size_t nhosts;          /* NHOSTS, that of the class's table: ids are 0 to NHOSTS - 1 */
} hello_layout;

/* The number of a net: all three octets of class B and C, the first octet and two zeros of class A. */
typedef struct hello_net {
    uint8_t first;
    uint8_t second;
    uint8_t third;
} hello_net;

/* A row of the net table: the id of the host through which a net is reached. */
typedef struct hello_row {
    hello_net net; /* net zero matches every address and ends the search */
    uint8_t id;    /* below NHOSTS */
} hello_row;

/* The net table: the first `count` rows. */
typedef struct hello_net_table {
    size_t count; /* 0 to 32 */
    hello_row
        rows[HELLO_ROWS]; /* searched from the first; those after the count are not looked at */
} hello_net_table;

/* The table of a class, which all its hosts use: its NHOSTS, and the net table. */
typedef struct hello_class_table {
    size_t nhosts; /* NHOSTS, 1 to 255: that of every host's settings */
    hello_net_table net;
} hello_class_table;

/*
 * Which of the ids from 0 to 255 are marked: the hosts that live here. The mark of an id is bit
 * id % 64 of word id / 64, the lowest bit first. hello_mark and hello_mark_own, below, set them.
 */
typedef struct hello_marks {
    uint64_t words[HELLO_MARKS / 64];
} hello_marks;

/* The settings of a host. Outside these ranges every call on the host answers 1, unless 12. */
typedef struct hello_settings {
    hello_address address;  /* LOCAL-ADDRESS: first octet 1 to 223; gives an id below NHOSTS */
    hello_layout layout;    /* ADDRESS-OFFSET and NHOSTS */
    uint8_t clock_host;     /* id of the host that sets the clock, below NHOSTS;
                               HELLO_NO_CLOCK_HOST: clock setting is off */
    uint16_t hold_interval; /* HOLD-INTERVAL, 1 to 255 s */
    int64_t clock_tick;     /* CLOCK-TICK, up to 65,536 ms: 1 to 4,294,967,296 units of 1/65,536
                               ms */
    int64_t time;           /* starting time, 0 to 86,399,999 ms */
    uint16_t date;          /* starting date, a real one with bit 14 zero; bit 15 not looked at */
    size_t link_count;      /* 1 to 8: the host's links are the first link_count */
    hello_link_setting links[HELLO_LINKS]; /* link 1 comes first */
    hello_marks marks; /* the ids whose hosts live here: the own one and any others below NHOSTS */
} hello_settings;

/* Marks an id: its host lives here. */
static inline void hello_mark(hello_settings *settings, uint8_t id)
{
    settings->marks.words[id / 64] |= (uint64_t)1 << (id % 64);
}

/* Marks the own id, which the address and ADDRESS-OFFSET, set before, give. */
static inline void hello_mark_own(hello_settings *settings)
{
    hello_address own = settings->address;
    uint8_t octet = own.first < 128 ? own.third : own.fourth;
    hello_mark(settings, (uint8_t)(octet - settings->layout.address_offset));
}

/*
 * A host's clock. The DATE word: bits 0-4 year less 1972, 5-9 day, 10-13 month, 14 zero, 15 one
 * while a master's date is awaited. Only real dates from 1 January 1972 to 31 December 2003.
 */
typedef struct hello_clock {
    int64_t clock; /* CLOCK, -65,535 to 86,400,000 ms, in units of 1/65,536 ms */
    int64_t delta; /* DELTA, -128 to +127 ms, in units of 1/65,536 ms */
    uint16_t hold; /* HOLD, 0 to 255 s */
    uint16_t date; /* DATE, a real date */
} hello_clock;

/* What a reading gets of a crystal's counter. */
typedef struct hello_counter {
    uint16_t count;   /* its count, ms */
    uint8_t overflow; /* the mark, any number but 0: it has overflowed, and there has been no tick
                         for that yet. The reading makes it, and uses the count taken again */
    uint16_t again;   /* the count taken again after the overflow; else not looked at */
} hello_counter;

/* What a line clock passes. HELLO_LINE_CLOCK_INIT is the same for initializers, also static ones. */
#define HELLO_LINE_CLOCK_INIT                                                                      \
    {                                                                                              \
        0, 0, 0                                                                                    \
    }
static const hello_counter HELLO_LINE_CLOCK = HELLO_LINE_CLOCK_INIT;

/* The state of a link. */
typedef struct hello_link {
    hello_address neighbor; /* NEIGHBOR-ADDRESS, any; zero until a neighbor is heard or set */
    uint8_t keep_alive;     /* KEEP-ALIVE, 0 to 4 */
    int16_t tsp;            /* TSP, any, ms */
} hello_link;

/* The states of a host's links. */
typedef struct hello_links {
    hello_link all[HELLO_LINKS]; /* link 1 comes first */
} hello_links;

/*
 * A walk: the state of an arrival between two of its boxes. Its packet is in the copy beside it. Only
 * an open walk is looked at, and of it only what its place needs.
 */
typedef struct hello_walk {
    uint8_t opened;  /* any number but 0: a walk is open */
    uint8_t link;    /* the link on which the packet arrived, from 1 */
    uint8_t step;    /* the next place: step 1 to 5 */
    uint8_t line;    /* in step 5, after its own box, line 1 to 4 for (a) to (d); else 0 */
    uint8_t id;      /* the host id of a line, below NHOSTS */
    uint16_t length; /* the octets of the packet, at the start of the copy */
    uint16_t count;  /* from step 1 on: the count that was used, ms */
    int64_t reading; /* from step 1 on: our reading, 0 to 86,400,000 ms */
    int16_t delay;   /* from step 3 on: DELAY, ms; line (c) is to store one of 100 to 29,999 */
    int16_t offset;  /* from step 3 on: OFFSET, ms */
} hello_walk;

/* No walk. HELLO_WALK_CLOSED_INIT is the same for initializers, also static ones. */
#define HELLO_WALK_CLOSED_INIT                                                                     \
    {                                                                                              \
        0, 0, 0, 0, 0, 0, 0, 0, 0, 0                                                               \
    }
static const hello_walk HELLO_WALK_CLOSED = HELLO_WALK_CLOSED_INIT;

/* An entry of a host table. */
typedef struct hello_entry {
    int64_t delay;  /* DELAY, 0 to 30,000 ms; 30,000 is down */
    int16_t offset; /* OFFSET, any, ms: that host's clock less ours */
    uint16_t ttl;   /* TTL, 0 to 120 s */
    uint8_t pid;    /* PID, 0 to 8: the link of the route; 0: a host that lives here, or none */
    uint8_t here;   /* the mark of the id, as the settings have it: 1 lives here, 0 does not */
    int64_t time;   /* time of update, 0 to 86,400,000 ms */
} hello_entry;

/* What a send returns. */
typedef struct hello_sent {
    uint8_t answer;
    size_t length; /* the message's octets; 0 when refused */
} hello_sent;

/* What a lookup returns. */
typedef struct hello_route {
    uint8_t answer;
    size_t id;   /* the id that the address has; 0 when refused */
    uint8_t pid; /* PID, the link of the route; 0 for a host that lives here, or when refused */
} hello_route;

/* What a reading returns. */
typedef struct hello_time {
    uint8_t answer;
    int64_t time;  /* the integer milliseconds of CLOCK plus the count; 0 when refused */
    uint16_t date; /* the DATE word; 0 when refused */
} hello_time;

/* What an inspection returns: of a packet that passes, what it says. */
typedef struct hello_inspected {
    uint8_t answer;
    hello_address source; /* its source; 0.0.0.0 when refused */
    int64_t time;         /* its time, 0 to 4,294,967,295 ms; 0 when refused */
    uint16_t tsp;         /* its TSP, as an unsigned number; 0 when refused */
    uint8_t nhosts;       /* NHOSTS: how many hosts its table has; 0 when refused */
} hello_inspected;

/* What the opening of a walk and a step of it return: the next place. */
typedef struct hello_stepped {
    uint8_t answer;
    uint8_t step; /* 1 to 5; 0 when refused, and if there is no next place */
    uint8_t line; /* in step 5, after its own box, 1 to 4 for (a) to (d); else 0 */
    size_t id;    /* the host id of a line; else 0 */
} hello_stepped;

/*
 * Initializes host `number` by its settings: the clock, all eight links, each by its own of the
 * eight link settings, and the first NHOSTS entries, each with the mark of its id; a walk is
 * dropped. What was there does not matter, but it must have been written. Returns 0, 1, 12.
 */
uint8_t hello_initialize(const hello_settings *settings, const hello_class_table *table,
                         size_t number, hello_clock *clock, hello_links *links, hello_walk *walk,
                         const uint8_t *copy, size_t copy_length, hello_entry *entries,
                         size_t entries_length);

/*
 * Adds CLOCK-TICK to CLOCK. If CLOCK plus `count` is past HELLO_DAY ms, CLOCK loses a day, DATE
 * moves on, its bit 15 is set and HOLD becomes HOLD-INTERVAL; so also after adjust and set, and the
 * other way below 0. Returns 0, 1, 12, 16.
 */
uint8_t hello_tick(const hello_settings *settings, const hello_class_table *table, size_t number,
                   hello_clock *clock, const hello_links *links, const hello_walk *walk,
                   const uint8_t *copy, size_t copy_length, const hello_entry *entries,
                   size_t entries_length, uint16_t count);

/* Moves CLOCK by DELTA / 128, rounded down, which DELTA loses. Returns 0, 1, 12, 16. */
uint8_t hello_adjust(const hello_settings *settings, const hello_class_table *table, size_t number,
                     hello_clock *clock, const hello_links *links, const hello_walk *walk,
                     const uint8_t *copy, size_t copy_length, const hello_entry *entries,
                     size_t entries_length, uint16_t count);

/*
 * Corrects the clock by `ms`. From -128 to +127 it becomes DELTA, which adjust spends. Otherwise
 * it is added to CLOCK at once, DELTA becomes 0 and HOLD becomes HOLD-INTERVAL. Returns 0, 1, 12,
 * 16.
 */
uint8_t hello_set(const hello_settings *settings, const hello_class_table *table, size_t number,
                  hello_clock *clock, const hello_links *links, const hello_walk *walk,
                  const uint8_t *copy, size_t copy_length, const hello_entry *entries,
                  size_t entries_length, int32_t ms, uint16_t count);

/*
 * Reads the integer milliseconds of CLOCK plus the count, and DATE. With the mark, CLOCK-TICK is added
 * to CLOCK first, and stays. Midnight is tested on the sum as after a tick, so that a reading may
 * move DATE and load HOLD. Returns 0, 1, 12, 16.
 */
hello_time hello_read(const hello_settings *settings, const hello_class_table *table, size_t number,
                      hello_clock *clock, const hello_links *links, const hello_walk *walk,
                      const uint8_t *copy, size_t copy_length, const hello_entry *entries,
                      size_t entries_length, hello_counter counter);

/*
 * A second has passed: HOLD and each TTL fall by one unless zero. An entry that was up and whose
 * TTL thereby ends goes down: DELAY HELLO_DOWN, TTL HELLO_HOLD_DOWN. Returns 0, 1, 12, 16.
 */
uint8_t hello_second(const hello_settings *settings, const hello_class_table *table, size_t number,
                     hello_clock *clock, const hello_links *links, const hello_walk *walk,
                     const uint8_t *copy, size_t copy_length, hello_entry *entries,
                     size_t entries_length);

/*
 * Reads the clock as hello_read does, and updates the entry of each marked id, in rising order, with
 * PID 0, DELAY 0 and OFFSET 0, all by that one reading. Returns 0, 1, 12, 16.
 */
uint8_t hello_self_report(const hello_settings *settings, const hello_class_table *table,
                          size_t number, hello_clock *clock, const hello_links *links,
                          const hello_walk *walk, const uint8_t *copy, size_t copy_length,
                          hello_entry *entries, size_t entries_length, hello_counter counter);

/*
 * Reads the clock as hello_read does, unless it returns 1, 2, 12 or 16. Writes the next message of
 * link `link` (from 1) to the start of the buffer, IP header first, and returns its length: 32
 * octets, or 32 + 4 NHOSTS (1,052 at most) with the host table, which goes out once the neighbor is
 * known and on the host's net. KEEP-ALIVE falls by one unless zero. Octets of the buffer after the
 * message stay. Returns 0, 1, 2, 12, 16.
 */
hello_sent hello_send(const hello_settings *settings, const hello_class_table *table, size_t number,
                      hello_clock *clock, hello_links *links, const hello_walk *walk,
                      const uint8_t *copy, size_t copy_length, const hello_entry *entries,
                      size_t entries_length, size_t link, hello_counter counter, uint8_t *buffer,
                      size_t buffer_length);

/*
 * Looks at a packet, IP header first, that arrived on link `link` (from 1): would it be taken, and
 * what does it say? Changes nothing. Returns 0, 1, 3 to 9, 12, 16; hello_act may still return 10 or
 * 11 to a packet that gives 0 here.
 */
hello_inspected hello_inspect(const hello_settings *settings, const hello_class_table *table,
                              size_t number, const hello_clock *clock, const hello_links *links,
                              const hello_walk *walk, const uint8_t *copy, size_t copy_length,
                              const hello_entry *entries, size_t entries_length, size_t link,
                              const uint8_t *packet, size_t packet_length);

/*
 * Acts on a packet, IP header first, that arrived on link `link` (from 1). Any calls may have come
 * since hello_inspect, so it tests the packet again. Unless it returns 1 to 9, 12 or 16, it reads
 * the clock as hello_read does. On 0 the link's keep_alive, tsp and neighbor, the entries that the
 * packet's report changes and, if the report of the clock host is taken, the clock are as RFC
 * 891 says. Returns 0, 1, 3 to 12, 16.
 */
uint8_t hello_act(const hello_settings *settings, const hello_class_table *table, size_t number,
                  hello_clock *clock, hello_links *links, const hello_walk *walk,
                  const uint8_t *copy, size_t copy_length, hello_entry *entries,
                  size_t entries_length, size_t link, hello_counter counter, const uint8_t *packet,
                  size_t packet_length);

/*
 * An arrival in one piece: hello_inspect and, if that returns 0, hello_act. The answer and the state
 * are those of hello_act alone. Returns 0, 1, 3 to 12, 16.
 */
uint8_t hello_receive(const hello_settings *settings, const hello_class_table *table, size_t number,
                      hello_clock *clock, hello_links *links, const hello_walk *walk,
                      const uint8_t *copy, size_t copy_length, hello_entry *entries,
                      size_t entries_length, size_t link, hello_counter counter,
                      const uint8_t *packet, size_t packet_length);

/*
 * Opens a walk for a packet, IP header first, that arrived on link `link` (from 1): the packet is
 * copied to the start of the copy, which must have room for HELLO_LONGEST_MESSAGE octets, and step 1
 * is next. Nothing else changes, and the clock is not read. Returns 0, 1, 3 to 9, 12, 16.
 */
hello_stepped hello_open_walk(const hello_settings *settings, const hello_class_table *table,
                              size_t number, const hello_clock *clock, const hello_links *links,
                              hello_walk *walk, uint8_t *copy, size_t copy_length,
                              const hello_entry *entries, size_t entries_length, size_t link,
                              const uint8_t *packet, size_t packet_length);

/*
 * Makes the changes of the place that the walk is at, and returns the next. Step 1 reads the
 * clock as hello_read does; the counter of a later step is not looked at. After step 5 come, for
 * each id of the packet's table in rising order, or for the one id that step 5 found, the lines
 * (a), (b) and (c) of its update, as far as it goes, and (d) if the clock host's was stored. The
 * walk is closed if there is no next place, and at 10 and 11. Returns 0, 1, 10, 11, 12, 17.
 */
hello_stepped hello_step(const hello_settings *settings, const hello_class_table *table,
                         size_t number, hello_clock *clock, hello_links *links, hello_walk *walk,
                         const uint8_t *copy, size_t copy_length, hello_entry *entries,
                         size_t entries_length, hello_counter counter);

/*
 * Returns the id of `address`, by the host's own net or by the class's net table, and the link by
 * which it is reached. Changes nothing. Returns 0, 1, 11, 12, 13, 16.
 */
hello_route hello_lookup(const hello_settings *settings, const hello_class_table *table,
                         size_t number, const hello_clock *clock, const hello_links *links,
                         const hello_walk *walk, const uint8_t *copy, size_t copy_length,
                         const hello_entry *entries, size_t entries_length, hello_address address);

/*
 * Passes a packet to the host of the packet programs, which has one point-to-point link and the
 * address 192.0.2.1 (rule PROGRAM-1 in docs/RULES.md), and returns the number of its answer.
 */
uint8_t hello_packet(const uint8_t *packet, size_t packet_length);

/*
 * The internet checksum (RFC 1071): the complement of the folded one's complement sum of all
 * 16-bit words of the octets, high octet first. An odd last octet is the high octet of a word.
 */
uint16_t hello_checksum(const uint8_t *octets, size_t length);

/* The same, two octets at a time: the plain way, which takes longer. */
uint16_t hello_checksum_plain(const uint8_t *octets, size_t length);

/*
 * The DATE word of a calendar day, as 29 February 1984, with bit 15 zero. Returns 0 if there is no
 * such day from 1 January 1972 to 31 December 2003.
 */
uint16_t hello_date(uint16_t year, uint16_t month, uint16_t day);

#ifdef __cplusplus
}
#endif

#endif
