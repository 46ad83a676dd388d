/*
 * One host in one struct, with a function of one line for each call of hello.h.
 *
 *   hello_entry entries[2 * HELLO_PLACES] = {{0}};
 *   hello_class_table table = {2, {0}};
 *   hello_address address = {192, 0, 2, 1};
 *   hello_host host = hello_host_at(address, 1, &table, 0, entries, 2 * HELLO_PLACES);
 *   host.settings.time = 40000;
 *   if (hello_host_initialize(&host) != HELLO_DONE) ..
 *   hello_host_tick(&host);
 *
 * The settings may be changed before hello_host_initialize. The table of the class and the entries are
 * the caller's, and all hosts of a class share them. `counter` is what the next call gets of a crystal's
 * counter; a line clock leaves it zero. The answers are those of hello.h.
 */
#ifndef HELLO_HOST_H
#define HELLO_HOST_H

#include <string.h>

#include "hello.h"

#ifdef __cplusplus
extern "C" {
#endif

/* A host: all that its calls borrow. */
typedef struct hello_host {
    hello_settings settings;
    const hello_class_table *table; /* the table of the class */
    size_t number;                  /* the host's number, from 0 to 15 */
    hello_clock clock;
    hello_links links;
    hello_walk walk;
    uint8_t copy[HELLO_LONGEST_MESSAGE]; /* the packet of an open walk */
    hello_entry *entries;                /* the host table of all hosts */
    size_t entries_length;
    hello_counter counter; /* what the next call gets of a crystal's counter */
} hello_host;

/*
 * A host at an address, still to be initialized: one point-to-point link, clock setting off,
 * HOLD-INTERVAL 1 s, CLOCK-TICK 1 ms, time 0, 1 January 1972, NHOSTS of the table, its own id marked.
 */
static inline hello_host hello_host_at(hello_address address, uint8_t address_offset,
                                       const hello_class_table *table, size_t number,
                                       hello_entry *entries, size_t entries_length)
{
    hello_host host;
    memset(&host, 0, sizeof host);
    host.settings.address = address;
    host.settings.layout.address_offset = address_offset;
    host.settings.layout.nhosts = table->nhosts;
    host.settings.clock_host = HELLO_NO_CLOCK_HOST;
    host.settings.hold_interval = 1;
    host.settings.clock_tick = HELLO_UNITS_PER_MS;
    host.settings.date = 1 << 10 | 1 << 5;
    host.settings.link_count = 1;
    hello_mark_own(&host.settings);
    host.table = table;
    host.number = number;
    host.entries = entries;
    host.entries_length = entries_length;
    return host;
}

/* The host's entry of an id below NHOSTS. */
static inline hello_entry *hello_host_entry(const hello_host *host, size_t id)
{
    return &host->entries[HELLO_PLACES * host->number + id];
}

static inline uint8_t hello_host_initialize(hello_host *host)
{
    return hello_initialize(&host->settings, host->table, host->number, &host->clock, &host->links,
                            &host->walk, host->copy, sizeof host->copy, host->entries,
                            host->entries_length);
}

static inline uint8_t hello_host_tick(hello_host *host)
{
    return hello_tick(&host->settings, host->table, host->number, &host->clock, &host->links,
                      &host->walk, host->copy, sizeof host->copy, host->entries,
                      host->entries_length, host->counter.count);
}

static inline uint8_t hello_host_adjust(hello_host *host)
{
    return hello_adjust(&host->settings, host->table, host->number, &host->clock, &host->links,
                        &host->walk, host->copy, sizeof host->copy, host->entries,
                        host->entries_length, host->counter.count);
}

static inline uint8_t hello_host_set(hello_host *host, int32_t ms)
{
    return hello_set(&host->settings, host->table, host->number, &host->clock, &host->links,
                     &host->walk, host->copy, sizeof host->copy, host->entries,
                     host->entries_length, ms, host->counter.count);
}

static inline hello_time hello_host_read(hello_host *host)
{
    return hello_read(&host->settings, host->table, host->number, &host->clock, &host->links,
                      &host->walk, host->copy, sizeof host->copy, host->entries,
                      host->entries_length, host->counter);
}

static inline uint8_t hello_host_second(hello_host *host)
{
    return hello_second(&host->settings, host->table, host->number, &host->clock, &host->links,
                        &host->walk, host->copy, sizeof host->copy, host->entries,
                        host->entries_length);
}

static inline uint8_t hello_host_self_report(hello_host *host)
{
    return hello_self_report(&host->settings, host->table, host->number, &host->clock, &host->links,
                             &host->walk, host->copy, sizeof host->copy, host->entries,
                             host->entries_length, host->counter);
}

static inline hello_sent hello_host_send(hello_host *host, size_t link, uint8_t *buffer,
                                         size_t buffer_length)
{
    return hello_send(&host->settings, host->table, host->number, &host->clock, &host->links,
                      &host->walk, host->copy, sizeof host->copy, host->entries,
                      host->entries_length, link, host->counter, buffer, buffer_length);
}

static inline hello_inspected hello_host_inspect(const hello_host *host, size_t link,
                                                 const uint8_t *packet, size_t packet_length)
{
    return hello_inspect(&host->settings, host->table, host->number, &host->clock, &host->links,
                         &host->walk, host->copy, sizeof host->copy, host->entries,
                         host->entries_length, link, packet, packet_length);
}

static inline uint8_t hello_host_act(hello_host *host, size_t link, const uint8_t *packet,
                                     size_t packet_length)
{
    return hello_act(&host->settings, host->table, host->number, &host->clock, &host->links,
                     &host->walk, host->copy, sizeof host->copy, host->entries,
                     host->entries_length, link, host->counter, packet, packet_length);
}

static inline uint8_t hello_host_receive(hello_host *host, size_t link, const uint8_t *packet,
                                         size_t packet_length)
{
    return hello_receive(&host->settings, host->table, host->number, &host->clock, &host->links,
                         &host->walk, host->copy, sizeof host->copy, host->entries,
                         host->entries_length, link, host->counter, packet, packet_length);
}

static inline hello_stepped hello_host_open_walk(hello_host *host, size_t link,
                                                 const uint8_t *packet, size_t packet_length)
{
    return hello_open_walk(&host->settings, host->table, host->number, &host->clock, &host->links,
                           &host->walk, host->copy, sizeof host->copy, host->entries,
                           host->entries_length, link, packet, packet_length);
}

static inline hello_stepped hello_host_step(hello_host *host)
{
    return hello_step(&host->settings, host->table, host->number, &host->clock, &host->links,
                      &host->walk, host->copy, sizeof host->copy, host->entries,
                      host->entries_length, host->counter);
}

static inline hello_route hello_host_lookup(const hello_host *host, hello_address address)
{
    return hello_lookup(&host->settings, host->table, host->number, &host->clock, &host->links,
                        &host->walk, host->copy, sizeof host->copy, host->entries,
                        host->entries_length, address);
}

#ifdef __cplusplus
}
#endif

#endif
