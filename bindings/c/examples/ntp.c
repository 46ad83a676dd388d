/*
 * An NTP exchange: what a client makes of a server's answer.
 *
 * The server's clock is 5 s ahead. The request takes 2 s, the server holds it for 4 s, and the
 * answer takes 1 s. So the delay is 3 s, and the client takes the server to be 5.5 s ahead.
 */
#undef NDEBUG
#include <assert.h>
#include <stdio.h>

#include "hello_ntp.h"

#define SECOND ((uint64_t)1 << 32)

int main(void)
{
    hello_ntp_association client = {3, 100 * SECOND, 0};
    hello_ntp_header header = {.leap = 0, .version = 4, .mode = 4, .stratum = 1, .precision = -20};
    header.origin = client.transmit;
    header.receive = 107 * SECOND;
    header.transmit = 111 * SECOND;

    hello_ntp_written written = hello_ntp_write(header);
    assert(written.answer == 0);
    hello_ntp_read_answer read = hello_ntp_read(written.octets, HELLO_NTP_OCTETS);
    assert(read.answer == 0 && read.header.precision == -20 &&
           read.header.transmit == header.transmit);

    hello_ntp_outcome outcome =
        hello_ntp_receive(client, written.octets, HELLO_NTP_OCTETS, 107 * SECOND);
    assert(outcome.answer == 0 && outcome.action == HELLO_NTP_PROC);
    assert(outcome.delay == (int64_t)(3 * SECOND));
    assert(outcome.offset == (int64_t)(11 * SECOND / 2));
    assert(outcome.association.saved == header.transmit);

    /* The same packet again. */
    outcome =
        hello_ntp_receive(outcome.association, written.octets, HELLO_NTP_OCTETS, 108 * SECOND);
    assert(outcome.answer == HELLO_NTP_TIMESTAMP && outcome.delay == 0);

    header.leap = 4;
    assert(hello_ntp_write(header).answer == HELLO_NTP_MODE);
    assert(hello_ntp_read(written.octets, 47).answer == HELLO_NTP_LENGTH);
    puts("NTP: delay 3 s, offset 5.5 s");
    return 0;
}
