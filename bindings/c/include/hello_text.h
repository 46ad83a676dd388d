/*
 * Messages on paper: a HELLO (the message without the IP header) as text, and back.
 *
 * The first line is `hello DATE TIME TSP BASE N`, then come N lines `DELAY OFFSET`. Numbers are
 * decimal, without leading zeros, with single spaces between them; OFFSET has a minus if it is
 * negative, and there is no `-0`. Each line ends in a newline. BASE is ADDRESS-OFFSET, N is NHOSTS,
 * TSP is the unsigned 16-bit word. The checksum is not printed: the reader makes it.
 *
 *   no.  meaning
 *   0    done
 *   2    the buffer is shorter than the result
 *   6    writer: the length is not 12 + 4 N
 *   14   reader: text of another form, line count included
 *   15   reader: a number does not fit its field
 *
 * They are tested in the order 6, 2 and 14, 15, 2. A refusal returns the length 0 and does not
 * change the buffer; octets of the buffer after the result always stay. A message has at most
 * HELLO_LONGEST_HELLO octets, its text at most HELLO_LONGEST_TEXT. What a caller owes is the same as in hello.h.
 */
#ifndef HELLO_TEXT_H
#define HELLO_TEXT_H

#include <stddef.h>
#include <stdint.h>

#ifdef __cplusplus
extern "C" {
#endif

#define HELLO_TEXT_FORM 14
#define HELLO_FIELD_RANGE 15

#define HELLO_LONGEST_HELLO 1032 /* octets of a HELLO of 255 hosts */
#define HELLO_LONGEST_TEXT 3352  /* octets that no text of a HELLO exceeds */

/* The number of the answer, and the length of what was written, 0 at a refusal. */
typedef struct hello_written {
    uint8_t answer;
    size_t length;
} hello_written;

/* Writes a message as text. Returns 0, 2, 6. */
hello_written hello_to_text(const uint8_t *message, size_t message_length, uint8_t *buffer,
                            size_t buffer_length);

/* Reads a text as a message, with the checksum that a sender computes. Returns 0, 2, 14, 15. */
hello_written hello_from_text(const uint8_t *text, size_t text_length, uint8_t *buffer,
                              size_t buffer_length);

#ifdef __cplusplus
}
#endif

#endif
