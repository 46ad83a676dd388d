/*
 * The mender of damaged captures: a call of the proved library libhello.a.
 *
 * A capture has 32-bit numbers, high octet first: the number of packets and the place of each from
 * octet 0. The packets follow. Recovery ignores the places. It searches from octet 0 for a packet
 * that the tests of answers 3 to 7 pass, with the total length of its own IP header, wholly
 * within the input; a packet found is kept and the search continues after it, if not,
 * with the next octet.
 *
 *   no.  meaning                             changes
 *   0    done                                both outputs
 *   2    an output is too short              nothing
 *   27   the input has over 65,536 octets    nothing
 *
 * 27 is tested before 2. What a caller owes is in hello.h: valid pointers that are not null,
 * lengths in octets, nothing passed twice.
 */
#ifndef HELLO_CAPTURE_H
#define HELLO_CAPTURE_H

#include <stdbool.h>
#include <stddef.h>
#include <stdint.h>

#ifdef __cplusplus
extern "C" {
#endif

#define HELLO_CAPTURE_LENGTH 27

/* The longest input; the most octets that its mended capture and its list of stretches can have. */
#define HELLO_LONGEST_INPUT 65536
#define HELLO_LONGEST_CAPTURE 73732
#define HELLO_LONGEST_STRETCHES 16392

/* What recovery returns; zeros if it refuses. */
typedef struct hello_mended {
    uint8_t answer;
    size_t capture_length;   /* octets written to the capture */
    size_t stretches_length; /* octets written to the list of stretches, eight for each */
    bool places_true;        /* the input's own number and places are those of the packets found */
} hello_mended;

/*
 * Writes a capture of the packets found in order, and a list of the stretches between them: start
 * and length of each, 32 bits each, high octet first. Octets beyond what is written stay.
 */
hello_mended hello_mend(const uint8_t *input, size_t input_length, uint8_t *capture,
                        size_t capture_length, uint8_t *stretches, size_t stretches_length);

#ifdef __cplusplus
}
#endif

#endif
