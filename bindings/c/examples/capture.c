/* Mends the capture on standard input; the mended one goes to standard output, what was passed over to standard error. */
#include "hello_capture.h"
#include <stdio.h>

static uint8_t input[HELLO_LONGEST_INPUT + 1];
static uint8_t capture[HELLO_LONGEST_CAPTURE];
static uint8_t stretches[HELLO_LONGEST_STRETCHES];

static unsigned long number(const uint8_t *octets)
{
    return (unsigned long)octets[0] << 24 | (unsigned long)octets[1] << 16 |
           (unsigned long)octets[2] << 8 | octets[3];
}

int main(void)
{
    size_t length = fread(input, 1, sizeof input, stdin);
    hello_mended mended =
        hello_mend(input, length, capture, sizeof capture, stretches, sizeof stretches);
    if (mended.answer != 0) {
        fprintf(stderr, "refused with %u\n", mended.answer);
        return 1;
    }
    fwrite(capture, 1, mended.capture_length, stdout);
    for (size_t i = 0; i < mended.stretches_length; i += 8)
        fprintf(stderr, "%lu %lu\n", number(stretches + i), number(stretches + i + 4));
    fprintf(stderr, "number and places are %sright\n", mended.places_true ? "" : "not ");
    return 0;
}
