/*
 * A message as text, and back: the text of RFC 891's fields, the octets with their checksum, and what is
 * refused.
 */
#undef NDEBUG
#include <assert.h>
#include <stdio.h>
#include <string.h>

#include "hello.h"
#include "hello_text.h"

int main(void)
{
    const char *text = "hello 12331 3600000 4660 1 2\n0 0\n100 -51\n";
    uint8_t message[HELLO_LONGEST_HELLO], written[HELLO_LONGEST_TEXT];

    hello_written read =
        hello_from_text((const uint8_t *)text, strlen(text), message, sizeof message);
    assert(read.answer == HELLO_DONE);
    assert(read.length == HELLO_FIXED_OCTETS + 2 * HELLO_HOST_OCTETS);
    assert(hello_checksum(message, read.length) == 0);

    hello_written back = hello_to_text(message, read.length, written, sizeof written);
    assert(back.answer == HELLO_DONE && back.length == strlen(text));
    assert(memcmp(written, text, back.length) == 0);

    hello_written refused = hello_from_text((const uint8_t *)"hello", 5, message, sizeof message);
    assert(refused.answer == HELLO_TEXT_FORM && refused.length == 0);

    /* However long a number is, it is a number that does not fit. */
    static char large[70000];
    memset(large, '1', sizeof large);
    memcpy(large, "hello ", 6);
    memcpy(large + sizeof large - 9, " 0 0 0 0\n", 9);
    hello_written range =
        hello_from_text((const uint8_t *)large, sizeof large, message, sizeof message);
    assert(range.answer == HELLO_FIELD_RANGE && range.length == 0);
    printf("%.*sA text that is none: %s.\n", (int)back.length, (const char *)written,
           hello_answer_text(refused.answer));
    return 0;
}
