/* The version of the library, that of the header it was built with. */
#include "hello.h"

const char *hello_version(void) { return HELLO_VERSION; }
