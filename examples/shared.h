/* What all examples share: the library's header, the sizes of a record and of a reply, and stopping with words. PROGRAM is the program's name. */
#include "../include/stand.h"
#include <stdarg.h>
#include <stdio.h>
#include <stdlib.h>

enum { RECORD = 128, REPLY = 50 };

static void stop(const char *format, ...) {
    va_list words;
    va_start(words, format);
    fprintf(stderr, "%s: ", PROGRAM);
    vfprintf(stderr, format, words);
    fprintf(stderr, "\n");
    va_end(words);
    exit(1);
}
