/* What the examples over stand_operations share: a session put together operation by operation and run by the library, and the bytes of a file. */
#include "shared.h"
#include <string.h>

static void *room(void *had, size_t count, size_t each) {
    void *got = count <= SIZE_MAX / each ? realloc(had, count * each) : NULL;
    if (!got) stop("out of memory");
    return got;
}

/* The bytes of a file; how many goes to *len. */
static uint8_t *read_file(const char *path, size_t *len) {
    FILE *f = fopen(path, "rb");
    if (!f) stop("cannot open %s", path);
    size_t have = 1 << 16, n = 0, got;
    uint8_t *bytes = room(NULL, have, 1);
    while ((got = fread(bytes + n, 1, have - n, f)) > 0) {
        n += got;
        if (n == have) bytes = room(bytes, have *= 2, 1);
    }
    if (ferror(f)) stop("cannot read %s", path);
    fclose(f);
    *len = n;
    return bytes;
}

/* The operations of a session: what each takes of the record bytes, what it is lent of the reply bytes, and, after a run, its number and its count. */
struct operations {
    size_t count, records_len, replies_len;
    uint8_t *kinds, *records, *replies, *numbers;
    uint32_t *lengths, *sizes, *counts;
};

/* Room for one operation more, with that many record bytes. */
static void grow(struct operations *o, size_t length) {
    size_t n = o->count + 1;
    o->kinds = room(o->kinds, n, 1);
    o->numbers = room(o->numbers, n, 1);
    o->lengths = room(o->lengths, n, sizeof *o->lengths);
    o->sizes = room(o->sizes, n, sizeof *o->sizes);
    o->counts = room(o->counts, n, sizeof *o->counts);
    o->records = room(o->records, o->records_len + length + 1, 1);
}

/* No operations yet. There is room all the same: the library takes no null pointer, even with a length of 0. */
static struct operations none(void) {
    struct operations o = {0};
    grow(&o, 0);
    return o;
}

static void add(struct operations *o, uint8_t kind, const uint8_t *bytes, size_t length, size_t size) {
    grow(o, length);
    memcpy(o->records + o->records_len, bytes, length);
    o->kinds[o->count] = kind;
    o->lengths[o->count] = (uint32_t)length;
    o->sizes[o->count] = (uint32_t)size;
    o->count++;
    o->records_len += length;
    o->replies_len += size;
}

/* The operations in turn, from a fresh monitor. 11 would mean that the counts or sums do not fit; add() makes them fit. */
static void run(struct operations *o) {
    o->replies = room(o->replies, o->replies_len + 1, 1);
    uint32_t answer = stand_operations(o->kinds, o->count, o->records, o->records_len, o->lengths, o->count, o->replies, o->replies_len,
                                       o->sizes, o->count, o->numbers, o->count, o->counts, o->count);
    if (answer != 0) stop("the operations do not fit");
}

static void drop(struct operations *o) {
    free(o->kinds), free(o->records), free(o->replies), free(o->numbers), free(o->lengths), free(o->sizes), free(o->counts);
}
