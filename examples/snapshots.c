/* How to keep the monitor as an image and to go back to it: a sheet as people write it, with places to return to.
 * usage: snapshots SHEET > answers
 *
 * A line of the sheet is `keep`, which keeps the monitor as an image, or `restore N`, which goes back to the N-th image kept so far (N from 1); any other line
 * is a record, as `Lrole lamp under top` or `Euv`, and is padded to 128 bytes here. Each line gets a line of answer: a record its reply; `keep` the words
 * `records kept: N`, with the N records of the image below; `restore N` the word `restored`. A record on a last line without a newline is handed over as it
 * stands, as one that was cut off.
 *
 *   tools/staticlib.sh stand
 *   cc -std=c99 -o snapshots examples/snapshots.c target/staticlib/libstand.a */
#define PROGRAM "snapshots"
#include "operations.h"

/* Going back to the image of that number, in digits. The library keeps nothing between calls: the image stands among the replies once the operations so far
 * have been run. So they are run again for each such line, which is quick for a sheet; a host that stores its images would hand over the bytes that it has. */
static void add_restore(struct operations *o, const char *number) {
    run(o);
    const uint8_t *part = o->replies;
    unsigned long wanted = strtoul(number, NULL, 10), kept = 0;
    for (size_t k = 0; k < o->count; k++) {
        if (o->kinds[k] == STAND_KEEP && ++kept == wanted) {
            add(o, STAND_RESTORE, part, o->counts[k] * RECORD, 0);
            return;
        }
        part += o->sizes[k];
    }
    stop("line %zu: no image %s was kept before it", o->count + 1, number);
}

static void add_record(struct operations *o, const uint8_t *line, size_t len, int newline) {
    uint8_t record[RECORD];
    memset(record, ' ', RECORD);
    memcpy(record, line, len);
    record[RECORD - 1] = '\n';
    add(o, STAND_CALL, record, newline ? RECORD : len, REPLY);
}

/* One line of the sheet, and whether a newline ends it. */
static void add_line(struct operations *o, const uint8_t *line, size_t len, int newline) {
    char text[RECORD] = {0};
    if (len >= RECORD) stop("line %zu has more than 127 bytes", o->count + 1);
    memcpy(text, line, len);
    if (len == 4 && strcmp(text, "keep") == 0)
        add(o, STAND_KEEP, line, 0, STAND_IMAGE_MOST);
    else if (len > 8 && strncmp(text, "restore ", 8) == 0 && strspn(text + 8, "0123456789") == len - 8)
        add_restore(o, text + 8);
    else
        add_record(o, line, len, newline);
}

/* The lines of a sheet, an operation each. */
static struct operations operations_of(const uint8_t *sheet, size_t len) {
    struct operations o = none();
    for (size_t at = 0, n; at < len; at += n + 1) {
        const uint8_t *newline = memchr(sheet + at, '\n', len - at);
        n = newline ? (size_t)(newline - (sheet + at)) : len - at;
        add_line(&o, sheet + at, n, newline != NULL);
    }
    return o;
}

/* What each operation answered. No refusal by 12 or 13 is met here: each image was kept in this session, into a buffer that is never too short. */
static void show(const struct operations *o) {
    const uint8_t *part = o->replies;
    for (size_t k = 0; k < o->count; k++) {
        if (o->kinds[k] == STAND_CALL) {
            fwrite(part, REPLY, 1, stdout);
        } else if (o->numbers[k] != 0) {
            printf("refused by %u\n", (unsigned)o->numbers[k]);
        } else if (o->kinds[k] == STAND_RESTORE) {
            printf("restored\n");
        } else {
            printf("records kept: %u\n", (unsigned)o->counts[k]);
            fwrite(part, RECORD, o->counts[k], stdout);
        }
        part += o->sizes[k];
    }
    if (fflush(stdout) != 0 || ferror(stdout)) stop("cannot write the answers");
}

int main(int argc, char **argv) {
    if (argc != 2) stop("give a sheet");
    size_t len;
    uint8_t *sheet = read_file(argv[1], &len);
    struct operations o = operations_of(sheet, len);
    run(&o);
    show(&o);
    free(sheet);
    drop(&o);
    return 0;
}
