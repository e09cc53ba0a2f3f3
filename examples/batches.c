/* How to hand a session file to the library in batches.
 * usage: batches SESSION.rec > replies
 *
 * The file has records of 128 bytes; each gets a reply of 50 bytes. If its last record is too short, it is handed over as a single call: a batch takes whole
 * records only, while a single call answers any record, that one with R 02.
 *
 *   tools/staticlib.sh stand
 *   cc -std=c99 -o batches examples/batches.c target/staticlib/libstand.a */
#define PROGRAM "batches"
#include "operations.h"

enum { MOST = 512 };

/* Batches of 512 records, then one of the rest, then what is no whole record as a single call. */
static struct operations cut(const uint8_t *records, size_t len) {
    struct operations o = none();
    size_t at = 0;
    while (len - at >= RECORD) {
        size_t left = (len - at) / RECORD, n = left < MOST ? left : MOST;
        add(&o, STAND_BATCH, records + at, n * RECORD, n * REPLY);
        at += n * RECORD;
    }
    if (at < len) add(&o, STAND_CALL, records + at, len - at, REPLY);
    return o;
}

int main(int argc, char **argv) {
    if (argc != 2) stop("give a session file");
    size_t len;
    uint8_t *records = read_file(argv[1], &len);
    struct operations o = cut(records, len);
    /* The numbers are not looked at: every batch here is taken, and a refused record says so in its reply. */
    run(&o);
    if (fwrite(o.replies, 1, o.replies_len, stdout) != o.replies_len || fflush(stdout) != 0) stop("cannot write the replies");
    free(records);
    drop(&o);
    return 0;
}
