/* How a host runs a session: it lends an image, a batch of records and a buffer for the replies, and keeps the image in a file until the next run.
 * usage: host IMAGE SESSION.rec > replies
 *
 * IMAGE is the file where the image is kept, in records of 128 bytes. If it is not there, the session begins afresh; otherwise it is taken up where the run
 * before left it, so a session file may be cut after any record and its parts be run one after the other. All that a session needs between two runs is that
 * file: the library keeps nothing. Every refusal is said in words, with exit status 1; the image file is then that of the last batch taken.
 *
 *   tools/staticlib.sh stand
 *   cc -std=c99 -o host examples/host.c target/staticlib/libstand.a */
#define PROGRAM "host"
#include "shared.h"
#include <errno.h>

enum { MOST = 512 };

static const char *image_path, *session_path;
static char new_path[FILENAME_MAX];

/* The buffers that are lent, and how many records of the image are used. */
static uint8_t image[STAND_IMAGE_MOST], records[MOST * RECORD], replies[MOST * REPLY];
static uint32_t used;

/* A file of more records than fit is not turned away here: its true number is passed to the library, which refuses it. So the rest is only counted, by way of
 * the record buffer, which is not in use yet. */
static void read_image(void) {
    FILE *f = fopen(image_path, "rb");
    if (!f && errno == ENOENT) return; /* used is 0: the session begins afresh */
    if (!f) stop("cannot open %s", image_path);
    uint64_t len = fread(image, 1, sizeof image, f), more;
    while ((more = fread(records, 1, sizeof records, f)) > 0) len += more;
    if (ferror(f)) stop("cannot read %s", image_path);
    fclose(f);
    if (len % RECORD != 0) stop("%s is no image: it is not whole records of %d bytes", image_path, RECORD);
    /* The used number has 32 bits; beyond them, the largest is as much too large as the true one. */
    used = len / RECORD < UINT32_MAX ? (uint32_t)(len / RECORD) : UINT32_MAX;
}

/* The image file is replaced in one step: whoever opens it finds the image before or the one after, never a half-written one. If the program is ended while it
 * writes the new file, that file is left behind, and the next run writes over it. */
static void keep_image(void) {
    FILE *f = fopen(new_path, "wb");
    if (!f) stop("cannot write %s", new_path);
    size_t written = fwrite(image, RECORD, used, f);
    if (fclose(f) != 0 || written != used) stop("cannot write %s", new_path);
    if (rename(new_path, image_path) != 0) stop("cannot rename %s to %s", new_path, image_path);
}

/* The library's refusals as they are met here: the image buffer always has its size, and the sizes of a batch fit unless its record is cut off. */
static void refused(uint32_t number) {
    if (number == 13) stop("refused by 13: %s holds more than %d records", image_path, STAND_IMAGE_MOST / RECORD);
    if (number == 12) stop("refused by 12: %s holds no image that the monitor accepts", image_path);
    if (number == 11) stop("refused by 11: %s ends in a record that is cut off; those before it were run", session_path);
    stop("refused by %u", (unsigned)number);
}

/* The replies go out before the image is kept. If the program is ended between the two, the image file is still the one before this batch: the batch has to be
 * handed over again and gets the same replies a second time. The other way round, acts would be in the history whose replies nobody saw.
 * The replies do not show whether the last batch is in the image: a host that must know keeps a count of records with the image, replaced in the same step. And
 * one that must outlive a loss of power has each file brought to the disk before it goes on. */
static void run_batch(const uint8_t *batch, size_t len) {
    size_t n = len / RECORD;
    uint64_t answer = stand_run(image, sizeof image, used, batch, len, replies, n * REPLY);
    if (answer >> 32 != 0) refused((uint32_t)(answer >> 32));
    used = (uint32_t)answer;
    if (fwrite(replies, REPLY, n, stdout) != n || fflush(stdout) != 0) stop("cannot write the replies");
    keep_image();
}

/* The next bytes of the session, as many as a batch takes; fewer at its end. */
static size_t read_records(FILE *session) {
    size_t len = fread(records, 1, sizeof records, session);
    if (ferror(session)) stop("cannot read %s", session_path);
    return len;
}

/* The first batch has no records. It tells whether the image is accepted, and whether it can be kept, before any reply goes out; so a session without records
 * says this too. A last record that is cut off is a batch of its own, which the library refuses: the whole records before it are taken all the same. */
static void run_session(FILE *session) {
    size_t len = 0;
    do {
        size_t whole = len - len % RECORD;
        run_batch(records, whole);
        if (whole < len) run_batch(records + whole, len - whole);
    } while ((len = read_records(session)) > 0);
}

int main(int argc, char **argv) {
    if (argc != 3) stop("give an image file and a session file");
    image_path = argv[1], session_path = argv[2];
    int len = snprintf(new_path, sizeof new_path, "%s.new", image_path);
    if (len < 0 || (size_t)len >= sizeof new_path) stop("the name of the image file is too long");
    FILE *session = fopen(session_path, "rb");
    if (!session) stop("cannot open %s", session_path);
    read_image();
    run_session(session);
    fclose(session);
    return 0;
}
