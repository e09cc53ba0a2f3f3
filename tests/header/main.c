/* The C header against the library: the session that document 01 prints, by single calls, in a batch and in rounds with an image between them, the judge over
 * its sheet, images of that session kept and restored, and sizes that do not fit. This file is C and C++ at once, as the header is.
 * usage: header SESSION.rec REPLIES   (the records, and the replies that they must get) */
#include "../../include/stand.h"
#include <stdio.h>
#include <stdlib.h>
#include <string.h>

enum { RECORD = 128, REPLY = 50, MOST = 256, ROOM = MOST * RECORD };

static uint8_t records[ROOM], replies[ROOM], stored[ROOM], numbers[MOST];
static uint32_t lengths[MOST], sizes[MOST], counts[MOST];

static size_t read_file(const char *path, uint8_t *to, size_t room) {
    FILE *f = fopen(path, "rb");
    size_t n = f ? fread(to, 1, room, f) : 0;
    if (f) fclose(f);
    return n;
}

static int fails(const char *what) {
    printf("header: %s\n", what);
    return 1;
}

/* A text in `size` bytes, as a record or a reply: spaces after it, a newline last. */
static void pad(uint8_t *to, size_t size, const char *text) {
    memset(to, ' ', size);
    memcpy(to, text, strlen(text));
    to[size - 1] = '\n';
}

/* What is lent to be written to, filled with a byte that no call writes. */
static void lend(void) {
    memset(replies, '?', sizeof replies);
    memset(numbers, '?', sizeof numbers);
    memset(counts, '?', sizeof counts);
}

/* Whether these bytes are as lent. */
static int as_lent(const void *at, size_t len) {
    const uint8_t *bytes = (const uint8_t *)at;
    for (size_t i = 0; i < len; i++)
        if (bytes[i] != '?') return 0;
    return 1;
}

static int untouched(void) {
    return as_lent(replies, sizeof replies) && as_lent(numbers, sizeof numbers) && as_lent(counts, sizeof counts);
}

/* The n records, a call each. */
static int session(size_t n) {
    for (size_t k = 0; k < n; k++) lengths[k] = RECORD, sizes[k] = REPLY;
    lend();
    if (stand_session(records, n * RECORD, lengths, n, replies, n * REPLY, sizes, n - 1, numbers, n) != 11) return fails("counts that differ are 11");
    if (!untouched()) return fails("nothing is written then");
    if (stand_session(records, n * RECORD, lengths, n, replies, n * REPLY, sizes, n, numbers, n) != 0) return fails("the session is taken");
    if (memcmp(replies, stored, n * REPLY) != 0) return fails("the replies are those stored");
    return 0;
}

/* One operation of kind `kind` with that many bytes, and what the whole answers. */
static uint32_t one(uint8_t kind, size_t records_len, size_t replies_len) {
    uint32_t length = (uint32_t)records_len, size = (uint32_t)replies_len;
    lend();
    return stand_operations(&kind, 1, records, records_len, &length, 1, replies, replies_len, &size, 1, numbers, 1, counts, 1);
}

/* The n records in a batch. */
static int batch(size_t n) {
    if (one(4, n * RECORD, n * REPLY) != 11) return fails("a kind of 4 is 11");
    if (!untouched()) return fails("nothing is written then");
    if (one(STAND_BATCH, n * RECORD, n * REPLY) != 0 || numbers[0] != 0) return fails("the batch is taken");
    if (memcmp(replies, stored, n * REPLY) != 0) return fails("its replies are those stored");
    if (counts[0] != 0) return fails("its count is 0");
    if (one(STAND_BATCH, n * RECORD, n * REPLY + 1) != 0 || numbers[0] != 11) return fails("a batch with a reply byte too many is 11");
    if (!as_lent(replies, sizeof replies)) return fails("its part is as lent");
    if (one(STAND_BATCH, n * RECORD - 1, n * REPLY) != 0 || numbers[0] != 11) return fails("a batch with a record byte too few is 11");
    if (!as_lent(replies, sizeof replies)) return fails("its part is as lent");
    if (one(STAND_BATCH, 0, 0) != 0 || numbers[0] != 0) return fails("a batch of no records is taken");
    if (one(STAND_CALL, RECORD - 1, REPLY) != 0 || numbers[0] != 2) return fails("a short record in a single call is 2");
    return 0;
}

/* The n records as the judge's sheet. */
static int judge(size_t n) {
    uint8_t list[2 * RECORD];
    pad(list, RECORD, "Elamp");
    pad(list + RECORD, RECORD, "Euv");
    if (stand_judge(records, n * RECORD, 0, list, sizeof list) != 1) return fails("lamp, uv match any*<uv>");
    if (stand_judge(records, n * RECORD, 0, list, RECORD) != 0) return fails("lamp does not");
    if (stand_judge(records, n * RECORD, 1, list, RECORD) != 9ull << 32) return fails("no rule 1: 9");
    if (stand_judge(records, n * RECORD, 0, list, 129) != 10ull << 32) return fails("129 bytes: 10");
    if (stand_judge(records, 1, 0, list, RECORD) != 11ull << 32) return fails("a sheet of one byte: 11");
    return 0;
}

/* A list of operations with what they must give: the replies whole, with every byte that stays as lent, the numbers and the counts. */
static struct {
    size_t count, records_len, replies_len;
    uint8_t kinds[MOST], numbers[MOST], records[ROOM], replies[ROOM];
    uint32_t lengths[MOST], sizes[MOST], counts[MOST];
} list;

/* One operation more: it takes `length` bytes, is lent `size` bytes and must write the first `written` of them, as in `front`. */
static void add(uint8_t kind, const uint8_t *bytes, size_t length, size_t size, const uint8_t *front, size_t written, int number) {
    size_t k = list.count++;
    memcpy(list.records + list.records_len, bytes, length);
    memset(list.replies + list.replies_len, '?', size);
    memcpy(list.replies + list.replies_len, front, written);
    list.records_len += length, list.replies_len += size;
    list.kinds[k] = kind, list.numbers[k] = (uint8_t)number;
    list.lengths[k] = (uint32_t)length, list.sizes[k] = (uint32_t)size;
    list.counts[k] = kind == STAND_KEEP ? (uint32_t)(written / RECORD) : 0;
}

static void call(const char *record_text, const char *reply_text) {
    uint8_t record[RECORD], reply[REPLY];
    pad(record, RECORD, record_text);
    pad(reply, REPLY, reply_text);
    add(STAND_CALL, record, RECORD, REPLY, reply, REPLY, reply_text[0] == 'R' ? atoi(reply_text + 2) : 0);
}

/* Keeping into `size` bytes; three record bytes go with it, at which it does not look. */
static void keep(size_t size, const uint8_t *image, size_t written, int number) {
    add(STAND_KEEP, (const uint8_t *)"E\n?", 3, size, image, written, number);
}

/* Restoring; seven reply bytes go with it, which it leaves. */
static void restore(const uint8_t *image, size_t length, int number) {
    add(STAND_RESTORE, image, length, 7, image, 0, number);
}

/* The list as it stands, with that many counts. */
static uint32_t run(size_t counts_count) {
    size_t n = list.count;
    lend();
    return stand_operations(list.kinds, n, list.records, list.records_len, list.lengths, n, replies, list.replies_len, list.sizes, n, numbers, n,
                            counts, counts_count);
}

enum { IMAGE = 5 * RECORD, MARKS = 4 * RECORD };

/* The image of document 01's session after its first act, as document 02 writes it: of the past any*<uv> the marks 1 and 2 are set. */
static void image_after_uv(uint8_t *image) {
    pad(image, RECORD, "Lrole lamp under top");
    pad(image + RECORD, RECORD, "Lrole uv under lamp");
    pad(image + 2 * RECORD, RECORD, "Lrole expose under top");
    pad(image + 3 * RECORD, RECORD, "Lrule a:any*<uv>;<expose>;hold");
    pad(image + MARKS, RECORD, "Ma        0000000000000006");
}

/* That session up to its first act. */
static void list_to_uv(void) {
    call("Lrole lamp under top", "D 00 lamp");
    call("Lrole uv under lamp", "D 00 uv");
    call("Lrole expose under top", "D 00 expose");
    call("Lrule a: any*<uv>; <expose>; hold", "D 00 a");
    call("Euv", "C 00 -        uv");
}

/* Restoring the image of that session with another record of marks. */
static void restore_marks(const char *marks, int number) {
    uint8_t changed[IMAGE];
    image_after_uv(changed);
    pad(changed + MARKS, RECORD, marks);
    restore(changed, IMAGE, number);
}

/* Eight digits are read too: the same image, and it is kept with sixteen. No other number of digits is, nor are small letters, or a mark that the past does
 * not have; refused, the monitor is as it was. */
static void list_marks(const uint8_t *image) {
    restore_marks("Ma        00000001", 0); /* mark 0: no act yet */
    call("Eexpose", "C 00 -        expose");
    restore_marks("Ma        00000006", 0);
    call("Eexpose", "H 01 a");
    keep(IMAGE, image, IMAGE, 0);
    static const char *const refused[] = {"Ma        0000006",           "Ma        000000006",          "Ma        000000000000006", "Ma        00000000000000006",
                                          "Ma        00000000 0000006",  "Ma        00000006 00000000",  "Ma        0000000000000008", "Ma        00000008",
                                          "Ma        0000000100000006",  "Ma        8000000000000006",   "Ma        000000000000000a", "Ma        0000000e",
                                          "Ma       0000000000000006",   "Ma        0x00000000000006",   "Ma        ",                 "Mb        00000006"};
    for (size_t k = 0; k < sizeof refused / sizeof *refused; k++) restore_marks(refused[k], 12);
    call("Eexpose", "H 01 a");
}

static void list_images(void) {
    uint8_t image[IMAGE];
    image_after_uv(image);
    keep(0, image, 0, 0); /* a fresh monitor has an image of no records */
    list_to_uv();
    keep(IMAGE + 60, image, IMAGE, 0);
    keep(IMAGE, image, IMAGE, 0);
    keep(IMAGE - 1, image, 0, 13);
    call("Elamp", "C 00 -        lamp");
    call("Lrole dark under lamp", "D 00 dark");
    call("Eexpose", "C 00 -        expose");

    restore(image, IMAGE, 0);
    call("Eexpose", "H 01 a");
    call("Edark", "R 06 -");
    keep(IMAGE, image, IMAGE, 0);

    /* Refused, the monitor is as it was: the last act is lamp, and `a` does not hold. */
    call("Elamp", "C 00 -        lamp");
    restore_marks("Ma        0000000000000008", 12); /* mark 3, which the past does not have */
    restore(image, IMAGE - 1, 12);
    restore(image, IMAGE - RECORD, 12);
    call("Eexpose", "C 00 -        expose");
    list_marks(image);

    restore(image, 0, 0); /* the fresh monitor */
    call("Euv", "R 06 -");
}

static int images(void) {
    list_images();
    if (run(list.count - 1) != 11 || !untouched()) return fails("counts of another number are 11, and nothing is written");
    list.kinds[list.count - 1] = 4;
    if (run(list.count) != 11 || !untouched()) return fails("a kind of 4 after the others is 11, and nothing is written");
    list.kinds[list.count - 1] = STAND_CALL;
    if (run(list.count) != 0) return fails("the list with images is taken");
    if (memcmp(numbers, list.numbers, list.count) != 0) return fails("its numbers are 0, but 13, 12 and 6 where they must be");
    if (memcmp(counts, list.counts, list.count * sizeof *counts) != 0) return fails("its counts are the records that keeping wrote");
    if (memcmp(replies, list.replies, list.replies_len) != 0) return fails("its replies and images are as expected, and the rest as lent");
    if (!as_lent(replies + list.replies_len, sizeof replies - list.replies_len)) return fails("nothing is written past the parts");
    return 0;
}

/* What stand_run is lent: a byte more than the image that it takes, and a record and a reply more than the batch. */
enum { BATCH = 512 };
static uint8_t image[STAND_IMAGE_MOST + 1], acts[(BATCH + 1) * RECORD], answers[(BATCH + 1) * REPLY];

/* Whether the image is what keeping writes after the first n records, and of `used` records; past them it must be '?', as lent. */
static int is_image_after(size_t n, uint32_t used) {
    static uint8_t kept[MOST * REPLY + STAND_IMAGE_MOST];
    const uint8_t kinds[] = {STAND_BATCH, STAND_KEEP};
    const uint32_t taken_by[] = {(uint32_t)(n * RECORD), 0}, lent_to[] = {(uint32_t)(n * REPLY), STAND_IMAGE_MOST};
    memset(kept, '?', sizeof kept);
    stand_operations(kinds, 2, records, n * RECORD, taken_by, 2, kept, n * REPLY + STAND_IMAGE_MOST, lent_to, 2, numbers, 2, counts, 2);
    return counts[1] == used && memcmp(image, kept + n * REPLY, STAND_IMAGE_MOST) == 0;
}

/* The n records in rounds of so many, with nothing but the image and its used number from one call to the next. */
static int rounds(size_t n, size_t round) {
    uint32_t used = 0;
    memset(image, '?', sizeof image);
    memset(answers, '?', sizeof answers);
    for (size_t at = 0, m; at < n; at += m) {
        m = n - at < round ? n - at : round;
        uint64_t answer = stand_run(image, STAND_IMAGE_MOST, used, records + at * RECORD, m * RECORD, answers + at * REPLY, m * REPLY);
        if (answer >> 32 != 0) return fails("each round is taken");
        used = (uint32_t)answer;
        if (!is_image_after(at + m, used)) return fails("each round leaves the image that keeping writes, and the rest as lent");
    }
    if (memcmp(answers, stored, n * REPLY) != 0) return fails("the replies of the rounds are those stored");
    if (!as_lent(answers + n * REPLY, sizeof answers - n * REPLY)) return fails("nothing is written past the replies of the rounds");
    return 0;
}

/* Lends the image, the first n records of `acts` and room for their replies; the call must be taken and hand back this used number. */
static int taken(uint32_t used, size_t n, uint32_t used_after) {
    memset(answers, '?', sizeof answers);
    return stand_run(image, STAND_IMAGE_MOST, used, acts, n * RECORD, answers, n * REPLY) == used_after;
}

/* Whether the first n replies are this text, and the rest is as lent. */
static int answer_all(size_t n, const char *text) {
    uint8_t reply[REPLY];
    pad(reply, REPLY, text);
    for (size_t k = 0; k < n; k++)
        if (memcmp(answers + k * REPLY, reply, REPLY) != 0) return 0;
    return as_lent(answers + n * REPLY, sizeof answers - n * REPLY);
}

/* Images that no call wrote, before other records that are not used. */
static int given_images(void) {
    static uint8_t expected[sizeof image];
    memset(expected, '!', sizeof expected);
    image_after_uv(expected);
    memcpy(image, expected, sizeof image);
    pad(acts, RECORD, "Euv");
    if (!taken(0, 1, 0) || !answer_all(1, "R 06 -")) return fails("with used 0 the session begins afresh, whatever stands in the image");
    if (memcmp(image, expected, sizeof image) != 0) return fails("an image of no records leaves every byte");
    pad(image, RECORD, "L  role lamp  under top");
    if (!taken(5, 0, 5) || !answer_all(0, "")) return fails("a batch of no records is taken");
    if (memcmp(image, expected, sizeof image) != 0) return fails("lines are kept with single spaces, and the rest as lent");
    pad(image + MARKS, RECORD, "Ma        00000006");
    if (!taken(5, 0, 5)) return fails("an image with eight digits is taken");
    if (memcmp(image, expected, sizeof image) != 0) return fails("marks are kept in sixteen digits");
    for (size_t k = 0; k < BATCH; k++) pad(acts + k * RECORD, RECORD, "Eexpose");
    if (!taken(5, BATCH, 5) || !answer_all(BATCH, "H 01 a")) return fails("512 records are taken, and the marks hold each of them");
    if (memcmp(image, expected, sizeof image) != 0) return fails("held acts leave the image");
    return 0;
}

/* The fullest monitor: its image fills the buffer. */
static int full_image(void) {
    static uint8_t before[sizeof image];
    char text[RECORD];
    for (int k = 0; k < 63; k++) sprintf(text, "Lrole r%d under top", k), pad(acts + k * RECORD, RECORD, text);
    for (int k = 0; k < 32; k++) sprintf(text, "Lrule a%d:any*<r%d>;any;pass", k, k), pad(acts + (63 + k) * RECORD, RECORD, text);
    memset(image, '?', sizeof image);
    if (!taken(0, 63 + 32, 127) || image[STAND_IMAGE_MOST] != '?') return fails("63 roles and 32 rules make 127 records");
    memcpy(before, image, sizeof image);
    pad(acts, RECORD, "Lrole more under top");
    if (!taken(127, 1, 127) || !answer_all(1, "R 08 -")) return fails("an image of 127 records is taken, and the table is full");
    if (memcmp(image, before, sizeof image) != 0) return fails("a record that is refused leaves the image");
    pad(acts, RECORD, "Er31");
    if (!taken(127, 1, 127) || !answer_all(1, "C 00 -        r31")) return fails("an act is committed over 127 records");
    if (memcmp(image, before, sizeof image) == 0) return fails("an act moves the marks");
    return 0;
}

/* A round of n acts of no roles over the image of long_past: each is committed, or else held; and the record of marks that it leaves. */
static int round_of(size_t n, const char *reply, const char *marks) {
    uint8_t record[RECORD];
    for (size_t k = 0; k < n; k++) pad(acts + k * RECORD, RECORD, "E");
    pad(record, RECORD, marks);
    return taken(2, n, 2) && answer_all(n, reply) && memcmp(image + RECORD, record, RECORD) == 0;
}

/* A past of 55 patterns, the most that a line holds: its marks from 32 on stand in the image, and go from round to round. */
static int long_past(void) {
    char line[RECORD] = "Lrule a:";
    for (int k = 0; k < 55; k++) strcat(line, "<>");
    pad(acts, RECORD, strcat(line, ";<>;hold"));
    if (!taken(0, 1, 2) || !answer_all(1, "D 00 a")) return fails("a past of 55 patterns is taken");
    if (!round_of(31, "C 00 -", "Ma        0000000080000000")) return fails("31 acts set mark 31");
    if (!round_of(1, "C 00 -", "Ma        0000000100000000")) return fails("an act more sets mark 32");
    if (!round_of(0, "", "Ma        0000000100000000")) return fails("mark 32 stays over a round of no acts");
    if (!round_of(23, "C 00 -", "Ma        0080000000000000")) return fails("23 acts more set mark 55, the last");
    if (!round_of(2, "H 01 a", "Ma        0080000000000000")) return fails("the past matches by mark 55, and the rule holds");
    pad(image + RECORD, RECORD, "Ma        80000000");
    if (!round_of(24, "C 00 -", "Ma        0080000000000000")) return fails("from mark 31 in eight digits, 24 acts set mark 55");
    if (!round_of(1, "H 01 a", "Ma        0080000000000000")) return fails("it holds as before");
    return 0;
}

/* Whether the call is refused by this number, with the used number as passed and every byte as it was. */
static int refuses(uint32_t number, size_t image_len, uint32_t used, size_t records_len, size_t replies_len) {
    static uint8_t image_was[sizeof image], acts_were[sizeof acts];
    memcpy(image_was, image, sizeof image);
    memcpy(acts_were, acts, sizeof acts);
    memset(answers, '?', sizeof answers);
    uint64_t answer = stand_run(image, image_len, used, acts, records_len, answers, replies_len);
    return answer == ((uint64_t)number << 32) + used && memcmp(image, image_was, sizeof image) == 0 &&
           memcmp(acts, acts_were, sizeof acts) == 0 && as_lent(answers, sizeof answers);
}

/* Over an image of five records with others past them: used 5 is accepted; 4 leaves out the record of marks, 6 takes one too many. The batch begins with a line
 * that a fresh monitor takes, so that a run after a refusal would leave another image. */
static int refusals(void) {
    enum { SIZE = STAND_IMAGE_MOST, REC = RECORD, REP = REPLY };
    for (size_t k = 0; k < BATCH + 1; k++) pad(acts + k * RECORD, RECORD, "Euv");
    pad(acts, RECORD, "Lrole dark under top");
    memcpy(image, acts, sizeof image);
    image_after_uv(image);
    if (!refuses(13, SIZE - 1, 5, REC, REP) || !refuses(13, SIZE + 1, 5, REC, REP) || !refuses(13, 5 * REC, 5, REC, REP) || !refuses(13, 0, 0, 0, 0))
        return fails("an image buffer of another size is 13, and all is as lent");
    if (!refuses(13, SIZE, 128, REC, REP) || !refuses(13, SIZE, UINT32_MAX, REC, REP) || !refuses(13, SIZE, 1u << 25, REC, REP))
        return fails("a used number above 127 is 13, and all is as lent");
    if (!refuses(12, SIZE, 4, REC, REP) || !refuses(12, SIZE, 6, REC, REP) || !refuses(12, SIZE, 127, REC, REP) || !refuses(12, SIZE, 4, 0, 0))
        return fails("an image that is not accepted is 12, and all is as lent");
    if (!refuses(11, SIZE, 5, REC - 1, REP) || !refuses(11, SIZE, 5, REC + 1, REP) || !refuses(11, SIZE, 0, 1, 0) ||
        !refuses(11, SIZE, 5, (BATCH + 1) * REC, (BATCH + 1) * REP))
        return fails("records that are not whole, or over 512, are 11, and all is as lent");
    if (!refuses(11, SIZE, 5, REC, REP - 1) || !refuses(11, SIZE, 5, REC, REP + 1) || !refuses(11, SIZE, 0, REC, 0) || !refuses(11, SIZE, 5, 0, REP))
        return fails("replies of another size are 11, and all is as lent");
    if (!refuses(13, SIZE - 1, 4, REC - 1, REP) || !refuses(13, SIZE, 128, REC - 1, REP) || !refuses(13, SIZE + 1, 5, REC, REP + 1))
        return fails("13 is looked at before 12 and 11");
    if (!refuses(12, SIZE, 4, REC - 1, REP) || !refuses(12, SIZE, 6, REC, REP + 1) || !refuses(12, SIZE, 4, (BATCH + 1) * REC, (BATCH + 1) * REP))
        return fails("12 is looked at before 11");
    pad(image + MARKS, RECORD, "Ma        0000000100000006");
    if (!refuses(12, SIZE, 5, REC, REP)) return fails("a mark that the past does not have is 12, also from 32 on");
    pad(image + MARKS, RECORD, "Ma        000000006");
    if (!refuses(12, SIZE, 5, REC, REP)) return fails("nine digits are 12");
    image_after_uv(image);
    if (!taken(5, 1, 6) || !answer_all(1, "D 00 dark")) return fails("after all refusals the image is taken");
    return 0;
}

int main(int argc, char **argv) {
    if (argc != 3) return fails("give the records and the replies");
    size_t n = read_file(argv[1], records, sizeof records) / RECORD;
    size_t m = read_file(argv[2], stored, sizeof stored) / REPLY;
    if (n == 0 || n != m) return fails("as many replies as records, please");
    if (session(n) || batch(n) || judge(n) || images()) return 1;
    for (size_t round = 1; round <= n; round++)
        if (rounds(n, round)) return 1;
    if (given_images() || full_image() || long_past() || refusals()) return 1;
    printf("header: %zu replies by single calls, in a batch and in rounds, 5 questions to the judge, images kept and restored in %zu operations and by "
           "stand_run, no difference\n", n, list.count);
    return 0;
}
