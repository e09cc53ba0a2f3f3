/* The stand monitor for other languages: `tools/staticlib.sh stand` writes target/staticlib/libstand.a, for x86-64 Linux.
 *
 * Every call takes any bytes of any length and keeps nothing between calls. Buffers must not overlap; a pointer with length 0 may be any aligned
 * address that is not null. */
#ifndef STAND_H
#define STAND_H

#include <stddef.h>
#include <stdint.h>

#ifdef __cplusplus
extern "C" {
#endif

/* An image is the monitor written out in records of 128 bytes: the role lines in declared order without top, the rule lines in declared order, then for each
 * rule a record of its marks, 0 to 63, as sixteen capital hexadecimal digits. It has at most 63 + 32 + 32 records; so a buffer of this many bytes is never too short
 * to keep into. In an image that is handed over, a record of marks may also have eight digits, of marks 0 to 31; the higher ones are then clear. */
enum { STAND_IMAGE_MOST = 16256 };

/* The call for a host that knows only numbers and byte buffers. It lends an image, a batch of records and a buffer for the replies; the image is rewritten for
 * the monitor afterwards. What comes out is what restoring the first `used` records of `image`, running the batch and keeping into `image` would give: the
 * reply to record k stands in the 50 bytes of `replies` from 50 * k, the records of the new image stand at the front of `image`, and the image bytes past them
 * stay as they were. A session begins with used 0 and any bytes in `image`; each later call passes the image and the used number that the one before left.
 * The number is 0, whatever the replies say, and the used number is that of the new image. Or the call is refused: the three buffers stay as lent, the used
 * number is handed back as it was passed, and the number is the first of these that applies:
 *   13  image_len is not STAND_IMAGE_MOST, or used is above 127, the records that it has room for;
 *   12  the used records are no image that is accepted, for the reasons that STAND_RESTORE gives below;
 *   11  the record bytes are not whole records, are over 512 of them, or the reply bytes are not 50 for each. */
/* (number << 32) + used */
uint64_t stand_run(uint8_t *image, size_t image_len, uint32_t used,
                   const uint8_t *records, size_t records_len,
                   uint8_t *replies, size_t replies_len);

/* A whole session from a fresh monitor. Call k has the next lengths[k] bytes of `records` as its record and the next sizes[k] bytes of `replies` as its
 * reply buffer; its number (0 when taken, else the refusal's) goes to numbers[k].
 * Returns 0; or 11, with nothing written, where the three counts differ, or the lengths do not add up to records_len, or the sizes to replies_len. */
uint32_t stand_session(const uint8_t *records, size_t records_len,
                       const uint32_t *lengths, size_t lengths_count,
                       uint8_t *replies, size_t replies_len,
                       const uint32_t *sizes, size_t sizes_count,
                       uint8_t *numbers, size_t numbers_count);

/* The kinds of operations. */
enum { STAND_CALL = 0, STAND_BATCH = 1, STAND_KEEP = 2, STAND_RESTORE = 3 };

/* A session of operations from a fresh monitor, each on the monitor that the one before left. Operation k has the next lengths[k] bytes of `records` and
 * the next sizes[k] bytes of `replies`; its number goes to numbers[k], and how many records keeping wrote to counts[k] (0 for the other kinds and for keeping
 * that is refused). By kinds[k] it is
 *   STAND_CALL     a single call: one record and its reply buffer, of any sizes; the number is 0 when taken, else the refusal's;
 *   STAND_BATCH    a batch: n records of 128 bytes, n from 0 to 512, and 50 bytes for each reply; the number is 0, whatever the replies say; or 11, with
 *                  its part of `replies` as lent, where the record bytes are not whole records, are over 512 of them, or the reply bytes are not 50 for each;
 *   STAND_KEEP     keeping: the image of the monitor is written to the front of its part of `replies`, the rest of that part stays as lent, and the number is
 *                  0; or 13, with its part as lent, where that is too short. The monitor stays as it is. Its part of `records` is not looked at;
 *   STAND_RESTORE  restoring: its part of `records` is an image, the monitor becomes the one written there, and the number is 0; or 12, with the monitor as
 *                  it was, where the bytes are not whole records, a fresh monitor would refuse one of the lines, the records are of another order or form
 *                  (spaces within lines may differ), or those of marks do not name each rule once in order with marks that its past has. Its part of
 *                  `replies` stays as lent.
 * Returns 0; or 11, with nothing written, where the five counts differ, a kind is another, or the lengths do not add up to records_len, or the sizes to
 * replies_len. */
uint32_t stand_operations(const uint8_t *kinds, size_t kinds_count,
                          const uint8_t *records, size_t records_len,
                          const uint32_t *lengths, size_t lengths_count,
                          uint8_t *replies, size_t replies_len,
                          const uint32_t *sizes, size_t sizes_count,
                          uint8_t *numbers, size_t numbers_count,
                          uint32_t *counts, size_t counts_count);

/* The judge: whether the acts of `records` (whole records of 128 bytes, at most 256) match the past of rule `number` (0 is the first) of the monitor that a
 * sheet leaves. The sheet is whole records, handed to a fresh monitor in turn, their replies dropped.
 * Returns 1 for yes, 0 for no; else a refusal's number times 4,294,967,296: 11 where the sheet is not whole records, then 9, 10, 3, 4 or 6. */
uint64_t stand_judge(const uint8_t *sheet, size_t sheet_len, uint32_t number,
                     const uint8_t *records, size_t records_len);

#ifdef __cplusplus
}
#endif

#endif
