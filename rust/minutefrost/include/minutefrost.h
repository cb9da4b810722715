/*
 * The host calls of Minutefrost, in the static archive libhost.a.
 *
 * An image is what a kiosk keeps on its card: key count (2 bytes), keys (8
 * each, rising), pending count (2 bytes), pending claims (26 each, rising by
 * cnt, then lo, hi, sum). A frame is what kiosks send: hex 4C 43, version 1,
 * n from 1 to 4, n claims of 26 bytes (lo 8, hi 8, sum 8, cnt 2). Numbers are
 * unsigned, high byte first. A sheet is what staff pin up: the keys as text.
 * One call is for planners and takes a number alone.
 *
 * Each buffer is a pointer and then a length. The pointers are not null, even
 * if the length is 0, and what is written overlaps nothing else. The calls
 * read and write nothing but these bytes, keep no state, allocate nothing and
 * may run on several threads at once, on stacks of at least 128 KB each.
 *
 * A buffer to write an image to has at least MINUTEFROST_IMAGE_MOST bytes, and
 * one for the frames of a beat MINUTEFROST_BEAT_FRAMES, however little will be
 * written. One for a sheet has at least the bytes of that sheet;
 * MINUTEFROST_SHEET_MOST are enough for any.
 *
 * A kiosk begins with an image of four zeros: no key, nothing pending. Frames
 * may be lost, repeated, delayed and reordered.
 *
 * A refused call returns minus the number of the first question that was
 * answered no, and writes nothing. 2 to 5 and 16 are about a claim in a
 * frame, and told as 13. A pending claim in an image that fails 16 alone is
 * left out, and gone from the image that a call writes.
 *
 *    1  a store, a node or an image's contents are out of order
 *    2  a claim's lo is greater than its hi
 *    3  a claim's cnt is not from 1 to MINUTEFROST_KEYS_MOST
 *    4  a claim's cnt is not 1 though lo = hi, or else not from 2 to hi − lo + 1
 *    5  a claim's sum is not lo though cnt is 1, or not lo XOR hi though cnt is 2
 *    6  the keys to add don't fit: the store would have more than MINUTEFROST_KEYS_MOST
 *    8  the two stores or images together hold more than MINUTEFROST_KEYS_MOST keys
 *   10  the frame has fewer than 4 bytes or doesn't begin with hex 4C 43
 *   11  the frame's version is not 1
 *   12  the frame's n is not from 1 to 4, or its length is not 4 + 26n
 *   13  a claim in the frame doesn't pass questions 2 to 5 and 16
 *   14  the image's counts exceed MINUTEFROST_KEYS_MOST or 64, or its length is not theirs
 *   15  a lent output is too short
 *   16  a claim's cnt is 3 though sum XOR lo XOR hi is not strictly between lo and hi
 *   17  the number of keys is more than a store can hold
 *
 * On success the bytes past what was written keep their contents.
 */
#ifndef MINUTEFROST_H
#define MINUTEFROST_H

#include <stddef.h>
#include <stdint.h>

/* The most keys that an image can hold. */
#define MINUTEFROST_KEYS_MOST 2048

/* The bytes of the longest image: what `out` needs, but for a sheet. */
#define MINUTEFROST_IMAGE_MOST (2 + 8 * MINUTEFROST_KEYS_MOST + 2 + 26 * 64)

/* The bytes of the most that a beat sends, 17 claims: what `frames` needs. */
#define MINUTEFROST_BEAT_FRAMES 462

/* The bytes of the longest frame. */
#define MINUTEFROST_FRAME_MOST 108

/* The bytes of the longest sheet: lines of three keys, and pages of 40 such lines. */
#define MINUTEFROST_SHEET_MOST \
    (63 * ((MINUTEFROST_KEYS_MOST + 2) / 3 + (MINUTEFROST_KEYS_MOST + 119) / 120))

#ifdef __cplusplus
extern "C" {
#endif

/*
 * Enters a key into an image, writes the new image to the front of `out` and
 * returns its length. Pending claims stay; a key that is held already changes
 * nothing. Asks 14, 1, 6, 15.
 */
int64_t minutefrost_enter(const uint8_t *image, size_t image_len, uint64_t key,
                          uint8_t *out, size_t out_len);

/*
 * Takes a frame into an image, writes the new image to the front of `out` and
 * returns its length. Asks 14, 1, 10 to 13, 6 of each claim's ends in turn, 15.
 */
int64_t minutefrost_take_frame(const uint8_t *image, size_t image_len,
                               const uint8_t *frame, size_t frame_len,
                               uint8_t *out, size_t out_len);

/*
 * Beats an image, writes the new image to the front of `out` and the frames to
 * send, end to end, to the front of `frames`, and returns the frames' length.
 * The image's length follows from its counts. Up to eight pending claims are
 * replied to; the others that don't match wait for a later beat. Asks 14, 1, 15.
 */
int64_t minutefrost_beat(const uint8_t *image, size_t image_len,
                         uint8_t *out, size_t out_len,
                         uint8_t *frames, size_t frames_len);

/*
 * Returns how many keys an image holds; they stand at its bytes 2, 10, 18, ...
 * Asks 14, 1: so this tells whether bytes are an image at all.
 */
int64_t minutefrost_count(const uint8_t *image, size_t image_len);

/*
 * Lays out the keys of an image for the wall, writes the sheet to the front of
 * `out` and returns its length. Every line has 62 characters, all ASCII, and a
 * line feed; no zero byte is written behind the last. It has up to three keys
 * in base ten, rising, each right-aligned in 20 characters, with a space
 * between them; what isn't used is spaces. A page has 40 lines, the last page
 * only those it needs, and above each page stands a head line, which begins as
 * "page    1 of    9" does. An image without keys makes one page with its head
 * line only. Pending claims aren't on the sheet. Asks 14, 1, and 15 for the
 * bytes of this sheet.
 */
int64_t minutefrost_sheet(const uint8_t *image, size_t image_len,
                          uint8_t *out, size_t out_len);

/*
 * Joins two images, writes the image that they become to the front of `out` and
 * returns its length: for the card of a branch that closed, which goes to
 * another kiosk. The new image has the keys of both, and the pending claims of
 * both, equal ones once, in table order, the first 64. Which image is the first
 * makes no difference to the bytes; both may be the same. Asks 14 and 1 of the
 * first, then of the second, 8, 15.
 */
int64_t minutefrost_join(const uint8_t *first, size_t first_len,
                         const uint8_t *second, size_t second_len,
                         uint8_t *out, size_t out_len);

/*
 * Returns how many deliveries a round makes between an empty left store and a
 * right store of so many keys, whichever they are: what a new kiosk costs, for
 * those who plan openings by airtime. A delivery is one claim, and a round
 * delivers each claim once; what a radio loses is not counted, nor what beats
 * send again. Asks 17.
 */
int64_t minutefrost_opening_cost(size_t keys);

#ifdef __cplusplus
}
#endif

#endif
