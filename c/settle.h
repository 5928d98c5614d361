/* settle.h - switch-level settling of CMOS nets, for C (C99).
 *
 * Link with libsettle_library.a (x86-64 Linux; see README.md). What a net, a job and a settled value are stands in the README at the top.
 *
 * Ownership. All memory is the caller's. A call reads and writes only what is handed to it and only while it runs; it keeps no pointer,
 * allocates nothing and frees nothing.
 * Pointers. None may be null, not even with length 0. What a call writes (buffers and numbers) must not overlap anything else that it
 * is handed; what it only reads may overlap. A `uint32_t *` points to one number, aligned as usual.
 * Threads. There is no state between calls, so calls may run at the same time, if none writes what another one reads or writes.
 * Stack. Measured with an older kit, settle_verdict and settle_opening take up to 1.3 MB of the stack of their thread, the other two up to 0.5 MB; have 2 MB.
 *
 * Every call comes back with a number of the table below, for whatever bytes and lengths it is handed.
 */
#ifndef SETTLE_H
#define SETTLE_H

#include <stddef.h>
#include <stdint.h>

#ifdef __cplusplus
extern "C" {
#endif

/* ---- sizes, in bytes unless another unit is named */

#define SETTLE_LINE_BYTES 21         /* a line of a sheet and of the jobs, with its end */
#define SETTLE_MOST_SHEET_BYTES 6069 /* 289 lines; a longer sheet is answered 11 */
#define SETTLE_MOST_KEY_NODES 12     /* the greatest h */
#define SETTLE_MOST_JOBS 9999        /* jobs that the text has lines for */
#define SETTLE_PIECE_JOBS 3333       /* jobs that one call of settle_piece takes */
#define SETTLE_OPENING_BYTES 17      /* buffer of settle_opening */
#define SETTLE_PIECE_BYTES 143319    /* buffer of settle_piece: SETTLE_PIECE_JOBS lines of 43 */
#define SETTLE_ANSWER_BYTES 3        /* a job's part of `answers`: its number and the steps of both passes */

/* jobs in so many bytes: a short last line is a job too */
#define SETTLE_JOB_COUNT(bytes) (((bytes) + (SETTLE_LINE_BYTES - 1)) / SETTLE_LINE_BYTES)

/* a job's part of `results`, for a net of h key nodes: its r, then its t */
#define SETTLE_RESULT_BYTES(h) (2 * (size_t)(h))

/* ---- numbers */

enum {
    SETTLE_OK = 0,
    /* the reader; the place is a line (0 for 11 and 14), a vertex for 22 and 23 */
    SETTLE_BAD_LENGTH = 11,
    SETTLE_BAD_LINE = 12,
    SETTLE_BAD_HEADER = 13,
    SETTLE_BAD_LINE_COUNT = 14,
    SETTLE_BAD_VERTEX = 15,
    SETTLE_BAD_EDGE = 16,
    SETTLE_NO_PARTNER = 21,
    SETTLE_MANY_KEY_NODES = 22,
    SETTLE_MANY_SIGNALS = 23,
    /* the verdict; the place is a vertex for 31 and 33, else 0 */
    SETTLE_BREAKS_C1 = 31,
    SETTLE_BREAKS_C2 = 32,
    SETTLE_BREAKS_C3 = 33,
    /* a job, in its first answer byte */
    SETTLE_BAD_INPUT_STATE = 42,
    SETTLE_BAD_KEY_STATE = 43,
    SETTLE_UNSTABLE_START = 44,
    SETTLE_NO_JOB = 46,
    /* a buffer is too short */
    SETTLE_SHORT_BUFFER = 45
};

/* a settled value: 0, 1, or this */
#define SETTLE_X 4

/* ---- calls */

/* Reads the sheet and judges its net. Returns the reader's number, and then h is 0, or else the verdict's: 0, 31, 32 or 33, and then h is
 * the number of key nodes. The place is 0 where the number has none. */
uint32_t settle_verdict(const uint8_t *sheet, size_t sheet_bytes, uint32_t *place, uint32_t *h);

/* Reads the sheet and runs all the jobs on its net. Returns
 *   a number of the reader, with its place, and h is 0;
 *   31 with its vertex, or 45 where a buffer is too short, and h is the number of key nodes;
 *   0, and h is the number of key nodes. C2 and C3 are not asked: a net whose verdict is 32 or 33 is settled as any other. Whoever must
 *   not build on such a net asks settle_verdict first.
 * Under a number both buffers stay as they were. Under 0, job n (from 0) has SETTLE_ANSWER_BYTES of `answers` from n * SETTLE_ANSWER_BYTES
 * on, and SETTLE_RESULT_BYTES(h) of `results` from n * SETTLE_RESULT_BYTES(h) on, with key node 1 first in r and in t. A job that has a number
 * itself (42, 43, 44 or 46) has step counts 0 and leaves its part of `results` as it was. Bytes past the last job's stay as they were.
 * It needs SETTLE_JOB_COUNT(jobs_bytes) such parts in each buffer; settle_verdict tells h beforehand. There is no limit on jobs. */
uint32_t settle_batch(const uint8_t *sheet, size_t sheet_bytes, const uint8_t *jobs, size_t jobs_bytes, uint8_t *results,
                      size_t results_bytes, uint8_t *answers, size_t answers_bytes, uint32_t *place, uint32_t *h);

/* The first line of the program's text, SETTLE_OPENING_BYTES long. Returns 0 and the bytes written, or 45 and 0 where `out` is shorter
 * than that; then it stays as it was. */
uint32_t settle_opening(const uint8_t *sheet, size_t sheet_bytes, uint8_t *out, size_t out_bytes, uint32_t *written);

/* The lines of the text for the jobs in `lines`, the first of which has the number `first` (counted from 1). Of the lines no more than
 * SETTLE_PIECE_JOBS are read, and none past job SETTLE_MOST_JOBS. Returns 0 and the bytes written (none under a number of the reader and under 31),
 * or 45 and 0 where `out` is shorter than SETTLE_PIECE_BYTES; then it stays as it was. Bytes past those written stay as they were. */
uint32_t settle_piece(const uint8_t *sheet, size_t sheet_bytes, uint32_t first, const uint8_t *lines, size_t lines_bytes, uint8_t *out,
                      size_t out_bytes, uint32_t *written);

#ifdef __cplusplus
}
#endif

#endif
