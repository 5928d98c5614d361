/* example FOLDER: settles the jobs of FOLDER/jobs on the net of FOLDER/net and prints what the program `settle` prints there.
 * It calls settle_verdict and settle_batch and makes the text itself. With -r before the folder the text comes from the library. */
#include "settle.h"

#include <stdio.h>
#include <stdlib.h>
#include <string.h>

/* Reads the start of FOLDER/NAME. A file that is missing or cannot be read has no bytes. */
static size_t read_file(const char *folder, const char *name, uint8_t *buffer, size_t most)
{
    char path[4096];
    int length = snprintf(path, sizeof path, "%s/%s", folder, name);
    if (length < 0 || (size_t)length >= sizeof path)
        return 0;
    FILE *file = fopen(path, "rb");
    if (file == NULL)
        return 0;
    size_t bytes = fread(buffer, 1, most, file);
    fclose(file);
    return bytes;
}

/* h signals of a job: characters under answer 0, hyphens under a number. */
static void print_vector(const uint8_t *vector, uint32_t h, int number)
{
    putchar(' ');
    for (uint32_t k = 0; k < h; k++)
        putchar(number != SETTLE_OK ? '-' : vector[k] == SETTLE_X ? 'X' : '0' + vector[k]);
}

static void print_jobs(const uint8_t *results, const uint8_t *answers, size_t count, uint32_t h)
{
    for (size_t n = 0; n < count; n++) {
        const uint8_t *own = results + n * SETTLE_RESULT_BYTES(h);
        const uint8_t *three = answers + n * SETTLE_ANSWER_BYTES;
        printf("%4u%4u%4u%4u", (unsigned)(n + 1), three[0], three[1], three[2]);
        print_vector(own, h, three[0]);
        print_vector(own + h, h, three[0]);
        putchar('\n');
    }
}

/* By settle_verdict and settle_batch. Returns 0, or 1 where there is no memory. */
static int by_numbers(const uint8_t *sheet, size_t sheet_bytes, const uint8_t *jobs, size_t jobs_bytes)
{
    uint32_t place, h;
    uint32_t number = settle_verdict(sheet, sheet_bytes, &place, &h);
    printf("%4u%4u%4u%4u\n", 0u, (unsigned)number, (unsigned)place, (unsigned)h);
    if (number != SETTLE_OK && number != SETTLE_BREAKS_C2 && number != SETTLE_BREAKS_C3)
        return 0;

    size_t count = SETTLE_JOB_COUNT(jobs_bytes);
    size_t results_bytes = count * SETTLE_RESULT_BYTES(h);
    size_t answers_bytes = count * SETTLE_ANSWER_BYTES;
    /* a byte more, since no pointer may be null */
    uint8_t *results = calloc(results_bytes + 1, 1);
    uint8_t *answers = calloc(answers_bytes + 1, 1);
    int failed = results == NULL || answers == NULL;
    if (!failed && settle_batch(sheet, sheet_bytes, jobs, jobs_bytes, results, results_bytes, answers, answers_bytes, &place, &h) == SETTLE_OK)
        print_jobs(results, answers, count, h);
    free(results);
    free(answers);
    return failed;
}

/* By settle_opening and settle_piece. */
static int by_text(const uint8_t *sheet, size_t sheet_bytes, const uint8_t *jobs, size_t jobs_bytes)
{
    static uint8_t out[SETTLE_PIECE_BYTES];
    const size_t piece_bytes = (size_t)SETTLE_PIECE_JOBS * SETTLE_LINE_BYTES;
    uint32_t written;
    settle_opening(sheet, sheet_bytes, out, sizeof out, &written);
    fwrite(out, 1, written, stdout);
    uint32_t first = 1;
    for (size_t at = 0; at < jobs_bytes; at += piece_bytes) {
        size_t left = jobs_bytes - at;
        settle_piece(sheet, sheet_bytes, first, jobs + at, left < piece_bytes ? left : piece_bytes, out, sizeof out, &written);
        fwrite(out, 1, written, stdout);
        first += SETTLE_PIECE_JOBS;
    }
    return 0;
}

int main(int count, char **words)
{
    /* a byte more than a sheet may have, so that a longer file is still refused for its length */
    static uint8_t sheet[SETTLE_MOST_SHEET_BYTES + 1];
    static uint8_t jobs[(size_t)SETTLE_MOST_JOBS * SETTLE_LINE_BYTES];
    int text = count == 3 && strcmp(words[1], "-r") == 0;
    if (count != 2 && !text) {
        fprintf(stderr, "use: example [-r] FOLDER\n");
        return 2;
    }
    const char *folder = words[count - 1];
    size_t sheet_bytes = read_file(folder, "net", sheet, sizeof sheet);
    size_t jobs_bytes = read_file(folder, "jobs", jobs, sizeof jobs);
    int failed = text ? by_text(sheet, sheet_bytes, jobs, jobs_bytes) : by_numbers(sheet, sheet_bytes, jobs, jobs_bytes);
    return fflush(stdout) != 0 || failed;
}
