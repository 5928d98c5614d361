/* Holds settle.h to the library: each size is taken, and a byte, job or key node less or more is not; and each number is answered where its row of
 * document 01 holds, and no other call or sheet here has it. */
#include "settle.h"

#include <stdio.h>
#include <string.h>

enum { SHEET = SETTLE_MOST_SHEET_BYTES + SETTLE_LINE_BYTES, FILL = 0xa5 };

static int failures = 0;

static void expect(int holds, const char *what)
{
    printf("%s: %s\n", holds ? "ok" : "WRONG", what);
    failures += !holds;
}

/* ---- sheets and jobs, line by line */

typedef struct {
    uint8_t bytes[SHEET];
    size_t size;
} text;

static void line(text *t, int a, int b, int c, int d, int e)
{
    char five[64]; /* room for any five numbers, though those here have four digits at most */
    snprintf(five, sizeof five, "%4d%4d%4d%4d%4d\n", a, b, c, d, e);
    memcpy(t->bytes + t->size, five, SETTLE_LINE_BYTES);
    t->size += SETTLE_LINE_BYTES;
}

/* the worked example of the README: one letter, one key node */
static text worked(void)
{
    text t = {.size = 0};
    line(&t, 1, 4, 4, 1, 1);
    line(&t, 2, 1, 0, 0, 0);
    line(&t, 2, 2, 0, 1, 0);
    line(&t, 2, 3, 2, 0, 0);
    line(&t, 2, 4, 1, 0, 0);
    line(&t, 3, 2, 3, 1, 11);
    line(&t, 3, 2, 3, 1, 103);
    line(&t, 3, 3, 4, 0, 11);
    line(&t, 3, 4, 1, 0, 103);
    return t;
}

/* the same with another line in the place of its line n, counted from 1 */
static text with_line(int n, int a, int b, int c, int d, int e)
{
    text t = worked();
    size_t size = t.size;
    t.size = (size_t)(n - 1) * SETTLE_LINE_BYTES;
    line(&t, a, b, c, d, e);
    t.size = size;
    return t;
}

/* an input vertex that carries 0, and n storage vertices, each the symbol of its own edge to it: a key node that floats where it is 0 */
static text keyed(int n)
{
    text t = {.size = 0};
    line(&t, 1, n + 1, n, 0, 1);
    line(&t, 2, 1, 0, 0, 0);
    for (int v = 2; v <= n + 1; v++)
        line(&t, 2, v, 1, 0, 0);
    for (int v = 2; v <= n + 1; v++)
        line(&t, 3, 1, v, 0, 100 + v);
    return t;
}

/* vertex 2 depends on eight letters and on itself */
static text signalled(void)
{
    text t = {.size = 0};
    line(&t, 1, 2, 9, 8, 1);
    line(&t, 2, 1, 0, 0, 0);
    line(&t, 2, 2, 1, 0, 0);
    for (int j = 1; j <= 8; j++)
        line(&t, 3, 1, 2, 0, 10 + j);
    line(&t, 3, 1, 2, 0, 102);
    return t;
}

/* vertices 1 and 2 carry 0 and 1; vertex 3 is an output with an n edge, always closed, to one of them, and there may be one between the two */
static text joined(int end, int bridge)
{
    text t = {.size = 0};
    line(&t, 1, 3, bridge ? 2 : 1, 0, 1);
    line(&t, 2, 1, 0, 0, 0);
    line(&t, 2, 2, 0, 1, 0);
    line(&t, 2, 3, 2, 0, 0);
    line(&t, 3, end, 3, 0, 1);
    if (bridge)
        line(&t, 3, 1, 2, 0, 1);
    return t;
}

/* as many lines of document 01's second job as are asked for */
static text jobs_of(size_t count)
{
    text t = {.size = 0};
    for (size_t n = 0; n < count; n++)
        line(&t, 4, 0, 0, 1, 0);
    return t;
}

/* all bytes from `from` on are as they were filled */
static int untouched(const uint8_t *buffer, size_t from, size_t bytes)
{
    for (size_t k = from; k < bytes; k++)
        if (buffer[k] != FILL)
            return 0;
    return 1;
}

/* ---- numbers of a sheet */

static int judged(text t, uint32_t number, uint32_t place, uint32_t h)
{
    uint32_t p = 7, k = 7;
    return settle_verdict(t.bytes, t.size, &p, &k) == number && p == place && k == h;
}

static void sheets(void)
{
    text t = worked();
    expect(judged(t, SETTLE_OK, 0, 1), "SETTLE_OK: the worked example");
    t.size--;
    expect(judged(t, SETTLE_BAD_LENGTH, 0, 0), "SETTLE_BAD_LENGTH: a byte is missing");
    t.size++;
    t.bytes[5 * SETTLE_LINE_BYTES - 1] = ' ';
    expect(judged(t, SETTLE_BAD_LINE, 5, 0), "SETTLE_BAD_LINE: line 5 does not end");
    expect(judged(with_line(1, 1, 4, 4, 1, 2), SETTLE_BAD_HEADER, 1, 0), "SETTLE_BAD_HEADER: edition 2");
    expect(judged(with_line(1, 1, 4, 5, 1, 1), SETTLE_BAD_LINE_COUNT, 0, 0), "SETTLE_BAD_LINE_COUNT: an edge too few");
    expect(judged(with_line(4, 2, 3, 3, 0, 0), SETTLE_BAD_VERTEX, 4, 0), "SETTLE_BAD_VERTEX: role 3");
    expect(judged(with_line(8, 3, 3, 3, 0, 11), SETTLE_BAD_EDGE, 8, 0), "SETTLE_BAD_EDGE: equal ends");
    expect(judged(with_line(8, 3, 3, 4, 2, 11), SETTLE_NO_PARTNER, 8, 0), "SETTLE_NO_PARTNER: form 2 alone");
    expect(judged(keyed(SETTLE_MOST_KEY_NODES + 1), SETTLE_MANY_KEY_NODES, SETTLE_MOST_KEY_NODES + 2, 0), "SETTLE_MANY_KEY_NODES: one too many");
    expect(judged(keyed(SETTLE_MOST_KEY_NODES), SETTLE_BREAKS_C1, 2, SETTLE_MOST_KEY_NODES), "SETTLE_BREAKS_C1, with SETTLE_MOST_KEY_NODES");
    expect(judged(signalled(), SETTLE_MANY_SIGNALS, 2, 0), "SETTLE_MANY_SIGNALS: nine");
    expect(judged(joined(1, 1), SETTLE_BREAKS_C2, 0, 0), "SETTLE_BREAKS_C2: an edge between the two supplies");
    expect(judged(joined(2, 0), SETTLE_BREAKS_C3, 3, 0), "SETTLE_BREAKS_C3: an n edge to 1");
    expect(judged(joined(1, 0), SETTLE_OK, 0, 0), "SETTLE_OK: an n edge to 0");
    memset(t.bytes, ' ', sizeof t.bytes);
    t.size = SETTLE_MOST_SHEET_BYTES;
    expect(judged(t, SETTLE_BAD_LINE, 1, 0), "SETTLE_MOST_SHEET_BYTES are read");
    t.size += SETTLE_LINE_BYTES;
    expect(judged(t, SETTLE_BAD_LENGTH, 0, 0), "SETTLE_LINE_BYTES more are not");
}

/* ---- batches */

enum { COUNT = 6 };

static int batched(text net, text jobs, size_t results_bytes, size_t answers_bytes, uint8_t *results, uint8_t *answers, uint32_t number, uint32_t h)
{
    uint32_t place = 7, k = 7;
    memset(results, FILL, COUNT * SETTLE_RESULT_BYTES(1) + 1);
    memset(answers, FILL, COUNT * SETTLE_ANSWER_BYTES + 1);
    return settle_batch(net.bytes, net.size, jobs.bytes, jobs.size, results, results_bytes, answers, answers_bytes, &place, &k) == number && k == h;
}

static void batches(void)
{
    uint8_t results[COUNT * SETTLE_RESULT_BYTES(1) + 1], answers[COUNT * SETTLE_ANSWER_BYTES + 1];
    const size_t r = COUNT * SETTLE_RESULT_BYTES(1), a = COUNT * SETTLE_ANSWER_BYTES;
    text net = worked(), jobs = {.size = 0};
    line(&jobs, 4, 0, 1, 1, 0);
    line(&jobs, 4, 0, 0, 1, 0);
    line(&jobs, 4, 1, 0, 1, 0);
    line(&jobs, 4, 2, 0, 1, 0);
    line(&jobs, 4, 0, 0, 2, 0);
    line(&jobs, 4, 0, 0, 1, 0);
    jobs.size -= SETTLE_LINE_BYTES - 1;
    const uint8_t settled[] = {SETTLE_X, SETTLE_X, 1, 1};
    const uint8_t answered[] = {SETTLE_OK, 1, 0, SETTLE_OK, 0, 0, SETTLE_UNSTABLE_START, 0, 0, SETTLE_BAD_INPUT_STATE, 0, 0,
                                SETTLE_BAD_KEY_STATE, 0, 0, SETTLE_NO_JOB, 0, 0};
    expect(SETTLE_JOB_COUNT(jobs.size) == COUNT && SETTLE_JOB_COUNT(0) == 0 && SETTLE_JOB_COUNT(5 * SETTLE_LINE_BYTES) == 5,
           "SETTLE_JOB_COUNT counts a byte after the last line");
    expect(batched(net, jobs, r, a, results, answers, SETTLE_OK, 1) && memcmp(results, settled, sizeof settled) == 0
               && untouched(results, sizeof settled, sizeof results) && memcmp(answers, answered, sizeof answered) == 0
               && untouched(answers, sizeof answered, sizeof answers),
           "SETTLE_RESULT_BYTES and SETTLE_ANSWER_BYTES a job are enough; SETTLE_X, and each number of a job");
    expect(batched(net, jobs, r - 1, a, results, answers, SETTLE_SHORT_BUFFER, 1) && untouched(results, 0, sizeof results)
               && untouched(answers, 0, sizeof answers), "SETTLE_SHORT_BUFFER: a byte less of results");
    expect(batched(net, jobs, r, a - 1, results, answers, SETTLE_SHORT_BUFFER, 1) && untouched(results, 0, sizeof results)
               && untouched(answers, 0, sizeof answers), "SETTLE_SHORT_BUFFER: a byte less of answers");
    net.size = 0;
    expect(batched(net, jobs, r, a, results, answers, SETTLE_BAD_LENGTH, 0) && untouched(results, 0, sizeof results)
               && untouched(answers, 0, sizeof answers), "a batch refuses an empty sheet");
    expect(batched(keyed(1), jobs, r, a, results, answers, SETTLE_BREAKS_C1, 1) && untouched(answers, 0, sizeof answers), "a batch refuses under 31");
    expect(batched(joined(1, 1), jobs_of(1), r, a, results, answers, SETTLE_OK, 0) && answers[0] == SETTLE_BAD_KEY_STATE, "and runs under 32");
    expect(batched(joined(2, 0), jobs_of(1), r, a, results, answers, SETTLE_OK, 0) && answers[0] == SETTLE_BAD_KEY_STATE, "and under 33");
}

/* ---- the text */

static uint8_t out[SETTLE_PIECE_BYTES + 1];

/* the last line that was written */
static int last_line(uint32_t written, const char *five)
{
    return memcmp(out + written - strlen(five), five, strlen(five)) == 0;
}

static void texts(void)
{
    static uint8_t lines[(SETTLE_PIECE_JOBS + 1) * SETTLE_LINE_BYTES];
    const text net = worked(), job = jobs_of(1);
    uint32_t written = 7;
    for (size_t n = 0; n <= SETTLE_PIECE_JOBS; n++)
        memcpy(lines + n * SETTLE_LINE_BYTES, job.bytes, job.size);
    memset(out, FILL, sizeof out);
    expect(settle_opening(net.bytes, net.size, out, SETTLE_OPENING_BYTES - 1, &written) == SETTLE_SHORT_BUFFER && written == 0
               && untouched(out, 0, sizeof out), "settle_opening refuses SETTLE_OPENING_BYTES - 1");
    expect(settle_opening(net.bytes, net.size, out, SETTLE_OPENING_BYTES, &written) == SETTLE_OK && written == SETTLE_OPENING_BYTES
               && last_line(written, "   0   0   0   1\n") && untouched(out, written, sizeof out), "settle_opening takes SETTLE_OPENING_BYTES");
    memset(out, FILL, sizeof out);
    expect(settle_piece(net.bytes, net.size, 1, lines, sizeof lines, out, SETTLE_PIECE_BYTES - 1, &written) == SETTLE_SHORT_BUFFER && written == 0
               && untouched(out, 0, sizeof out), "settle_piece refuses SETTLE_PIECE_BYTES - 1");
    expect(settle_piece(net.bytes, net.size, 1, lines, sizeof lines, out, SETTLE_PIECE_BYTES, &written) == SETTLE_OK
               && last_line(written, "3333   0   0   0 1 1\n") && written == SETTLE_PIECE_JOBS * strlen("3333   0   0   0 1 1\n")
               && untouched(out, written, sizeof out), "settle_piece takes SETTLE_PIECE_BYTES, and SETTLE_PIECE_JOBS jobs of one more");
    expect(settle_piece(net.bytes, net.size, SETTLE_MOST_JOBS, lines, sizeof lines, out, SETTLE_PIECE_BYTES, &written) == SETTLE_OK
               && last_line(written, "9999   0   0   0 1 1\n") && written == strlen("9999   0   0   0 1 1\n"), "job SETTLE_MOST_JOBS is the last");
}

int main(void)
{
    sheets();
    batches();
    texts();
    return failures != 0;
}
