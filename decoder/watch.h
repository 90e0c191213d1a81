/* Both ways on every block, for `decoder/run`: the decoder's own lines stand in a loop whose condition is hoengtila_watch. It has them run
 * as often as asked, each time on the block as it was, then runs the library as often on the same memory, compares, and leaves the
 * decoder's residuals. One thread. The environment says what is done:
 *   HOENGTILA_WATCH=FILE     counts and clocks go there: see hoengtila_print_counts
 *   HOENGTILA_TURNS=N        each way runs N times, and the quickest counts; 1 if not set
 *   HOENGTILA_EXCHANGE=1     the library is handed DST-VII for DCT-VIII and the other way round, which the comparison has to see
 *   HOENGTILA_RECORD=FILE    blocks and the decoder's residuals go there (decoder/record.h) */
#include <string.h>
#include <x86intrin.h>
#include "hoengtila_glue.h"
#include "record.h"

typedef struct {
    uint64_t blocks, refused, different, own, library;
} hoengtila_counts;

/* by log2 of the sides, kinds, with LFNST or without, and the switch of extended precision */
static hoengtila_counts hoengtila_seen[7][7][3][3][2][2];
static uint64_t hoengtila_skipped, hoengtila_refused;

static struct {
    int turns, exchange;
    uint64_t empty; /* clocks of measuring nothing */
    const char *counts;
} hoengtila_asked;

/* The block at work. */
static struct {
    hoengtila_transform_block block;
    int turn, columns, rows;
    size_t bytes;
    uint64_t start, own;
    int before[64 * 64], after[64 * 64];
} hoengtila_now;

static uint64_t hoengtila_clock(void)
{
    uint64_t clock;
    _mm_lfence();
    clock = __rdtsc();
    _mm_lfence();
    return clock;
}

static uint64_t hoengtila_least(uint64_t least, uint64_t start)
{
    const uint64_t taken = hoengtila_clock() - start;
    return taken < least ? taken : least;
}

/* A line for each class that was met: log2 of the sides, kinds, LFNST, switch, then blocks, refused, different, clocks of both. */
static void hoengtila_print_counts(FILE *file)
{
    const hoengtila_counts *seen = &hoengtila_seen[0][0][0][0][0][0];
    for (int k = 0; k < 7 * 7 * 3 * 3 * 2 * 2; k++, seen++)
        if (seen->blocks)
            fprintf(file, "%d %d %d %d %d %d %llu %llu %llu %llu %llu\n", k / 252, k / 36 % 7, k / 12 % 3, k / 4 % 3, k / 2 % 2, k % 2,
                    (unsigned long long) seen->blocks, (unsigned long long) seen->refused, (unsigned long long) seen->different,
                    (unsigned long long) seen->own, (unsigned long long) seen->library);
    fprintf(file, "skipped %llu\n", (unsigned long long) hoengtila_skipped);
}

static void hoengtila_finish(void)
{
    FILE *file = fopen(hoengtila_asked.counts, "w");
    if (file) {
        hoengtila_print_counts(file);
        fclose(file);
    }
    if (hoengtila_recorded.file)
        hoengtila_record_close();
}

static void hoengtila_ask(void)
{
    const char *turns = getenv("HOENGTILA_TURNS"), *counts = getenv("HOENGTILA_WATCH"), *record = getenv("HOENGTILA_RECORD");
    hoengtila_asked.turns = turns ? atoi(turns) : 1;
    hoengtila_asked.exchange = getenv("HOENGTILA_EXCHANGE") != NULL;
    hoengtila_asked.counts = counts ? counts : "/dev/stderr";
    if (record)
        hoengtila_record_open(record);
    hoengtila_asked.empty = UINT64_MAX;
    for (int k = 0; k < 1000; k++)
        hoengtila_asked.empty = hoengtila_least(hoengtila_asked.empty, hoengtila_clock());
    atexit(hoengtila_finish);
}

static void hoengtila_begin(const VVCLocalContext *lc, const TransformBlock *tb)
{
    hoengtila_now.block = hoengtila_block(lc, tb);
    hoengtila_now.columns = tb->max_scan_x;
    hoengtila_now.rows = tb->max_scan_y;
    hoengtila_now.bytes = tb->tb_width * tb->tb_height * sizeof(int);
    hoengtila_now.own = UINT64_MAX;
    memcpy(hoengtila_now.before, tb->coeffs, hoengtila_now.bytes);
}

static void hoengtila_restore(TransformBlock *tb)
{
    tb->max_scan_x = hoengtila_now.columns;
    tb->max_scan_y = hoengtila_now.rows;
    memcpy(tb->coeffs, hoengtila_now.before, hoengtila_now.bytes);
}

/* The library on the same memory, as often; its clocks, and the last answer. */
static uint64_t hoengtila_library(const VVCLocalContext *lc, TransformBlock *tb, hoengtila_answer *answer)
{
    uint64_t least = UINT64_MAX;
    for (int turn = 0; turn < hoengtila_asked.turns; turn++) {
        hoengtila_transform_block block;
        uint64_t start;
        hoengtila_restore(tb);
        start = hoengtila_clock();
        block = hoengtila_block(lc, tb);
        if (hoengtila_asked.exchange) {
            block.horizontal = (3 - block.horizontal) % 3;
            block.vertical = (3 - block.vertical) % 3;
        }
        *answer = hoengtila_transform_block_inverse(block, tb->coeffs, tb->tb_width * tb->tb_height);
        least = hoengtila_least(least, start);
    }
    return least;
}

/* The decoder's residuals stand in the block: they are compared with the library's, and stay. */
static void hoengtila_end(const VVCLocalContext *lc, TransformBlock *tb)
{
    const hoengtila_transform_block *b = &hoengtila_now.block;
    hoengtila_counts *seen =
        &hoengtila_seen[tb->log2_tb_width][tb->log2_tb_height][b->horizontal][b->vertical][b->lfnst != 0][b->extended != 0];
    hoengtila_answer answer;

    memcpy(hoengtila_now.after, tb->coeffs, hoengtila_now.bytes);
    seen->blocks++;
    seen->own += hoengtila_now.own - hoengtila_asked.empty;
    seen->library += hoengtila_library(lc, tb, &answer) - hoengtila_asked.empty;
    if (answer.number && !hoengtila_refused++) /* the first is told */
        hoengtila_print(*b, answer);
    seen->refused += answer.number != 0;
    if (!answer.number && memcmp(hoengtila_now.after, tb->coeffs, hoengtila_now.bytes))
        seen->different++;
    if (hoengtila_recorded.file && hoengtila_record_takes(b, answer.rails))
        hoengtila_record(b, hoengtila_now.before, hoengtila_now.after);
    memcpy(tb->coeffs, hoengtila_now.after, hoengtila_now.bytes);
}

/* Whether the decoder's own lines run now. */
static int hoengtila_watch(const VVCLocalContext *lc, TransformBlock *tb)
{
    if (!hoengtila_asked.turns)
        hoengtila_ask();
    if (tb->ts) {
        hoengtila_skipped++;
        return 0;
    }
    if (hoengtila_now.turn == 0)
        hoengtila_begin(lc, tb);
    else
        hoengtila_now.own = hoengtila_least(hoengtila_now.own, hoengtila_now.start);
    if (hoengtila_now.turn == hoengtila_asked.turns) {
        hoengtila_end(lc, tb);
        hoengtila_now.turn = 0;
        return 0;
    }
    hoengtila_restore(tb);
    hoengtila_now.turn++;
    hoengtila_now.start = hoengtila_clock();
    return 1;
}
