/* Blocks by triple loops, over lines, sums and inputs: each sum is shifted and clipped, and the result of the first stage
 * turned over for the second. What document 01 zeroes is skipped, as the reference software skips it; a coefficient that
 * happens to be 0 is not. Numbers between the stages are ints, and lines are called through a table, as there. The size of
 * a line is a constant; the file that includes this says by KEPT_OF whether the number of its kept places is one too. */
#ifndef TRIPLE_H
#define TRIPLE_H

#include "bench.h"

#include <limits.h>
#include <string.h>

static int16_t tables[3][4][LARGEST]; /* by kind and size, row by row */

static void fill_tables(void) {
    for (int kind = DCT_II; kind <= DCT_VIII; kind++)
        for (int n = 4; n <= LONGEST; n *= 2)
            for (int k = 0; k < n * n; k++) tables[kind][log2_of(n) - 2][k] = (int16_t)weight(kind, n, k / n, k % n);
}

static inline int clip(int low, int high, int v) { return v < low ? low : v > high ? high : v; }

/* `lines` lines of N points, input k of line i at k * apart + i; the first `some` of them count. */
#define INVERSE_LINES(NAME, SOURCE, N)                                                                        \
    static void NAME##_##N(const SOURCE *src, int *dst, int shift, int lines, int apart, int some, int low,   \
                           int high, const int16_t *table) {                                                  \
        const int rounding = 1 << (shift - 1), inputs = KEPT_OF(N, some);                                     \
        for (int i = 0; i < lines; i++)                                                                       \
            for (int j = 0; j < N; j++) {                                                                     \
                int sum = 0;                                                                                  \
                for (int k = 0; k < inputs; k++) sum += src[k * apart + i] * table[k * N + j];                \
                dst[i * N + j] = clip(low, high, (sum + rounding) >> shift);                                  \
            }                                                                                                 \
    }

/* `lines` lines of N points, one after the other; the first `some` of their sums, sum j of line i at j * apart + i. */
#define FORWARD_LINES(NAME, SOURCE, RESULT, N)                                                                \
    static void NAME##_##N(const SOURCE *src, RESULT *dst, int shift, int lines, int apart, int some,         \
                           const int16_t *table) {                                                            \
        const int rounding = 1 << (shift - 1), outputs = KEPT_OF(N, some);                                    \
        for (int i = 0; i < lines; i++)                                                                       \
            for (int j = 0; j < outputs; j++) {                                                               \
                int sum = 0;                                                                                  \
                for (int k = 0; k < N; k++) sum += src[i * N + k] * table[j * N + k];                         \
                dst[j * apart + i] = (RESULT)((sum + rounding) >> shift);                                     \
            }                                                                                                 \
    }

#define LINES(N)                                 \
    INVERSE_LINES(inverse_columns, int16_t, N)   \
    INVERSE_LINES(inverse_rows, int, N)          \
    FORWARD_LINES(forward_rows, int16_t, int, N) \
    FORWARD_LINES(forward_columns, int, int16_t, N)
LINES(4)
LINES(8)
LINES(16)
LINES(32)

/* volatile: a compiler that saw through the tables could carry the arguments into the loops */
#define BY_SIZE(NAME) {NAME##_4, NAME##_8, NAME##_16, NAME##_32}
static void (*volatile const columns_in[])(const int16_t *, int *, int, int, int, int, int, int, const int16_t *) = BY_SIZE(inverse_columns);
static void (*volatile const rows_in[])(const int *, int *, int, int, int, int, int, int, const int16_t *) = BY_SIZE(inverse_rows);
static void (*volatile const rows_out[])(const int16_t *, int *, int, int, int, int, const int16_t *) = BY_SIZE(forward_rows);
static void (*volatile const columns_out[])(const int *, int16_t *, int, int, int, int, const int16_t *) = BY_SIZE(forward_columns);

static inline void inverse(hoengtila_shape s, const int16_t *coefficients, int32_t *residuals) {
    int w = (int)s.width, h = (int)s.height, across = log2_of(w) - 2, down = log2_of(h) - 2, middle[LARGEST];
    columns_in[down](coefficients, middle, 7, columns_of(s), w, rows_of(s), -32768, 32767, tables[s.vertical][down]);
    rows_in[across](middle, residuals, residual_shift(s), h, h, columns_of(s), INT_MIN, INT_MAX, tables[s.horizontal][across]);
}

static inline void forward(hoengtila_shape s, const int16_t *residuals, int16_t *coefficients) {
    int w = (int)s.width, h = (int)s.height, across = log2_of(w) - 2, down = log2_of(h) - 2, middle[LARGEST];
    rows_out[across](residuals, middle, row_shift(s), h, h, columns_of(s), tables[s.horizontal][across]);
    if (columns_of(s) < w || rows_of(s) < h) memset(coefficients, 0, sizeof *coefficients * (size_t)(w * h));
    columns_out[down](middle, coefficients, column_shift(s), columns_of(s), w, rows_of(s), tables[s.vertical][down]);
}

#endif
