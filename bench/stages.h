/* Blocks out of lines, in this library's shape: a function for each size, and the middle values line after line in the
 * order of the first stage, so that each line is written in one stretch. The file that includes this has
 *   inverse_line(kind, n, x, step, sums)   n sums of the first kept(n) inputs, which stand `step` apart
 *   forward_line(kind, n, x, step, sums)   the first kept(n) sums of n inputs
 * both ALWAYS inlined, where kind and n are constants. EACH_PLACE stands before the loops over the places of a line. */
#ifndef STAGES_H
#define STAGES_H

#include "bench.h"

#include <string.h>

ALWAYS void add_eight(int32_t *restrict sums, int16_t v, const int16_t *restrict row) {
    ROLLED for (int j = 0; j < 8; j++) sums[j] += v * row[j];
}

/* v times the first weights of a row, of which there is a constant number, added to the sums */
ALWAYS void add_row(int32_t *restrict sums, int16_t v, const int16_t *restrict row, int places) {
    if (places >= 8) add_eight(sums, v, row);
    if (places >= 16) add_eight(sums + 8, v, row + 8);
    if (places >= 24) add_eight(sums + 16, v, row + 16);
    if (places >= 32) add_eight(sums + 24, v, row + 24);
    for (int j = places & ~7; j < places; j++) sums[j] += v * row[j];
}

ALWAYS void inverse_line(int kind, int n, const int16_t *x, int step, int32_t *sums);
ALWAYS void forward_line(int kind, int n, const int16_t *x, int step, int32_t *sums);

#define WITH_SIZE(STAGE, KIND, N, ...)                        \
    switch (N) {                                              \
    case 4: STAGE(KIND, 4, __VA_ARGS__); break;               \
    case 8: STAGE(KIND, 8, __VA_ARGS__); break;               \
    case 16: STAGE(KIND, 16, __VA_ARGS__); break;             \
    default: STAGE(KIND, 32, __VA_ARGS__); break;             \
    }
#define WITH_CONSTANTS(STAGE, KIND, N, ...)                           \
    if ((KIND) == DST_VII) WITH_SIZE(STAGE, DST_VII, N, __VA_ARGS__)  \
    else WITH_SIZE(STAGE, DCT_VIII, N, __VA_ARGS__)

ALWAYS void inverse_columns(int kind, int n, const int16_t *c, int w, int16_t *middle) {
    for (int x = 0; x < kept(w); x++) {
        int32_t e[LONGEST];
        inverse_line(kind, n, c + x, w, e);
        EACH_PLACE for (int y = 0; y < n; y++) middle[x * n + y] = middle_of(e[y]);
    }
}

ALWAYS void inverse_rows(int kind, int n, const int16_t *middle, int h, int shift, int32_t *residuals) {
    for (int y = 0; y < h; y++) {
        int32_t r[LONGEST];
        inverse_line(kind, n, middle + y, h, r);
        EACH_PLACE for (int x = 0; x < n; x++) residuals[y * n + x] = rounded(r[x], shift);
    }
}

ALWAYS void inverse_stages(hoengtila_shape s, const int16_t *c, int32_t *residuals) {
    int w = (int)s.width, h = (int)s.height;
    int16_t middle[KEPT * LONGEST];
    WITH_CONSTANTS(inverse_columns, s.vertical, h, c, w, middle);
    WITH_CONSTANTS(inverse_rows, s.horizontal, w, middle, h, residual_shift(s), residuals);
}

/* The columns that are not kept are not used. */
ALWAYS void forward_rows(int kind, int n, const int16_t *residuals, int h, int shift, int16_t *middle) {
    for (int y = 0; y < h; y++) {
        int32_t e[KEPT];
        forward_line(kind, n, residuals + y * n, 1, e);
        EACH_PLACE for (int x = 0; x < kept(n); x++) middle[y * kept(n) + x] = (int16_t)rounded(e[x], shift);
    }
}

ALWAYS void forward_columns(int kind, int n, const int16_t *middle, int w, int shift, int16_t *c) {
    for (int x = 0; x < kept(w); x++) {
        int32_t e[KEPT];
        forward_line(kind, n, middle + x, kept(w), e);
        EACH_PLACE for (int y = 0; y < kept(n); y++) c[y * w + x] = (int16_t)rounded(e[y], shift);
    }
}

ALWAYS void forward_stages(hoengtila_shape s, const int16_t *residuals, int16_t *c) {
    int w = (int)s.width, h = (int)s.height;
    int16_t middle[KEPT * LONGEST];
    WITH_CONSTANTS(forward_rows, s.horizontal, w, residuals, h, row_shift(s), middle);
    if (w > KEPT || h > KEPT) memset(c, 0, sizeof *c * (size_t)(w * h));
    WITH_CONSTANTS(forward_columns, s.vertical, h, middle, w, column_shift(s), c);
}

#endif
