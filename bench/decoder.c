/* Inverse blocks as a decoder has them, with sides of 1 to 64: lines of kind 0 by even and odd halves with the weights as constants,
 * those of the other kinds by the product over the live inputs, in place over 32-bit numbers. The decoder is told the live part, the
 * columns and rows of the shape; all other numbers are 0. */
#include "bench.h"
#include "matrices.h"
#include "odd_rows.h"

#include <stddef.h>
#include <string.h>

/* The N sums of the first `live` inputs, which stand `stride` apart; N and live are constants. Even inputs go to the H points
 * below, odd ones to their own sums. */
#define SUMS(N, H)                                                                                     \
    ALWAYS void sums_##N(const int32_t *x, ptrdiff_t stride, int live, int32_t *z) {                   \
        int32_t even[H];                                                                               \
        sums_##H(x, 2 * stride, (live + 1) / 2, even);                                                 \
        UNROLLED for (int j = 0; j < H; j++) {                                                         \
            int32_t odd = 0;                                                                           \
            UNROLLED for (int i = 1; i < live; i += 2) odd += odd_weight(N, i, j) * x[i * stride];     \
            z[j] = even[j] + odd;                                                                      \
            z[N - 1 - j] = even[j] - odd;                                                              \
        }                                                                                              \
    }

/* A line in place. The number of its live inputs, at most 32, is rounded up to a power of two, and each has code of its own. */
#define LINE(N, STORES)                                                           \
    ALWAYS void replace_##N(int32_t *x, ptrdiff_t stride, int live) {             \
        int32_t z[N];                                                             \
        sums_##N(x, stride, live, z);                                             \
        STORES for (int j = 0; j < N; j++) x[j * stride] = z[j];                  \
    }                                                                             \
    static void line_##N(int32_t *x, ptrdiff_t stride, int live) {                \
        if (N == 2 || live <= 2) replace_##N(x, stride, 2);                       \
        else if (N == 4 || live <= 4) replace_##N(x, stride, 4);                  \
        else if (N == 8 || live <= 8) replace_##N(x, stride, 8);                  \
        else if (N == 16 || live <= 16) replace_##N(x, stride, 16);               \
        else replace_##N(x, stride, 32);                                          \
    }

ALWAYS void sums_1(const int32_t *x, ptrdiff_t stride, int live, int32_t *z) { (void)stride, (void)live, z[0] = 64 * x[0]; }
SUMS(2, 1)
SUMS(4, 2)
SUMS(8, 4)
SUMS(16, 8)
SUMS(32, 16)
SUMS(64, 32)
LINE(2, UNROLLED)
LINE(4, UNROLLED)
LINE(8, UNROLLED)
LINE(16, UNROLLED)
LINE(32, ROLLED) /* 32 sums do not fit in registers */
LINE(64, ROLLED)

/* kinds 1 and 2: the row of weights of each input that can be live */
static int8_t rows_4[2][4 * 4], rows_8[2][8 * 8], rows_16[2][16 * 16], rows_32[2][KEPT * 32];

ALWAYS void product(const int8_t *rows, int n, int32_t *x, ptrdiff_t stride, int live) {
    int32_t inputs[KEPT];
    for (int i = 0; i < live; i++) inputs[i] = x[i * stride];
    for (int j = 0; j < n; j++) {
        int32_t sum = 0;
        for (int i = 0; i < live; i++) sum += rows[i * n + j] * inputs[i];
        x[j * stride] = sum;
    }
}

#define PRODUCT(N)                                                                                                      \
    static void dst7_##N(int32_t *x, ptrdiff_t stride, int live) { product(rows_##N[0], N, x, stride, live); }          \
    static void dct8_##N(int32_t *x, ptrdiff_t stride, int live) { product(rows_##N[1], N, x, stride, live); }
PRODUCT(4)
PRODUCT(8)
PRODUCT(16)
PRODUCT(32)

static void fill_rows(int n, int kind, int8_t *rows) {
    for (int i = 0; i < kept(n); i++)
        for (int j = 0; j < n; j++) rows[i * n + j] = (int8_t)weight(kind, n, i, j);
}

void decoder_prepare(void) {
    for (int k = 0; k < 2; k++) {
        fill_rows(4, DST_VII + k, rows_4[k]);
        fill_rows(8, DST_VII + k, rows_8[k]);
        fill_rows(16, DST_VII + k, rows_16[k]);
        fill_rows(32, DST_VII + k, rows_32[k]);
    }
}

typedef void line(int32_t *x, ptrdiff_t stride, int live);

static line *line_of(int kind, int n) {
    static line *const by_size[3][6] = {
        {line_2, line_4, line_8, line_16, line_32, line_64}, {0, dst7_4, dst7_8, dst7_16, dst7_32, 0}, {0, dct8_4, dct8_8, dct8_16, dct8_32, 0}};
    return by_size[kind][log2_of(n) - 1];
}

/* Four columns at a time, a vector of them; what stands beyond the live ones is 0 and stays so. */
static void clip_middle(int w, int h, int columns, int32_t *c) {
    if (w < 4)
        for (int k = 0; k < w * h; k++) c[k] = middle_of(c[k]);
    else for (int x = 0; x < columns; x += 4)
        for (int y = 0; y < h; y++)
            for (int k = x; k < x + 4; k++) c[y * w + k] = middle_of(c[y * w + k]);
}

static void round_all(int elements, int shift, int32_t *c) {
    for (int k = 0; k < elements; k++) c[k] = rounded(c[k], shift);
}

/* One coefficient of kind 0: every residual is the same. */
static void fill_all(int elements, int shift, int32_t sum, int32_t *c) {
    int32_t residual = rounded(sum, shift);
    for (int k = 0; k < elements; k++) c[k] = residual;
}

/* A side of 1: one stage. */
static void one_stage(int kind, int n, int live, int shift, int32_t *c) {
    if (kind == DCT_II && live == 1) {
        fill_all(n, shift, 64 * c[0], c);
        return;
    }
    line_of(kind, n)(c, 1, live);
    round_all(n, shift, c);
}

void decoder_inverse(hoengtila_shape s, int32_t *c) {
    int w = (int)s.width, h = (int)s.height, columns = columns_of(s), rows = rows_of(s);
    if (w == 1 || h == 1) {
        one_stage((int)(w == 1 ? s.vertical : s.horizontal), w * h, w == 1 ? rows : columns, residual_shift(s) + 1, c);
        return;
    }
    if (columns == 1 && rows == 1 && s.horizontal == DCT_II && s.vertical == DCT_II) {
        fill_all(w * h, residual_shift(s), 64 * middle_of(64 * c[0]), c);
        return;
    }
    line *down = line_of((int)s.vertical, h), *along = line_of((int)s.horizontal, w);
    for (int x = 0; x < columns; x++) down(c + x, w, rows);
    clip_middle(w, h, columns, c);
    for (int y = 0; y < h; y++) along(c + y * w, 1, columns);
    round_all(w * h, residual_shift(s), c);
}

/* Each value is a column of the matrix times the inputs. */
static void low_values(const int8_t *matrix, int inputs, int outputs, const int32_t *u, int32_t *v) {
    for (int j = 0; j < outputs; j++) {
        int32_t sum = 0;
        for (int i = 0; i < inputs; i++) sum += u[i] * matrix[i * outputs + j];
        v[j] = middle_of(sum);
    }
}

/* Row by row, or column by column; 48 values leave the last 4 by 4 out. */
static void low_places(int side, int transposed, const int32_t *v, int w, int32_t *c) {
    for (int y = 0; y < side; y++) {
        int count = y < 4 ? side : 4;
        if (transposed)
            for (int x = 0; x < count; x++) c[x * w + y] = v[x];
        else memcpy(c + y * w, v, (size_t)count * sizeof *c);
        v += count;
    }
}

void decoder_inverse_low(hoengtila_shape s, int index, int set, int transposed, int32_t *c) {
    static const uint8_t columns[] = {0, 0, 1, 0, 1, 2, 0, 1, 2, 3, 1, 2, 3, 2, 3, 3}, rows[] = {0, 1, 0, 2, 1, 0, 3, 2, 1, 0, 3, 2, 1, 3, 2, 3};
    int w = (int)s.width, h = (int)s.height, side = w >= 8 && h >= 8 ? 8 : 4, outputs = side == 8 ? 48 : 16;
    int inputs = w == h && w <= 8 ? 8 : 16, matrix = 2 * set + index - 1;
    int32_t u[16], v[48];
    for (int i = 0; i < inputs; i++) u[i] = c[rows[i] * w + columns[i]];
    low_values(matrices + (side == 8 ? 8 * 16 * 16 + matrix * 16 * 48 : matrix * 16 * 16), inputs, outputs, u, v);
    for (int y = 0; y < 4; y++) memset(c + y * w, 0, 4 * sizeof *c);
    low_places(side, transposed, v, w, c);
    s.columns = s.rows = (uint32_t)side;
    decoder_inverse(s, c);
}
