/* Blocks of kind 0 by the even and odd halves of each line, in the shape of today's decoders and encoders: line by line, a
 * function for each size, the odd half of each size a product, the rest the size below it. */
#include "bench.h"

#include <stddef.h>

static int16_t weights[LONGEST][LONGEST]; /* of 32 points; row i of n points is its row i * 32 / n */

void halves_prepare(void) {
    for (int i = 0; i < LONGEST; i++)
        for (int j = 0; j < LONGEST; j++) weights[i][j] = (int16_t)weight(DCT_II, LONGEST, i, j);
}

/* N points: even inputs to the H points below, odd ones to their own sums; inputs stand `step` apart. */
#define HALVES(N, H)                                                                              \
    static inline void inverse_##N(const int16_t *x, ptrdiff_t step, int32_t *z) {                \
        int32_t even[H];                                                                          \
        inverse_##H(x, 2 * step, even);                                                           \
        for (int j = 0; j < H; j++) {                                                             \
            int32_t odd = 0;                                                                      \
            for (int i = 1; i < N; i += 2) odd += weights[i * (LONGEST / N)][j] * x[i * step];    \
            z[j] = even[j] + odd;                                                                 \
            z[N - 1 - j] = even[j] - odd;                                                         \
        }                                                                                         \
    }                                                                                             \
    static inline void forward_##N(const int32_t *x, ptrdiff_t step, int32_t *y) {                \
        int32_t sum[H], difference[H];                                                            \
        for (int j = 0; j < H; j++) {                                                             \
            sum[j] = x[j] + x[N - 1 - j];                                                         \
            difference[j] = x[j] - x[N - 1 - j];                                                  \
        }                                                                                         \
        forward_##H(sum, 2 * step, y);                                                            \
        for (int i = 1; i < N; i += 2) {                                                          \
            int32_t odd = 0;                                                                      \
            for (int j = 0; j < H; j++) odd += weights[i * (LONGEST / N)][j] * difference[j];     \
            y[i * step] = odd;                                                                    \
        }                                                                                         \
    }

static inline void inverse_1(const int16_t *x, ptrdiff_t step, int32_t *z) { (void)step, z[0] = 64 * x[0]; }
static inline void forward_1(const int32_t *x, ptrdiff_t step, int32_t *y) { (void)step, y[0] = 64 * x[0]; }
HALVES(2, 1)
HALVES(4, 2)
HALVES(8, 4)
HALVES(16, 8)
HALVES(32, 16)

static void inverse_line(int n, const int16_t *x, ptrdiff_t step, int32_t *z) {
    if (n == 4) inverse_4(x, step, z);
    else if (n == 8) inverse_8(x, step, z);
    else if (n == 16) inverse_16(x, step, z);
    else inverse_32(x, step, z);
}

static void forward_line(int n, const int32_t *x, int32_t *y) {
    if (n == 4) forward_4(x, 1, y);
    else if (n == 8) forward_8(x, 1, y);
    else if (n == 16) forward_16(x, 1, y);
    else forward_32(x, 1, y);
}

void halves_inverse(hoengtila_shape s, const int16_t *c, int32_t *residuals) {
    int w = (int)s.width, h = (int)s.height;
    int16_t middle[LARGEST];
    int32_t z[LONGEST];
    for (int x = 0; x < w; x++) {
        inverse_line(h, c + x, w, z);
        for (int y = 0; y < h; y++) middle[y * w + x] = middle_of(z[y]);
    }
    for (int y = 0; y < h; y++) {
        inverse_line(w, middle + y * w, 1, z);
        for (int x = 0; x < w; x++) residuals[y * w + x] = rounded(z[x], residual_shift(s));
    }
}

void halves_forward(hoengtila_shape s, const int16_t *residuals, int16_t *c) {
    int w = (int)s.width, h = (int)s.height;
    int32_t middle[LARGEST], x[LONGEST], y[LONGEST];
    for (int row = 0; row < h; row++) {
        for (int k = 0; k < w; k++) x[k] = residuals[row * w + k];
        forward_line(w, x, y);
        for (int k = 0; k < w; k++) middle[k * h + row] = rounded(y[k], row_shift(s));
    }
    for (int column = 0; column < w; column++) {
        forward_line(h, middle + column * h, y);
        for (int k = 0; k < h; k++) c[k * w + column] = (int16_t)rounded(y[k], column_shift(s));
    }
}
