/* The unrolled partial butterfly: lines as bench/unroll.awk writes them, with the weights as constants. */
#define EACH_PLACE UNROLLED
#include "stages.h"

#include "unrolled.h"

#define CHOOSE(DIRECTION, KIND, N, ...)                       \
    if (N == 4) DIRECTION##_4_##KIND(__VA_ARGS__);            \
    else if (N == 8) DIRECTION##_8_##KIND(__VA_ARGS__);       \
    else if (N == 16) DIRECTION##_16_##KIND(__VA_ARGS__);     \
    else DIRECTION##_32_##KIND(__VA_ARGS__)

ALWAYS void inverse_line(int kind, int n, const int16_t *x, int step, int32_t *sums) {
    if (kind == DST_VII) {
        CHOOSE(inverse, 1, n, x, step, sums);
    } else {
        CHOOSE(inverse, 2, n, x, step, sums);
    }
}

ALWAYS void forward_line(int kind, int n, const int16_t *x, int step, int32_t *sums) {
    if (kind == DST_VII) {
        CHOOSE(forward, 1, n, x, step, sums);
    } else {
        CHOOSE(forward, 2, n, x, step, sums);
    }
}

void butterfly_inverse(hoengtila_shape s, const int16_t *c, int32_t *residuals) { inverse_stages(s, c, residuals); }
void butterfly_forward(hoengtila_shape s, const int16_t *residuals, int16_t *c) { forward_stages(s, residuals, c); }
