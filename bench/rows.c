/* The full product in this library's shape: a row of weights at a time added to local sums, an input of 0 passed over. */
#define EACH_PLACE
#include "stages.h"

/* by kind: the row of weights of each input. At 32 points only the kept inputs or outputs have any. */
static int16_t inverse_4[3][4 * 4], inverse_8[3][8 * 8], inverse_16[3][16 * 16], inverse_32[3][16 * 32];
static int16_t forward_4[3][4 * 4], forward_8[3][8 * 8], forward_16[3][16 * 16], forward_32[3][32 * 16];

static void fill(int n, int kind, int16_t *inverse, int16_t *forward) {
    int k = kept(n);
    for (int i = 0; i < k; i++)
        for (int j = 0; j < n; j++) {
            inverse[i * n + j] = (int16_t)weight(kind, n, i, j);
            forward[j * k + i] = (int16_t)weight(kind, n, i, j);
        }
}

void rows_prepare(void) {
    for (int kind = DST_VII; kind <= DCT_VIII; kind++) {
        fill(4, kind, inverse_4[kind], forward_4[kind]);
        fill(8, kind, inverse_8[kind], forward_8[kind]);
        fill(16, kind, inverse_16[kind], forward_16[kind]);
        fill(32, kind, inverse_32[kind], forward_32[kind]);
    }
}

ALWAYS void line(const int16_t *table, int inputs, int outputs, const int16_t *x, int step, int32_t *sums) {
    for (int j = 0; j < outputs; j++) sums[j] = 0;
    for (int i = 0; i < inputs; i++)
        if (x[i * step] != 0) add_row(sums, x[i * step], table + i * outputs, outputs);
}

ALWAYS void inverse_line(int kind, int n, const int16_t *x, int step, int32_t *sums) {
    const int16_t *table = n == 4 ? inverse_4[kind] : n == 8 ? inverse_8[kind] : n == 16 ? inverse_16[kind] : inverse_32[kind];
    line(table, kept(n), n, x, step, sums);
}

ALWAYS void forward_line(int kind, int n, const int16_t *x, int step, int32_t *sums) {
    const int16_t *table = n == 4 ? forward_4[kind] : n == 8 ? forward_8[kind] : n == 16 ? forward_16[kind] : forward_32[kind];
    line(table, n, kept(n), x, step, sums);
}

void rows_inverse(hoengtila_shape s, const int16_t *c, int32_t *residuals) { inverse_stages(s, c, residuals); }
void rows_forward(hoengtila_shape s, const int16_t *residuals, int16_t *c) { forward_stages(s, residuals, c); }
