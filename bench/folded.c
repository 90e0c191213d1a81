/* The sharing between weights in this library's shape. A row of weights is added up over its first places only, 12 of 16
 * and 28 of 32, the rows where p divides 2i+1 apart from the others ((p, q) is (3, 11) and (5, 13)); the last places
 * follow from those sums. Nothing is shared at 8 points, nor where half of the sums are dropped, forward at 32. */
#define EACH_PLACE ROLLED
#include "stages.h"

enum { PLACES_16 = 12, PLACES_32 = 28 };

static int16_t inverse_8[3][8 * 8], inverse_16[3][16 * PLACES_16], inverse_32[3][16 * PLACES_32];
static int16_t forward_8[3][8 * 8], forward_16[3][16 * PLACES_16], forward_32[3][32 * 16];

/* "C[i][j] = (-1)^i * S[i][N-1-j]": its rows are those of S with alternate signs, and its sums are read backwards. */
static int16_t inverse_weight(int kind, int n, int i, int j) {
    return (int16_t)((kind == DCT_VIII && i % 2 ? -1 : 1) * weight(DST_VII, n, i, j));
}

/* C is its own transpose, and S[i][j] = -(-1)^(i+j) * S[N-1-j][N-1-i]: its sums are read backwards with alternate signs. */
static int16_t forward_weight(int kind, int n, int i, int j) {
    if (kind == DCT_VIII) return inverse_weight(kind, n, i, j);
    return (int16_t)((i % 2 ? 1 : -1) * weight(DST_VII, n, n - 1 - i, j));
}

static void prepare_kind(int kind) {
    for (int k = 0; k < 64; k++) {
        inverse_8[kind][k] = (int16_t)weight(kind, 8, k / 8, k % 8);
        forward_8[kind][k] = (int16_t)weight(kind, 8, k % 8, k / 8);
    }
    for (int k = 0; k < 16 * PLACES_16; k++) {
        inverse_16[kind][k] = inverse_weight(kind, 16, k / PLACES_16, k % PLACES_16);
        forward_16[kind][k] = forward_weight(kind, 16, k / PLACES_16, k % PLACES_16);
    }
    for (int k = 0; k < 16 * PLACES_32; k++)
        inverse_32[kind][k] = inverse_weight(kind, 32, k / PLACES_32, k % PLACES_32);
    for (int k = 0; k < 32 * 16; k++) forward_32[kind][k] = (int16_t)weight(kind, 32, k % 16, k / 16);
}

void folded_prepare(void) {
    prepare_kind(DST_VII);
    prepare_kind(DCT_VIII);
}

/* Every `every`th input from `first` on, times its row of weights. */
ALWAYS void add(const int16_t *restrict table, int places, int first, int every, int inputs, const int16_t *x, int step,
                int32_t *restrict sums) {
    for (int i = first; i < inputs; i += every)
        if (x[i * step] != 0) add_row(sums, x[i * step], table + i * places, places);
}

ALWAYS void clear(int32_t *sums, int places) {
    for (int j = 0; j < places; j++) sums[j] = 0;
}

/* "s1+s10=s12" and its like; the rows of the class of their own are i, i+3 and so on, with `own` for i. */
ALWAYS void line_16(const int16_t *table, int own, const int16_t *x, int step, int32_t *z) {
    int32_t a[PLACES_16], c[PLACES_16];
    clear(a, PLACES_16);
    clear(c, PLACES_16);
    add(table, PLACES_16, own, 3, 16, x, step, c);
    add(table, PLACES_16, (own + 1) % 3, 3, 16, x, step, a);
    add(table, PLACES_16, (own + 2) % 3, 3, 16, x, step, a);
    for (int j = 0; j < PLACES_16; j++) z[j] = a[j] + c[j];
    for (int k = 2; k <= 5; k++) z[10 + k] = a[k - 1] + a[10 - k] - c[k - 1];
}

/* "s(j) + s(j+26) + s(13-j) = s(j+13) + s(26-j)" */
ALWAYS void line_32(const int16_t *table, const int16_t *x, int step, int32_t *z) {
    int32_t a[PLACES_32], c[PLACES_32];
    clear(a, PLACES_32);
    clear(c, PLACES_32);
    add(table, PLACES_32, 2, 5, 16, x, step, c);
    for (int first = 0; first < 5; first++)
        if (first != 2) add(table, PLACES_32, first, 5, 16, x, step, a);
    for (int j = 0; j < PLACES_32; j++) z[j] = a[j] + c[j];
    for (int k = 3; k <= 6; k++) z[25 + k] = a[12 + k] + a[25 - k] - a[k - 1] - a[12 - k] + c[k - 1];
}

ALWAYS void product(const int16_t *table, int inputs, int outputs, const int16_t *x, int step, int32_t *sums) {
    clear(sums, outputs);
    add(table, outputs, 0, 1, inputs, x, step, sums);
}

/* "s1+s2=s4" */
ALWAYS void inverse_4(int x0, int x1, int x2, int x3, int32_t *z) {
    int a = x0 + x2, b = x2 + x3, c = x0 - x3, d = 74 * x1;
    z[0] = 29 * a + 55 * b + d;
    z[1] = 55 * c - 29 * b + d;
    z[2] = 74 * (x0 - x2 + x3);
    z[3] = 55 * a + 29 * c - d;
}

ALWAYS void forward_4(int x0, int x1, int x2, int x3, int32_t *y) {
    int a = x0 + x3, b = x1 + x3, c = x0 - x1, d = 74 * x2;
    y[0] = 29 * a + 55 * b + d;
    y[1] = 74 * (x0 + x1 - x3);
    y[2] = 29 * c + 55 * a - d;
    y[3] = 55 * c - 29 * b + d;
}

ALWAYS void turn(const int32_t *z, int n, int32_t *sums) {
    for (int j = 0; j < n; j++) sums[j] = z[n - 1 - j];
}

ALWAYS void line_4(int kind, int forward, const int16_t *x, int step, int32_t *sums) {
    int32_t z[4];
    if (kind == DCT_VIII) {
        inverse_4(x[0], -x[step], x[2 * step], -x[3 * step], z);
        turn(z, 4, sums);
    } else if (forward) {
        forward_4(x[0], x[step], x[2 * step], x[3 * step], sums);
    } else {
        inverse_4(x[0], x[step], x[2 * step], x[3 * step], sums);
    }
}

ALWAYS void inverse_line(int kind, int n, const int16_t *x, int step, int32_t *sums) {
    int32_t z[LONGEST], *to = kind == DCT_VIII ? z : sums;
    if (n == 4) { line_4(kind, 0, x, step, sums); return; }
    if (n == 8) { product(inverse_8[kind], 8, 8, x, step, sums); return; }
    if (n == 16) line_16(inverse_16[kind], 1, x, step, to);
    else line_32(inverse_32[kind], x, step, to);
    if (kind == DCT_VIII) turn(z, n, sums);
}

ALWAYS void forward_line(int kind, int n, const int16_t *x, int step, int32_t *sums) {
    int32_t z[16];
    if (n == 4) { line_4(kind, 1, x, step, sums); return; }
    if (n == 8) { product(forward_8[kind], 8, 8, x, step, sums); return; }
    if (n == 32) { product(forward_32[kind], 32, 16, x, step, sums); return; }
    line_16(forward_16[kind], kind == DST_VII ? 2 : 1, x, step, z);
    turn(z, 16, sums);
    if (kind == DST_VII)
        for (int j = 1; j < 16; j += 2) sums[j] = -sums[j];
}

void folded_inverse(hoengtila_shape s, const int16_t *c, int32_t *residuals) { inverse_stages(s, c, residuals); }
void folded_forward(hoengtila_shape s, const int16_t *residuals, int16_t *c) { forward_stages(s, residuals, c); }
