/* The weights: kinds 1 and 2 by document 01's fold rule from the first rows, kind 0 by H.266's numbers of its odd rows. */
#include "bench.h"
#include "odd_rows.h"

/* first_4, first_8, first_16 and first_32, made of bench/first_rows */
#include "first_rows.h"

static const int *first_row(int n) { return n == 4 ? first_4 : n == 8 ? first_8 : n == 16 ? first_16 : first_32; }

static int dst_weight(int n, int i, int j) {
    int l = 2 * n + 1, m = (2 * i + 1) * (j + 1) % (2 * l), sign = m > l ? -1 : 1;
    m %= l;
    m = m < l - m ? m : l - m;
    return m == 0 ? 0 : sign * first_row(n)[m - 1];
}

/* an even row is a row of half the points and then the same backwards */
static int dct_weight(int n, int i, int j) {
    if (n == 1) return 64;
    if (i % 2 == 0) return dct_weight(n / 2, i / 2, j < n - 1 - j ? j : n - 1 - j);
    return odd_weight(n, i, j);
}

int weight(int kind, int n, int i, int j) {
    if (kind == DCT_II) return dct_weight(n, i, j);
    if (kind == DST_VII) return dst_weight(n, i, j);
    return (i % 2 ? -1 : 1) * dst_weight(n, i, n - 1 - j);
}

int log2_of(int n) { return n == 4 ? 2 : n == 8 ? 3 : n == 16 ? 4 : n == 32 ? 5 : n == 2 ? 1 : 6; }
