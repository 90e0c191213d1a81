/* What the parts of the benchmark share: weights, and the implementations of a block that are held against the library. */
#ifndef BENCH_H
#define BENCH_H

#include "hoengtila.h"

#define ALWAYS static inline __attribute__((always_inline))

/* gcc unrolls a loop of 16 or less before it looks for vectors, and then finds fewer; it keeps a loop of 8 as one vector */
#ifdef __clang__
#define ROLLED
#define UNROLLED _Pragma("clang loop unroll(full)")
#else
#define ROLLED _Pragma("GCC unroll 1")
#define UNROLLED _Pragma("GCC unroll 32")
#endif

enum { DCT_II = 0, DST_VII = 1, DCT_VIII = 2 };
enum { LONGEST = 32, KEPT = 16, LARGEST = LONGEST * LONGEST, LARGEST_TRANSFORM = 64 * 64 };

/* An inverse block takes coefficients and gives residuals, a forward block the reverse, as the library's calls do. The
 * shape is one that the library accepts, and so are the numbers: a baseline tests nothing and counts no rails. */
typedef void inverse_block(hoengtila_shape shape, const int16_t *coefficients, int32_t *residuals);
typedef void forward_block(hoengtila_shape shape, const int16_t *residuals, int16_t *coefficients);

inverse_block reference_inverse, triple_inverse, rows_inverse, folded_inverse, butterfly_inverse, halves_inverse;
forward_block reference_forward, triple_forward, rows_forward, folded_forward, butterfly_forward, halves_forward;

/* Coefficients to residuals in place; outside of the shape's columns and rows they are 0. A side may be 1, 2 or 64. */
void decoder_inverse(hoengtila_shape shape, int32_t *numbers);
/* The same behind LFNST, of an index from 1 and a set: the shape's columns and rows are at most 4, both kinds 0. */
void decoder_inverse_low(hoengtila_shape shape, int index, int set, int transposed, int32_t *numbers);

/* Each baseline makes its tables of the weights once. */
void reference_prepare(void), triple_prepare(void), rows_prepare(void), folded_prepare(void), halves_prepare(void), decoder_prepare(void);

int weight(int kind, int n, int i, int j);
int log2_of(int n);

/* the most that is kept of kinds 1 and 2; what a shape keeps */
static inline int kept(int n) { return n < KEPT ? n : KEPT; }
static inline int columns_of(hoengtila_shape s) { return (int)s.columns; }
static inline int rows_of(hoengtila_shape s) { return (int)s.rows; }

/* "The middle value is (e+64)>>7, clipped to -32768..32767"; the other three roundings take a shift */
static inline int16_t middle_of(int32_t e) {
    int32_t v = (e + 64) >> 7;
    return (int16_t)(v < -32768 ? -32768 : v > 32767 ? 32767 : v);
}
static inline int32_t rounded(int32_t sum, int shift) { return (sum + (1 << (shift - 1))) >> shift; }
static inline int residual_shift(hoengtila_shape s) { return 20 - (int)s.depth; }
static inline int row_shift(hoengtila_shape s) { return log2_of((int)s.width) + (int)s.depth - 9; }
static inline int column_shift(hoengtila_shape s) { return log2_of((int)s.height) + 6; }

#endif
