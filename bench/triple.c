/* The same triple loops where every bound of a line is a constant, so that a compiler can unroll them. */
#define KEPT_OF(N, SOME) ((void)(SOME), (N) < KEPT ? (N) : KEPT)
#include "triple.h"

void triple_prepare(void) { fill_tables(); }
void triple_inverse(hoengtila_shape s, const int16_t *c, int32_t *residuals) { inverse(s, c, residuals); }
void triple_forward(hoengtila_shape s, const int16_t *residuals, int16_t *c) { forward(s, residuals, c); }
