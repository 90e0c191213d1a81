/* The reference software's shape: how many places of a line are kept is an argument. */
#define KEPT_OF(N, SOME) (SOME)
#include "triple.h"

void reference_prepare(void) { fill_tables(); }
void reference_inverse(hoengtila_shape s, const int16_t *c, int32_t *residuals) { inverse(s, c, residuals); }
void reference_forward(hoengtila_shape s, const int16_t *residuals, int16_t *c) { forward(s, residuals, c); }
