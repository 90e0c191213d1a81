/* Long numbers: a 4 by 4 block of 16 bits whose one coefficient leaves 16 bits, DCT-II in both directions. With the
 * extended-precision switch on it is taken; with it off, where 16 bits are too many for a depth, at 12 bits, the coefficient is
 * refused. */
#include <hoengtila.h>
#include <stdio.h>

static void print_inverse(uint32_t depth, uint32_t extended) {
    hoengtila_shape shape = hoengtila_shape_of(4, 4, 0, 0, depth);
    int32_t coefficients[16] = {300000};
    int32_t residuals[16] = {0};
    hoengtila_answer answer = hoengtila_block_inverse_long(shape, extended, coefficients, 16, residuals, 16);
    int k;

    printf("number %u, place %u:", (unsigned)answer.number, (unsigned)answer.place);
    for (k = 0; k < 16; k++) printf(" %ld", (long)residuals[k]);
    printf("\n");
}

int main(void) {
    print_inverse(16, 1);
    print_inverse(12, 0);
    return 0;
}
