/* The inverse of a 4 by 4 block: one coefficient of 64, DST-VII in both directions, 10 bits. Prints the line that the
 * block file program prints for it. */
#include <hoengtila.h>
#include <stdio.h>

int main(void) {
    hoengtila_shape shape = hoengtila_shape_of(4, 4, 1, 1, 10);
    int16_t coefficients[16] = {64};
    int32_t residuals[16];
    hoengtila_answer answer = hoengtila_block_inverse(shape, coefficients, 16, residuals, 16);
    int k;

    if (answer.number != 0) {
        fprintf(stderr, "refused: number %u, place %u\n", (unsigned)answer.number, (unsigned)answer.place);
        return 1;
    }
    printf("I %u %u %u", (unsigned)shape.width, (unsigned)shape.height, (unsigned)answer.rails);
    for (k = 0; k < 16; k++) printf(" %ld", (long)residuals[k]);
    printf("\n");
    return 0;
}
