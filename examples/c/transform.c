/* Transform blocks as a decoder has them, in place: the residuals stand where the coefficients stood. One of 64 by 64 with one
 * coefficient, told that one column and one row have any; one of 4 by 2, told that two columns have any, with other numbers in the
 * places that are not read; one of 1 by 16, with a coefficient that is refused: it stays as it was; and one of 8 by 8 with LFNST, of
 * index 1 and set 2. */
#include <hoengtila.h>
#include <stdio.h>

static int32_t large[64 * 64] = {1000};

static void print_inverse(hoengtila_transform_block block, int32_t *numbers, size_t shown) {
    size_t elements = (size_t)block.width * block.height, k;
    hoengtila_answer answer = hoengtila_transform_block_inverse(block, numbers, elements);

    printf("number %u, place %u, the first %u of %u:", (unsigned)answer.number, (unsigned)answer.place, (unsigned)shown, (unsigned)elements);
    for (k = 0; k < shown; k++) printf(" %ld", (long)numbers[k]);
    printf("\n");
}

int main(void) {
    hoengtila_transform_block block = hoengtila_transform_block_of(64, 64, 0, 0, 10);
    int32_t small[8] = {300, -120, 77777, 77777, 45, 60, 77777, 77777};
    int32_t line[16] = {500, 0, 0, 40000};
    int32_t corner[8 * 8] = {700, -90, 77777, 0, 0, 0, 0, 0, 250};

    block.columns = block.rows = 1;
    print_inverse(block, large, 8);
    block = hoengtila_transform_block_of(4, 2, 1, 0, 10);
    block.columns = 2;
    print_inverse(block, small, 8);
    print_inverse(hoengtila_transform_block_of(1, 16, 0, 0, 10), line, 4);
    block = hoengtila_transform_block_of(8, 8, 0, 0, 10);
    block.columns = block.rows = 2;
    block.lfnst = 1;
    block.set = 2;
    print_inverse(block, corner, 8);
    return 0;
}
