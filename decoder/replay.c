/* Runs the recorded blocks on the library, and compares each residual with the one that a decoder made.
 *   replay FILE              status 0 if all are equal, 1 if not, 2 if the file is not of the format (decoder/blocks.h)
 *   replay FILE exchange     hands the library DST-VII for DCT-VIII and the other way round, which has to show
 *   replay FILE transpose    and so has this: the other order of LFNST's values */
#include "blocks.h"
#include <stdlib.h>
#include <string.h>

enum { MOST = 64 * 64, UNREAD = 0x7fffffff };

static FILE *file;
static enum { NONE, EXCHANGE, TRANSPOSE } error;

static struct {
    unsigned long blocks, residuals, rails, refused, different;
    /* what was met: sides; sides and kinds; sides with LFNST, index, set and order; depth and switch */
    char sides[49], kinds[49 * 9], lfnst[49 * 16], depths[9 * 2];
} seen;

static uint32_t nibble(void)
{
    static int byte, count;
    if (count++ % 2)
        return byte & 15;
    byte = fgetc(file);
    if (byte == EOF) {
        fprintf(stderr, "replay: the file ends inside a block\n");
        exit(2);
    }
    return byte >> 4;
}

static uint32_t number(void)
{
    uint32_t value = 0, more = 8;
    for (int shift = 0; more; shift += 3) {
        const uint32_t next = nibble();
        if (shift < 32)
            value |= (next & 7) << shift;
        more = next & 8;
    }
    return value;
}

static int32_t signed_number(void)
{
    const uint32_t folded = number();
    return folded % 2 ? -(int32_t) (folded / 2) - 1 : (int32_t) (folded / 2);
}

/* Whether the arrays can hold it; the call itself is to refuse what else is wrong. */
static int is_sound(const hoengtila_transform_block *b)
{
    return b->width <= 64 && b->height >= 1 && b->height <= 64 && b->columns <= b->width && b->rows <= b->height && b->horizontal < 3 &&
           b->vertical < 3 && b->depth >= 8 && b->depth <= 16 && b->extended < 2 && b->lfnst < 3 && b->set < 4 && b->transposed < 2;
}

static int read_fields(hoengtila_transform_block *b)
{
    uint32_t *const fields[] = {&b->width, &b->height, &b->horizontal, &b->vertical, &b->depth, &b->extended,
                                &b->columns, &b->rows, &b->lfnst, &b->set, &b->transposed};
    if ((b->width = number()) == 0)
        return 0;
    for (int k = 1; k < 11; k++)
        *fields[k] = number();
    if (!is_sound(b)) {
        fprintf(stderr, "replay: block %lu has fields that no stream has\n", seen.blocks + 1);
        exit(2);
    }
    return 1;
}

/* Beyond the columns and rows that are read stands what no stream has: it is to count as 0. */
static void read_coefficients(const hoengtila_transform_block *b, int32_t *numbers)
{
    for (uint32_t place = 0; place < b->width * b->height; place++)
        numbers[place] = place % b->width < b->columns && place / b->width < b->rows ? signed_number() : UNREAD;
}

static void read_residuals(const hoengtila_transform_block *b, int32_t *residuals)
{
    const uint32_t way = number();
    for (uint32_t place = 0; place < b->width * b->height; place++)
        residuals[place] = signed_number() + hoengtila_foretold(way, residuals, b->width, place);
}

static int log2_of(uint32_t side) { return side <= 1 ? 0 : 1 + log2_of(side / 2); }

static void count(const hoengtila_transform_block *b)
{
    const int sides = log2_of(b->width) * 7 + log2_of(b->height);
    seen.blocks++;
    seen.residuals += b->width * b->height;
    seen.sides[sides] = 1;
    seen.kinds[sides * 9 + b->horizontal * 3 + b->vertical] = 1;
    if (b->lfnst)
        seen.lfnst[sides * 16 + (b->lfnst - 1) * 8 + b->set * 2 + b->transposed] = 1;
    seen.depths[(b->depth - 8) * 2 + b->extended] = 1;
}

static void print_block(const hoengtila_transform_block *b)
{
    printf("block %lu: %ux%u, kinds %u %u, depth %u, extended %u, columns %u, rows %u, lfnst %u, set %u, transposed %u: ", seen.blocks, b->width,
           b->height, b->horizontal, b->vertical, b->depth, b->extended, b->columns, b->rows, b->lfnst, b->set, b->transposed);
}

/* The first of each is told, but where errors are asked for. */
static void compare(const hoengtila_transform_block *b, hoengtila_answer answer, const int32_t *numbers, const int32_t *residuals)
{
    uint32_t place = 0;
    if (answer.number != 0) {
        if (!seen.refused++ && error == NONE) {
            print_block(b);
            printf("refusal %u, place %u\n", answer.number, answer.place);
        }
        return;
    }
    seen.rails += answer.rails != 0;
    while (place < b->width * b->height && numbers[place] == residuals[place])
        place++;
    if (place < b->width * b->height && !seen.different++ && error == NONE) {
        print_block(b);
        printf("place %u has %d, and %d from the decoder\n", place, numbers[place], residuals[place]);
    }
}

static void make_error(hoengtila_transform_block *b)
{
    if (error == EXCHANGE) {
        b->horizontal = (3 - b->horizontal) % 3;
        b->vertical = (3 - b->vertical) % 3;
    }
    if (error == TRANSPOSE && b->lfnst)
        b->transposed = 1 - b->transposed;
}

static void replay(hoengtila_transform_block b)
{
    static int32_t numbers[MOST], residuals[MOST];
    hoengtila_answer answer;
    read_coefficients(&b, numbers);
    read_residuals(&b, residuals);
    count(&b);
    make_error(&b);
    answer = hoengtila_transform_block_inverse(b, numbers, b.width * b.height);
    compare(&b, answer, numbers, residuals);
}

static int met(const char *list, int length)
{
    int sum = 0;
    for (int k = 0; k < length; k++)
        sum += list[k];
    return sum;
}

int main(int argc, char **argv)
{
    hoengtila_transform_block block;
    if (argc < 2 || !(file = fopen(argv[1], "rb"))) {
        fprintf(stderr, "usage: replay FILE [exchange|transpose]\n");
        return 2;
    }
    if (argc == 3)
        error = strcmp(argv[2], "exchange") ? TRANSPOSE : EXCHANGE;
    while (read_fields(&block))
        replay(block);
    printf("%lu blocks, %lu residuals: %lu refused, %lu different\n", seen.blocks, seen.residuals, seen.refused, seen.different);
    printf("%d pairs of sides, %d with kinds, %d with LFNST's index, set and order, %d of depth and switch, %lu blocks with rails\n",
           met(seen.sides, sizeof seen.sides), met(seen.kinds, sizeof seen.kinds), met(seen.lfnst, sizeof seen.lfnst),
           met(seen.depths, sizeof seen.depths), seen.rails);
    return seen.refused || seen.different;
}
