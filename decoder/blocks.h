/* The file of recorded blocks, decoder/blocks.bin: the fields of the call, the coefficients, and the residuals that a decoder made of them.
 * decoder/record.h writes it inside the decoder, and decoder/replay.c runs it on the library where no decoder is.
 *
 * The file is a row of numbers in nibbles, the high half of a byte first. A nibble has three bits of its number, the lowest first, and 8 if
 * another follows. A signed number v is written as 2v, or -2v - 1 if it is below 0. A block is
 *   the eleven fields of hoengtila_transform_block, in their order
 *   columns * rows coefficients, signed, row by row: all that is read
 *   how the residuals are foretold: 0 as 0; 1 by the left one, in the first column by the one above; 2 by left + above - above left,
 *   where what lies beyond the edges is 0
 *   width * height residuals, signed, row by row, less what is foretold
 * and a width of 0 ends the file. */
#include <hoengtila.h>
#include <stdint.h>
#include <stdio.h>

/* What foretells the residual at a place of a block of that width. */
static inline int32_t hoengtila_foretold(uint32_t way, const int32_t *residuals, uint32_t width, uint32_t place)
{
    const int first_column = place % width == 0, first_row = place < width;
    const int32_t left = first_column ? 0 : residuals[place - 1], above = first_row ? 0 : residuals[place - width];
    if (way == 0)
        return 0;
    if (way == 1)
        return first_column ? above : left;
    return left + above - (first_column || first_row ? 0 : residuals[place - width - 1]);
}
