/* Hoengtila: DCT-II, DST-VII and DCT-VIII of VVC (H.266), forward and inverse, and the inverse of transform blocks with LFNST, for C and
 * C++ callers.
 *
 * Every function takes any numbers and any lengths. The caller has to see to three things. A pointer points to as many elements as the
 * length after it says; it may be null if that is 0. A pointer without a length is never null: `totals` points to 578 numbers, `shapes`
 * and `answers` of hoengtila_block_row to 64 of each, whatever `count` is. What a call writes does not overlap anything else that it is
 * given.
 *
 * A refused call returns one of the numbers below: the first that applies, in the order given with the function. It leaves its outputs
 * as they were, and every other number that it returns is 0, unless the function says otherwise. 8, 9 and 27 also return the place of
 * the first number that they refuse, column + row * width. An accepted call returns number 0 and place 0.
 *
 *   1  the width, or a line's length, is not 4, 8, 16 or 32 (thin blocks: or 1 beside 4, 8 or 16; transform blocks: or 1, 2 or 64);
 *      steps: there is no list of n points
 *   2  the height is not one of those; transform blocks: or both sides are 1
 *   3  the horizontal kind, or a line's kind, is not 0 (DCT-II), 1 (DST-VII) or 2 (DCT-VIII)
 *   4  the vertical kind is not 0, 1 or 2
 *   5  the depth is outside 8..12, or 8..16 for long numbers with the switch on and for transform blocks
 *   6  the input has another length than the call takes
 *   7  the output has another length than the call gives, or is too short
 *   8  inverse block: a coefficient other than 0 outside the kept part, which is the first `columns` columns and the first `rows` rows
 *   9  forward block: a residual of size above 2^depth - 1
 *  10  block file: a field's header or body is cut short
 *  11  block file: a tag other than 1 to 4
 *  12  block file: a shape, or kept numbers, of another length than theirs
 *  13  block file: data, or kept numbers, before any shape
 *  14  block file: more than 65,536 bytes
 *  15  asking why: the place is not below width * height
 *  16  row of blocks: more than 64
 *  17  steps: a cell is read that was not written
 *  18  steps: more than 2,048 steps or cells
 *  19  thin blocks: a work area is shorter than width * height
 *  20  the kept columns or the kept rows are 0, or more than hoengtila_shape_of gives; transform blocks: the columns or rows to
 *      read are 0, or more than hoengtila_transform_block_of gives, or with LFNST more than 4
 *  21  a line whose sums wrap: the order is not each of 0..n-1 once
 *  22  totals: 65,536 blocks were given before
 *  23  writing a picture: a residual outside -32768..32767
 *  24  reading a picture: the header is not that of such a graymap, or has sizes that 1 or 2 would refuse
 *  25  reading a picture: too few or too many samples
 *  26  saving a broken file: more than 1,024 dropped stretches
 *  27  long numbers: a coefficient outside the range; transform blocks: one that is read
 *  28  steps: a cell outside the list's number of cells, or more inputs than cells
 *  29  steps: the result of a step is outside 32 bits
 *  30  transform blocks: a kind other than 0 in a direction whose side is 2 or 64
 *  31  transform blocks: LFNST's index is above 2, its set above 3 or its flag above 1; or its index is not 0 and a side is below 4,
 *      or a kind is not 0
 *
 * 10 to 13 are met by the programs that read block files (`blocks`), and by no function here.
 *
 * In this order: the version; shapes and answers; lines; blocks; rows of blocks, long numbers and thin blocks; transform blocks, for
 * decoders; asking why; totals; pictures; broken files; steps.
 */
#ifndef HOENGTILA_H
#define HOENGTILA_H

#include <stddef.h>
#include <stdint.h>
#include <string.h>

#ifdef __cplusplus
extern "C" {
#endif

/* ---- The version ---- */

/* As a number, 10000 times the first number, 100 times the second, and the third; and as text. */
#define HOENGTILA_VERSION 301
#define HOENGTILA_VERSION_STRING "0.3.1"

/* The version of the library that is linked, which is HOENGTILA_VERSION of its own header. Before version 1 a program may call it where
 * HOENGTILA_VERSION / 100 of the header that it was compiled with is the same. Nothing is refused. */
uint32_t hoengtila_version(void);

/* ---- Shapes and answers ---- */

/* Seven numbers. hoengtila_shape_of fills the last two from the first five; a struct that is written by hand needs them, since
 * where they are left 0 every call refuses it with 20. */
typedef struct {
    uint32_t width;
    uint32_t height;
    uint32_t horizontal; /* kind of the rows: 0 DCT-II, 1 DST-VII, 2 DCT-VIII */
    uint32_t vertical;   /* kind of the columns */
    uint32_t depth;      /* bits of a sample: 8..12; to 16 for long numbers with the switch on */
    uint32_t columns;    /* kept columns: at least 1, at most min(width, 16), or min(width, 32) where horizontal is 0 */
    uint32_t rows;       /* kept rows: at least 1, at most min(height, 16), or min(height, 32) where vertical is 0 */
} hoengtila_shape;

/* What a line or a block hands back. */
typedef struct {
    uint32_t number; /* 0, or the number of the refusal */
    uint32_t place;  /* of the number that 8, 9 or 27 refuses: column + row * width */
    uint32_t rails;  /* inverse block: middle values that the clip altered */
} hoengtila_answer;

/* The shape that keeps the most columns and rows that it can. For less, set `columns` and `rows` after it: what lies beyond them has to
 * be 0 in the inverse (8), and the forward writes 0 there. Nothing is refused. */
hoengtila_shape hoengtila_shape_of(uint32_t width, uint32_t height, uint32_t horizontal, uint32_t vertical, uint32_t depth);

/* ---- Lines: n numbers of 16 bits in, n exact sums of 32 bits out, with no shift ---- */

/* With W(i, j) for hoengtila_weight(kind, n, i, j), the forward gives y[i], the sum over j of W(i, j) * x[j], and the inverse y[j], the
 * sum over i of W(i, j) * x[i]. The first two take the fast path, the others the full product of n * n multiplications; they give the
 * same. The fast path of DST-VII and DCT-VIII shares products between weights: 10, 136 and 664 multiplications at 4, 16 and 32 points;
 * at 8 nothing is shared, and it is the product. That of DCT-II goes by even and odd halves: 8, 24, 88 and 344 at 4, 8, 16 and 32.
 * What the fast path saves is multiplications, and not always time: on x86-64 the product is quicker at 16 and 32 points, except for
 * the inverse DCT-II (docs/PERFORMANCE.md has the times).
 * Refusals, in this order: 1, 3, 6, 7. 6 and 7: a buffer whose length is not n. */
hoengtila_answer hoengtila_line_forward(uint32_t n, uint32_t kind, const int16_t *x, size_t x_len, int32_t *y, size_t y_len);
hoengtila_answer hoengtila_line_inverse(uint32_t n, uint32_t kind, const int16_t *x, size_t x_len, int32_t *y, size_t y_len);
hoengtila_answer hoengtila_line_forward_product(uint32_t n, uint32_t kind, const int16_t *x, size_t x_len, int32_t *y, size_t y_len);
hoengtila_answer hoengtila_line_inverse_product(uint32_t n, uint32_t kind, const int16_t *x, size_t x_len, int32_t *y, size_t y_len);

/* The same by adders of 32 bits that wrap: for each output the sum starts from `start`, takes the n products in the given order
 * modulo 2^32, and has `start` taken off; `order` names the products by their inputs. Whatever `start` is, and in every order,
 * they give what the lines above give. Refusals, in this order: 1, 3, 6, 7, 21. */
hoengtila_answer hoengtila_line_forward_wrapped(uint32_t n, uint32_t kind, uint32_t start, const uint32_t *order, size_t order_len, const int16_t *x, size_t x_len, int32_t *y, size_t y_len);
hoengtila_answer hoengtila_line_inverse_wrapped(uint32_t n, uint32_t kind, uint32_t start, const uint32_t *order, size_t order_len, const int16_t *x, size_t x_len, int32_t *y, size_t y_len);

/* The weight of row i in column j at n points, n being 4, 8, 16 or 32; 0 for any other n, kind, row or column. Nothing is refused. */
int32_t hoengtila_weight(uint32_t kind, uint32_t n, uint32_t i, uint32_t j);

/* D(j): a line of n whole numbers of size at most M, taken forward and back with nothing rounded, comes back at place j as
 * 4096 * n times what it was, but for at most M * D(j), n being 4, 8, 16 or 32; 0 for any other n, kind or place. Nothing is refused. */
uint32_t hoengtila_stray(uint32_t kind, uint32_t n, uint32_t j);

/* ---- Blocks: width * height numbers, row by row ---- */

/* The inverse takes coefficients and gives residuals and the rail count; >> rounds down. Columns first: each kept column goes through the
 * inverse line over its kept rows, and a middle value is (sum + 64) >> 7, clipped to -32768..32767. Then rows: each goes through the
 * inverse line over its kept columns, and a residual is (sum + 2^(19 - depth)) >> (20 - depth), which is not clipped.
 * Refusals, in this order: 1, 2, 3, 4, 5, 20, 6, 7, 8. 6 and 7: a buffer whose length is not width * height. */
hoengtila_answer hoengtila_block_inverse(hoengtila_shape shape, const int16_t *coefficients, size_t coefficients_len, int32_t *residuals, size_t residuals_len);

/* The forward takes residuals and gives coefficients, 0 outside the kept part. Rows first: (sum + 2^(p - 1)) >> p of the forward line, with
 * p = log2(width) + depth - 9. Then columns: (sum + 2^(q - 1)) >> q, with q = log2(height) + 6. Nothing is clipped, as nothing leaves 16
 * bits, and the rail count is 0. Refusals, in this order: 1, 2, 3, 4, 5, 20, 6, 7, 9. */
hoengtila_answer hoengtila_block_forward(hoengtila_shape shape, const int16_t *residuals, size_t residuals_len, int16_t *coefficients, size_t coefficients_len);

/* ---- Rows of blocks, long numbers and thin blocks: the inverse ---- */

/* A row of blocks in one call: up to 64 inverse blocks, with one buffer of all coefficients and one of all residuals, in which
 * the blocks lie one after the other. Block k is handed its own stretch of both, and answers[k] is what hoengtila_block_inverse
 * hands back there; places are those in the block. A block that is refused keeps its stretch of the output, and the others go
 * on. A shape that 1 or 2 refuses has no stretch; one that another number refuses has its width * height.
 * The whole call hands back its number. Refusals, in this order: 16, 6, 7. 6 and 7: a buffer that is not as long as the stretches
 * together. No answer is written then.
 * `shapes` points to 64 shapes, of which the first `count` are read, and `answers` to 64 answers, of which the first `count` are
 * written. */
uint32_t hoengtila_block_row(const hoengtila_shape *shapes, size_t count, hoengtila_answer *answers, const int16_t *coefficients, size_t coefficients_len, int32_t *residuals, size_t residuals_len);

/* The same with arrays of `count` shapes and `count` answers, which may be null where `count` is 0. */
static inline uint32_t hoengtila_blocks_inverse(const hoengtila_shape *shapes, size_t count, hoengtila_answer *answers, const int16_t *coefficients, size_t coefficients_len, int32_t *residuals, size_t residuals_len) {
    hoengtila_shape list[64];
    hoengtila_answer told[64];
    uint32_t number;
    if (count >= 64) return hoengtila_block_row(shapes, count, answers, coefficients, coefficients_len, residuals, residuals_len);
    memset(list, 0, sizeof list);
    memset(told, 0, sizeof told);
    if (count != 0) memcpy(list, shapes, count * sizeof *list);
    number = hoengtila_block_row(list, count, told, coefficients, coefficients_len, residuals, residuals_len);
    if (number == 0 && count != 0) memcpy(answers, told, count * sizeof *told);
    return number;
}

/* Long numbers, of H.266's later edition: the inverse with coefficients of 32 bits. `extended` is the extended-precision switch, 0
 * for off and any other number for on. Coefficients and middle values are -2^R .. 2^R - 1, and the last shift is 5 + R - depth: with the
 * switch on R is max(15, min(20, depth + 6)), with it off 15. With the switch off and numbers of 16 bits it is hoengtila_block_inverse.
 * Refusals, in this order: 1, 2, 3, 4, 5, 20, 6, 7, 8, 27. */
hoengtila_answer hoengtila_block_inverse_long(hoengtila_shape shape, uint32_t extended, const int32_t *coefficients, size_t coefficients_len, int32_t *residuals, size_t residuals_len);

/* What thin blocks hand back. */
typedef struct {
    uint32_t number; /* 0, or the number of the refusal */
    uint32_t place;  /* of the number that 8 refuses: column + row * width */
    uint32_t rails;  /* middle values that the clip altered */
    uint32_t area;   /* which area starts with the residuals: 1 or 2; 0 where the call was refused */
} hoengtila_thin;

/* Thin blocks, one sample wide or high: the inverse over two work areas of at least width * height numbers each. In this call a
 * side may also be 1, where the other is 4, 8 or 16; its kind is tested (3, 4) but not used, and it keeps 1. Such a block has one stage,
 * with the last shift 21 - depth and no middle values: its residuals are the first width * height numbers of `first`, and `second`
 * stays. Any other block has two stages and the residuals of hoengtila_block_inverse, in `second`; `first` then has the middle values
 * at column + row * width, 0 in columns that are not kept. Numbers beyond width * height stay.
 * Refusals, in this order: 1, 2, 3, 4, 5, 20, 6, 19, 8. A refused call changes neither area. */
hoengtila_thin hoengtila_block_inverse_thin(hoengtila_shape shape, const int16_t *coefficients, size_t coefficients_len, int32_t *first, size_t first_len, int32_t *second, size_t second_len);

/* ---- Transform blocks: every block of a stream in one call, in place, for decoders; the inverse alone, of a block whose transform is
 * not skipped ---- */

/* Eleven numbers. hoengtila_transform_block_of fills the last six from the first five; a struct that is written by hand needs `columns`
 * and `rows`, since where they are left 0 the call refuses it with 20. */
typedef struct {
    uint32_t width;      /* 1, 2, 4, 8, 16, 32 or 64 */
    uint32_t height;     /* likewise; not both are 1 */
    uint32_t horizontal; /* kind of the rows: 0 DCT-II, 1 DST-VII, 2 DCT-VIII; 0 where the width is 2 or 64 */
    uint32_t vertical;   /* kind of the columns; 0 where the height is 2 or 64 */
    uint32_t depth;      /* bits of a sample: 8..16 */
    uint32_t extended;   /* the extended-precision switch: 0 off, any other number on */
    uint32_t columns;    /* columns that are read: at least 1, at most min(width, 16), or min(width, 32) where horizontal is 0 */
    uint32_t rows;       /* rows that are read: at least 1, at most min(height, 16), or min(height, 32) where vertical is 0 */
    uint32_t lfnst;      /* LFNST: 0 none, or its index, 1 or 2; then columns and rows are at most 4, both sides at least 4 and both kinds 0 */
    uint32_t set;        /* the set of its matrices: 0..3 */
    uint32_t transposed; /* where its values go: 0 row by row, 1 column by column */
} hoengtila_transform_block;

/* The block that reads the most columns and rows that it can, with the switch off and no LFNST. For fewer, for the switch and for LFNST,
 * set the last six after it. Nothing is refused. */
hoengtila_transform_block hoengtila_transform_block_of(uint32_t width, uint32_t height, uint32_t horizontal, uint32_t vertical, uint32_t depth);

/* The inverse in place: `numbers` has width * height coefficients, row by row, and then the residuals. What is read is the first `columns`
 * columns and the first `rows` rows: coefficients beyond them may be anything, and count as 0. Those that are read,
 * and middle values, are -2^R .. 2^R - 1: with the switch on R is max(15, min(20, depth + 6)), with it off 15. Two stages as in
 * hoengtila_block_inverse_long, and the last shift 5 + R - depth; at every depth, also with the switch off. A block with a side of 1 has one
 * stage, the line of its other side, with the last shift 6 + R - depth, no middle values and the rail count 0; the kind of the side of 1
 * is tested (3, 4) but not used. With LFNST its stage runs first: it takes 8 coefficients of the corner of 4 by 4 at sides of 4 by 4 and
 * 8 by 8, else 16, and gives 48 values at the start of the block where both sides are 8 or more, else 16, each -2^R .. 2^R - 1; the two
 * stages run on these, and the rail count is theirs. Which set, and whether transposed, follow from the intra mode: the caller's part.
 * Without LFNST, where hoengtila_block_inverse_long takes the same numbers at the same position of the switch, or with
 * the switch off hoengtila_block_inverse or hoengtila_block_inverse_thin, residuals and rail count are the same.
 * Refusals, in this order: 1, 2, 3, 4, 30, 5, 20, 31, 6, 27. 6: not width * height numbers. 27 has the place of the first such number, row
 * by row. */
hoengtila_answer hoengtila_transform_block_inverse(hoengtila_transform_block block, int32_t *numbers, size_t numbers_len);

/* ---- Asking why: what the residual at a place of an inverse block is made of ---- */

typedef struct {
    uint32_t number; /* 0, or the number of the refusal */
    uint32_t place;  /* of the number that 8 or 27 refuses: column + row * width */
    int64_t exact;   /* the exact double sum */
    int64_t middle_roundings; /* what rounding the middle values added */
    int64_t clippings;        /* what clipping added */
    int64_t last_rounding;    /* what the last rounding added */
} hoengtila_parts;

/* The four parts of the residual at a place, column + row * width. Put over 2^(27 - depth) they add up to the residual:
 * exact + middle_roundings + clippings + last_rounding is 2^(27 - depth) times what hoengtila_block_inverse writes there. `exact` is the
 * sum of all kept coefficients, each times its two weights, with nothing rounded; what rounding and clipping the middle values added is
 * carried through the horizontal weights. Refusals, in this order: 1, 2, 3, 4, 5, 20, 6, 8, 15. All four parts are 0 then. */
hoengtila_parts hoengtila_block_why(hoengtila_shape shape, const int16_t *coefficients, size_t coefficients_len, uint32_t place);

/* The same of long numbers: the residual is that of hoengtila_block_inverse_long, and the power is 2^(12 + R - depth), with R as there,
 * which is 2^(27 - depth) with the switch off. Refusals, in this order: 1, 2, 3, 4, 5, 20, 6, 8, 27, 15. */
hoengtila_parts hoengtila_block_why_long(hoengtila_shape shape, uint32_t extended, const int32_t *coefficients, size_t coefficients_len, uint32_t place);

/* ---- Totals: a report over blocks of residuals that are run forward and back ---- */

/* The caller keeps the totals, 578 numbers, which hoengtila_report_clear makes those of no blocks. For each width, height and pair of
 * kinds there are four, from
 *
 *   4 * (36 * a + 9 * b + 3 * horizontal + vertical)
 *
 * on, where a and b are 0, 1, 2 and 3 for a width and a height of 4, 8, 16 and 32: how many blocks; the sum of their rail counts;
 * the largest size of a difference between a residual and the one that came back; the sum of the squares of all differences.
 * totals[576] is how many blocks were refused, which no other total counts, and totals[577] how many were given. Nothing is refused. */
void hoengtila_report_clear(uint64_t totals[578]);

/* Adds a block, and hands back the rail count of the way back. Any 578 numbers are taken as totals, and sums are modulo 2^64; from the
 * totals of no blocks, no sum reaches 2^64. Refusals, in this order: 22, 1, 2, 3, 4, 5, 20, 6, 9. 22 leaves the totals as they were; with
 * any other the block is counted as given and as refused. */
hoengtila_answer hoengtila_report_add(uint64_t totals[578], hoengtila_shape shape, const int16_t *residuals, size_t residuals_len);

/* ---- Pictures: a block of residuals as a binary graymap ---- */

typedef struct {
    uint32_t number; /* 0, or the number of the refusal */
    uint32_t bytes;  /* how long the picture is, from the start of the output; 0 where refused */
} hoengtila_written;

/* P5, maximum value 65535, each sample the residual + 32768, high byte first: at most 15 + 2 * width * height bytes. What stands beyond
 * the picture stays. Refusals, in this order: 1, 2, 6, 23, 7. 7: an output too short to hold the picture. */
hoengtila_written hoengtila_picture_write(uint32_t width, uint32_t height, const int32_t *residuals, size_t residuals_len, uint8_t *file, size_t file_len);

typedef struct {
    uint32_t number; /* 0, or the number of the refusal */
    uint32_t width;  /* of the header, also where 25 or 7 refuses; 0 where 24 does */
    uint32_t height;
} hoengtila_picture;

/* Reads such a graymap, with any blanks, tabs, line ends and comments in its header. Refusals, in this order: 24, 25, 7. 7: an output
 * whose length is not width * height. */
hoengtila_picture hoengtila_picture_read(const uint8_t *file, size_t file_len, int32_t *residuals, size_t residuals_len);

/* ---- Broken files: what can be saved of a block file ---- */

/* A block file is a row of fields: a tag of one byte, a length of two, a body of so many bytes; the high byte comes first. Tag 1: a shape
 * in five bytes, from the width to the depth. Tag 2: the coefficients of an inverse, two bytes each; tag 3: the residuals of a forward.
 * Tag 4: the kept columns and the kept rows of the shape, a byte each. */
typedef struct {
    uint32_t number;    /* 0, or the number of the refusal */
    uint32_t bytes;     /* how long the new file is, from the start of the output */
    uint32_t stretches; /* how many stretches were dropped: two numbers each, from the start of the list */
} hoengtila_saved;

/* Writes a new file of the fields that can be read. From a place where reading stops it goes on to the next whole shape field with a
 * whole data field behind it, or with kept numbers (tag 4) and then a data field; what lies between is dropped. The list gets the offset
 * and the length of each dropped stretch. What stands beyond the new file and beyond the list stays. Coefficients and residuals are not
 * looked at, so a block may still meet 8 or 9 when it is run. Refusals, in this order: 14, 7, 26. 7: an output shorter than the file, or a
 * list of fewer than 2,048 numbers. */
hoengtila_saved hoengtila_salvage(const uint8_t *file, size_t file_len, uint8_t *out, size_t out_len, uint32_t *list, size_t list_len);

/* ---- Steps: a transform as a list of steps on numbered cells ---- */

/* The inputs stand in the first cells; each step writes one cell; `outs` names the cells of the outputs. `steps` has four numbers to a
 * step: the operation, the cell that it writes, the cell that it reads, and the second cell that it reads or the constant.
 *
 *   0  adds two cells                 2  negates a cell; the fourth number says nothing
 *   1  subtracts the second cell      any other: multiplies by the constant
 *
 * Fewer than four numbers at the end are no step. The cells that a step reads are looked at before it writes. */
typedef struct {
    uint32_t number; /* 0, or the number of the refusal */
    uint32_t count;  /* how many multiplying steps the run took; 0 where refused */
} hoengtila_step_count;

/* Any list: x holds the inputs, y takes the outputs. Refusals, in this order: 18, 6, 7, 28, 17, 29. 6 and 7: the length of x or y is not
 * the list's number of inputs or of outputs. More inputs than cells is 28, before any step. Then each step is tested for 28, 17 and 29,
 * and after the last step each output cell for 28 and 17. */
hoengtila_step_count hoengtila_steps_run(uint32_t inputs, uint32_t cells, const int32_t *steps, size_t steps_len, const int32_t *outs, size_t outs_len, const int16_t *x, size_t x_len, int32_t *y, size_t y_len);

typedef struct {
    uint32_t number; /* 0, or the number of the refusal; the others are told with 7 too */
    uint32_t inputs; /* how many inputs the list takes, in its first cells */
    uint32_t cells;  /* how many cells it has */
    uint32_t steps;  /* how many steps: four numbers each */
    uint32_t outs;   /* how many outputs it gives */
} hoengtila_listed;

/* The forward DST-VII of n points as a list: 18, 277 or 1,302 steps at 4, 16 or 32 points, 8, 127 or 620 of them multiplying. `steps` has
 * room for 72, 1,108 or 5,208 numbers and `outs` for n. Refusals, in this order: 1, 7. 1: n is not 4, 16 or 32. 7: a buffer of another
 * length; neither is written. */
hoengtila_listed hoengtila_steps_list(uint32_t n, int32_t *steps, size_t steps_len, int32_t *outs, size_t outs_len);

/* The forward DST-VII of n points by its list: what hoengtila_line_forward_product gives. Refusals, in this order: 1, 6, 7. 1 as above. */
hoengtila_step_count hoengtila_steps_forward(uint32_t n, const int16_t *x, size_t x_len, int32_t *y, size_t y_len);

#ifdef __cplusplus
}
#endif

#endif
