/* The cases of the benchmark: every implementation reads the same input, and writes where the others did. */
#include "cases.h"

#include "random.h"

#include <stdio.h>
#include <string.h>

enum { DEPTH = 10 };

/* a row is of blocks to 8 by 8 */
static int16_t input[ROW * 64];
static int32_t wide[LARGEST];
static int16_t coefficients[LARGEST];
static int32_t sums[ROW * 64];
static hoengtila_shape shapes[ROW];
static hoengtila_answer answers[ROW];

typedef hoengtila_answer line_call(uint32_t n, uint32_t kind, const int16_t *x, size_t x_len, int32_t *y, size_t y_len);

static void widen(hoengtila_shape s, const int16_t *numbers) {
    for (uint32_t k = 0; k < s.width * s.height; k++) wide[k] = numbers[k];
}

static void run_long(hoengtila_shape s, int32_t *residuals) {
    size_t elements = (size_t)s.width * s.height;
    hoengtila_block_inverse_long(s, 0, wide, elements, residuals, elements);
}

/* The library's call of long numbers with the switch off: what it gives is what the other call gives. Where it is timed, its
 * numbers are there (`run_case`). */
static void long_inverse(hoengtila_shape s, const int16_t *numbers, int32_t *residuals) {
    widen(s, numbers);
    run_long(s, residuals);
}

/* What the decoder works on is 32-bit numbers, which it overwrites. Where it is timed they are copied before each call; `copy` is
 * the copy alone, which the tables take off (`run_case`). */
static void copied_inverse(hoengtila_shape s, const int16_t *numbers, int32_t *residuals) {
    for (uint32_t k = 0; k < s.width * s.height; k++) residuals[k] = numbers[k];
    decoder_inverse(s, residuals);
}

static const char *const block_names[] = {"library", "reference", "triple", "rows", "folded", "butterfly", "halves", "long", "decoder", "copy"};
static inverse_block *const inverses[] = {0, reference_inverse, triple_inverse, rows_inverse, folded_inverse, butterfly_inverse, halves_inverse, long_inverse, copied_inverse, 0};
static forward_block *const forwards[] = {0, reference_forward, triple_forward, rows_forward, folded_forward, butterfly_forward, halves_forward, 0, 0, 0};
static const char *const row_names[] = {"one-call", "64-calls"};
static const char *const line_names[] = {"fast", "product"};
static line_call *const inverse_lines[] = {hoengtila_line_inverse, hoengtila_line_inverse_product};
static line_call *const forward_lines[] = {hoengtila_line_forward, hoengtila_line_forward_product};

void prepare(void) {
    reference_prepare();
    triple_prepare();
    rows_prepare();
    folded_prepare();
    halves_prepare();
    decoder_prepare();
}

const char *implementation_name(int i) { return block_names[i]; }
inverse_block *inverse_of(int i) { return inverses[i]; }
forward_block *forward_of(int i) { return forwards[i]; }

static hoengtila_shape shape_of(uint32_t width, uint32_t height, uint32_t kind) {
    return hoengtila_shape_of(width, height, kind, kind, DEPTH);
}

static hoengtila_shape keeping(hoengtila_shape s, uint32_t columns, uint32_t rows) {
    s.columns = columns, s.rows = rows;
    return s;
}

static const uint32_t sizes[][2] = {{4, 4}, {8, 8}, {16, 16}, {32, 32}, {32, 8}};

static int make_blocks(bench_case *cases, int forward) {
    static const char *const fills[] = {"dense", "corner", "one"};
    int count = 0;
    for (int s = 0; s < 5; s++)
        for (int f = 0; f < 3; f++)
            cases[count++] = (bench_case){.forward = forward, .shape = shape_of(sizes[s][0], sizes[s][1], DST_VII), .fill = fills[f]};
    cases[count++] = (bench_case){.forward = forward, .shape = keeping(shape_of(32, 32, DST_VII), 4, 4), .fill = "keeps-4x4"};
    cases[count++] = (bench_case){.forward = forward, .shape = shape_of(16, 16, DCT_VIII), .fill = "dct8"};
    return count;
}

static int make_forward_dct2(bench_case *cases) {
    static const char *const fills[] = {"dct2-dense", "dct2-corner", "dct2-one"};
    int count = 0;
    for (int s = 0; s < 5; s++)
        for (int f = 0; f < 3; f++)
            cases[count++] = (bench_case){.forward = 1, .shape = shape_of(sizes[s][0], sizes[s][1], DCT_II), .fill = fills[f]};
    return count;
}

static bench_case live_case(uint32_t width, uint32_t height, int live) {
    const char *fill = live == 1 ? "one" : live == 4 ? "corner" : live == 8 ? "live-8" : live == 16 ? "live-16" : "dense";
    return (bench_case){.shape = shape_of(width, height, DCT_II), .fill = fill, .live = live};
}

/* Inverse blocks of kind 0: width, height and the live part; 32 is dense. */
static int make_live(bench_case *cases) {
    static const uint8_t parts[][3] = {
        {4, 4, 32}, {4, 4, 1}, {8, 4, 32}, {8, 4, 4}, {8, 4, 1}, {4, 8, 32}, {4, 8, 4}, {4, 8, 1}, {8, 8, 32}, {8, 8, 4}, {8, 8, 1},
        {16, 4, 32}, {16, 4, 4}, {16, 4, 1}, {4, 16, 32}, {4, 16, 4}, {4, 16, 1}, {16, 8, 32}, {16, 8, 4}, {8, 16, 32}, {8, 16, 4},
        {16, 16, 32}, {16, 16, 8}, {16, 16, 4}, {16, 16, 1}, {32, 4, 32}, {4, 32, 32},
        {32, 8, 32}, {32, 8, 4}, {32, 8, 1}, {8, 32, 32}, {8, 32, 4}, {8, 32, 1}, {32, 16, 32}, {16, 32, 32},
        {32, 32, 32}, {32, 32, 16}, {32, 32, 8}, {32, 32, 4}, {32, 32, 1},
    };
    int count = 0;
    for (size_t k = 0; k < sizeof parts / sizeof *parts; k++) cases[count++] = live_case(parts[k][0], parts[k][1], parts[k][2]);
    return count;
}

static int make_lines(bench_case *cases, int forward) {
    int count = 0;
    for (uint32_t n = 4; n <= LONGEST; n *= 2)
        cases[count++] = (bench_case){.line = 1, .forward = forward, .shape = shape_of(n, 1, DST_VII), .fill = "dense"};
    for (uint32_t n = 4; n <= LONGEST; n *= 2)
        cases[count++] = (bench_case){.line = 1, .forward = forward, .shape = shape_of(n, 1, DCT_II), .fill = "dct2-dense"};
    return count;
}

static int make_rows(bench_case *cases) {
    cases[0] = (bench_case){.shape = shape_of(4, 4, DST_VII), .fill = "dense", .row = 1};
    cases[1] = (bench_case){.shape = shape_of(8, 8, DST_VII), .fill = "dense", .row = 1};
    return 2;
}

int make_cases(bench_case *cases) {
    int count = 0;
    for (int forward = 0; forward < 2; forward++) count += make_blocks(cases + count, forward);
    count += make_forward_dct2(cases + count);
    for (int forward = 0; forward < 2; forward++) count += make_lines(cases + count, forward);
    count += make_rows(cases + count);
    count += make_live(cases + count);
    count += make_transforms(cases + count);
    return count;
}

static int keeps_the_most(hoengtila_shape s) {
    hoengtila_shape most = hoengtila_shape_of(s.width, s.height, s.horizontal, s.vertical, s.depth);
    return s.columns == most.columns && s.rows == most.rows;
}

/* The library and the reference have every shape, the call of long numbers every inverse one, and the decoder every inverse one of
 * kind 0; of the others the halves have kind 0 alone, the rest kinds 1 and 2, and all keep the most. */
int has_shape(int i, int forward, hoengtila_shape s) {
    int dct2 = s.horizontal == DCT_II && s.vertical == DCT_II;
    if (i == LIBRARY || i == REFERENCE) return 1;
    if (i == LONG) return !forward;
    if (i == DECODER) return !forward && dct2;
    if (i == COPY || !keeps_the_most(s)) return 0;
    return i == HALVES ? dct2 : s.horizontal != DCT_II && s.vertical != DCT_II;
}

int has_case(int i, const bench_case *c) {
    if (c->line || c->row) return i < 2;
    if (c->live || c->transform) return i == LIBRARY || (c->live && i == HALVES) || i == DECODER || i == COPY;
    return has_shape(i, c->forward, c->shape);
}

const char *case_name(const bench_case *c, int i, char *name) {
    const char *direction = c->forward ? "forward" : "inverse";
    if (c->transform) sprintf(name, "transform %ux%u %s%ux%u %s", c->shape.width, c->shape.height, c->fill, c->shape.columns, c->shape.rows, block_names[i]);
    else if (c->row) sprintf(name, "%s-row %ux%u %s %s", direction, c->shape.width, c->shape.height, c->fill, row_names[i]);
    else if (c->live) sprintf(name, "dct2 %ux%u %s %s", c->shape.width, c->shape.height, c->fill, block_names[i]);
    else if (c->line) sprintf(name, "%s-line %u %s %s", direction, c->shape.width, c->fill, line_names[i]);
    else sprintf(name, "%s %ux%u %s %s", direction, c->shape.width, c->shape.height, c->fill, block_names[i]);
    return name;
}

/* "dense", and "keeps": every number that may be other than 0 is; "corner": the first four columns and rows; "one": the first. */
static int filled(const bench_case *c, uint32_t x, uint32_t y) {
    if (c->live) return (int)x < c->live && (int)y < c->live;
    if (strstr(c->fill, "one")) return x == 0 && y == 0;
    if (strstr(c->fill, "corner")) return x < 4 && y < 4;
    return c->forward || c->line || ((int)x < columns_of(c->shape) && (int)y < rows_of(c->shape));
}

void fill_case(const bench_case *c) {
    uint32_t w = c->shape.width, h = c->shape.height;
    if (c->transform) {
        fill_transform(c);
        return;
    }
    seed_random(1);
    for (uint32_t k = 0; k < (c->row ? ROW : 1) * w * h; k++) input[k] = filled(c, k % w, k / w % h) ? other_than_zero(1023) : 0;
    for (int k = 0; k < ROW; k++) shapes[k] = c->shape;
    if (!c->row) widen(c->shape, input);
}

static void run_line(const bench_case *c, int i) {
    uint32_t n = c->shape.width;
    (c->forward ? forward_lines : inverse_lines)[i](n, c->shape.horizontal, input, n, sums, n);
}

static void run_row(const bench_case *c, int i) {
    size_t elements = (size_t)c->shape.width * c->shape.height;
    if (i == 0) hoengtila_blocks_inverse(shapes, ROW, answers, input, ROW * elements, sums, ROW * elements);
    else for (size_t k = 0; k < ROW; k++) answers[k] = hoengtila_block_inverse(shapes[k], input + k * elements, elements, sums + k * elements, elements);
}

static void run_library(const bench_case *c) {
    size_t elements = (size_t)c->shape.width * c->shape.height;
    if (c->forward) hoengtila_block_forward(c->shape, input, elements, coefficients, elements);
    else hoengtila_block_inverse(c->shape, input, elements, sums, elements);
}

/* The decoder is told the live part, which the others find or do without. */
static void run_decoder(const bench_case *c, int decodes) {
    uint32_t w = c->shape.width, h = c->shape.height, live = (uint32_t)c->live;
    memcpy(sums, wide, sizeof *sums * w * h);
    if (decodes) decoder_inverse(keeping(c->shape, live < w ? live : w, live < h ? live : h), sums);
}

void run_case(const bench_case *c, int i) {
    if (c->transform) run_transform(c, i);
    else if (c->row) run_row(c, i);
    else if (c->line) run_line(c, i);
    else if (i == LIBRARY) run_library(c);
    else if (c->forward) forwards[i](c->shape, input, coefficients);
    else if (i == LONG) run_long(c->shape, sums);
    else if (i == DECODER || i == COPY) run_decoder(c, i == DECODER);
    else inverses[i](c->shape, input, sums);
}
