/* Runs the library for a test program on the other side of a pipe, so that a machine that cannot link the archive can
 * still test it. A request is a call's name as one number and its arguments, a reply what the call hands back and what
 * its output then holds. */
#include "pipe.h"

/* the calls' names; those of document 02 start at a hundred times the number of their wish, and those for decoders at 2000 */
enum { WEIGHT, LINE_FORWARD, LINE_INVERSE, LINE_FORWARD_PRODUCT, LINE_INVERSE_PRODUCT, BLOCK_INVERSE, BLOCK_FORWARD, SHAPE_OF };
enum { BLOCK_WHY = 400, BLOCK_WHY_LONG };
enum { BLOCK_ROW = 500 };
enum { STEPS_RUN = 600, STEPS_LIST, STEPS_FORWARD };
enum { BLOCK_INVERSE_THIN = 700 };
enum { WRAPPED_FORWARD = 900, WRAPPED_INVERSE };
enum { STRAY = 1300 };
enum { BLOCK_INVERSE_LONG = 1400 };
enum { TRANSFORM_BLOCK_INVERSE = 2000, TRANSFORM_BLOCK_OF };

/* more numbers than two blocks of 64 by 64 have, and more than 2,048 steps have */
enum { MOST = 8448 };

/* more blocks than a row may have, and more numbers than they have */
enum { MOST_BLOCKS = 128, MOST_ROW = 70000 };

static int16_t in16[MOST];
static uint32_t order32[MOST];
static int32_t in32[MOST];
static int16_t out16[MOST + 1];
static int32_t out32[MOST + 1];
static int32_t other32[MOST + 1];
static int32_t steps32[MOST + 1];
static int32_t outs32[MOST + 1];
static hoengtila_shape shapes[MOST_BLOCKS];
static hoengtila_answer answers[MOST_BLOCKS + 1];
static int16_t row16[MOST_ROW];
static int32_t row32[2][MOST_ROW + 1];

static uint32_t length(void) { return at_most(MOST); }

static void put_outcome(hoengtila_answer a, uint32_t out) {
    put_answer(a);
    put_output(out32, sizeof *out32, out);
}

static void shape_of(void) {
    uint32_t width = number(), height = number(), horizontal = number(), vertical = number(), depth = number();
    hoengtila_shape s = hoengtila_shape_of(width, height, horizontal, vertical, depth);
    put_number(s.width);
    put_number(s.height);
    put_number(s.horizontal);
    put_number(s.vertical);
    put_number(s.depth);
    put_number(s.columns);
    put_number(s.rows);
}

static void weight(void) {
    uint32_t kind = number(), n = number(), i = number(), j = number();
    int32_t w = hoengtila_weight(kind, n, i, j);
    put(&w, sizeof w, 1);
}

static void stray(void) {
    uint32_t kind = number(), n = number(), j = number();
    put_number(hoengtila_stray(kind, n, j));
}

static void line(uint32_t call) {
    uint32_t n = number(), kind = number(), in = length(), out = length();
    hoengtila_answer a;
    get(in16, sizeof *in16, in);
    get_output(out32, sizeof *out32, out);
    switch (call) {
    case LINE_FORWARD: a = hoengtila_line_forward(n, kind, in16, in, out32, out); break;
    case LINE_INVERSE: a = hoengtila_line_inverse(n, kind, in16, in, out32, out); break;
    case LINE_FORWARD_PRODUCT: a = hoengtila_line_forward_product(n, kind, in16, in, out32, out); break;
    default: a = hoengtila_line_inverse_product(n, kind, in16, in, out32, out); break;
    }
    put_outcome(a, out);
}

static void wrapped(uint32_t call) {
    uint32_t n = number(), kind = number(), start = number(), order = length(), in = length(), out = length();
    hoengtila_answer a;
    get(order32, sizeof *order32, order);
    get(in16, sizeof *in16, in);
    get_output(out32, sizeof *out32, out);
    if (call == WRAPPED_FORWARD) a = hoengtila_line_forward_wrapped(n, kind, start, order32, order, in16, in, out32, out);
    else a = hoengtila_line_inverse_wrapped(n, kind, start, order32, order, in16, in, out32, out);
    put_outcome(a, out);
}

static void block_inverse(void) {
    hoengtila_shape s = shape();
    uint32_t in = length(), out = length();
    get(in16, sizeof *in16, in);
    get_output(out32, sizeof *out32, out);
    put_outcome(hoengtila_block_inverse(s, in16, in, out32, out), out);
}

static void block_forward(void) {
    hoengtila_shape s = shape();
    uint32_t in = length(), out = length();
    get(in16, sizeof *in16, in);
    get_output(out16, sizeof *out16, out);
    put_answer(hoengtila_block_forward(s, in16, in, out16, out));
    put_output(out16, sizeof *out16, out);
}

static void block_inverse_long(void) {
    hoengtila_shape s = shape();
    uint32_t extended = number(), in = length(), out = length();
    get(in32, sizeof *in32, in);
    get_output(out32, sizeof *out32, out);
    put_outcome(hoengtila_block_inverse_long(s, extended, in32, in, out32, out), out);
}

static void block_inverse_thin(void) {
    hoengtila_shape s = shape();
    uint32_t in = length(), first = length(), second = length();
    hoengtila_thin t;
    get(in16, sizeof *in16, in);
    get_output(out32, sizeof *out32, first);
    get_output(other32, sizeof *other32, second);
    t = hoengtila_block_inverse_thin(s, in16, in, out32, first, other32, second);
    put_number(t.number);
    put_number(t.place);
    put_number(t.rails);
    put_number(t.area);
    put_output(out32, sizeof *out32, first);
    put_output(other32, sizeof *other32, second);
}

/* Field by field and by name, as with shapes. */
static void transform_block_inverse(void) {
    hoengtila_transform_block b;
    uint32_t count;
    b.width = number();
    b.height = number();
    b.horizontal = number();
    b.vertical = number();
    b.depth = number();
    b.extended = number();
    b.columns = number();
    b.rows = number();
    b.lfnst = number();
    b.set = number();
    b.transposed = number();
    count = length();
    get_output(out32, sizeof *out32, count);
    put_outcome(hoengtila_transform_block_inverse(b, out32, count), count);
}

static void transform_block_of(void) {
    uint32_t width = number(), height = number(), horizontal = number(), vertical = number(), depth = number();
    hoengtila_transform_block b = hoengtila_transform_block_of(width, height, horizontal, vertical, depth);
    put_number(b.width);
    put_number(b.height);
    put_number(b.horizontal);
    put_number(b.vertical);
    put_number(b.depth);
    put_number(b.extended);
    put_number(b.columns);
    put_number(b.rows);
    put_number(b.lfnst);
    put_number(b.set);
    put_number(b.transposed);
}

static void put_parts(hoengtila_parts p) {
    put_number(p.number);
    put_number(p.place);
    put(&p.exact, sizeof p.exact, 1);
    put(&p.middle_roundings, sizeof p.middle_roundings, 1);
    put(&p.clippings, sizeof p.clippings, 1);
    put(&p.last_rounding, sizeof p.last_rounding, 1);
}

static void block_why(void) {
    hoengtila_shape s = shape();
    uint32_t in = length(), place = number();
    get(in16, sizeof *in16, in);
    put_parts(hoengtila_block_why(s, in16, in, place));
}

static void block_why_long(void) {
    hoengtila_shape s = shape();
    uint32_t extended = number(), in = length(), place = number();
    get(in32, sizeof *in32, in);
    put_parts(hoengtila_block_why_long(s, extended, in32, in, place));
}

/* The row of 64 shapes and 64 answers gives what the row of `count` gave, and leaves the answers from `count` on; else the peer ends
 * with 4. */
static void row_of_64(uint32_t count, uint32_t row_number, uint32_t in, uint32_t out) {
    hoengtila_answer told[64], before[64];
    uint32_t k, n = row_number == 0 ? count : 0;
    for (k = 0; k < 64; k++) before[k].number = before[k].place = before[k].rails = BEYOND + k;
    memcpy(told, before, sizeof told);
    if (hoengtila_block_row(shapes, count, told, row16, in, row32[1], out) != row_number) exit(4);
    if (memcmp(row32[0], row32[1], (out + 1) * sizeof **row32)) exit(4);
    if (memcmp(told, answers, n * sizeof *told)) exit(4);
    if (memcmp(told + n, before + n, (64 - n) * sizeof *told)) exit(4);
}

static void row(void) {
    uint32_t count = at_most(MOST_BLOCKS), given = at_most(MOST_BLOCKS), in = at_most(MOST_ROW), out = at_most(MOST_ROW), k, n;
    for (k = 0; k < count; k++) shapes[k] = shape();
    for (k = 0; k < given; k++) {
        answers[k].number = number();
        answers[k].place = number();
        answers[k].rails = number();
    }
    get(row16, sizeof *row16, in);
    get_output(row32[0], sizeof **row32, out);
    memcpy(row32[1], row32[0], (out + 1) * sizeof **row32);
    answers[given].number = BEYOND;
    n = hoengtila_blocks_inverse(shapes, count, answers, row16, in, row32[0], out);
    row_of_64(count, n, in, out);
    if (answers[given].number != BEYOND) exit(3);
    put_number(n);
    for (k = 0; k < given; k++) put_answer(answers[k]);
    put_output(row32[0], sizeof **row32, out);
}

static void put_step_count(hoengtila_step_count t, uint32_t out) {
    put_number(t.number);
    put_number(t.count);
    put_output(out32, sizeof *out32, out);
}

static void steps_run(void) {
    uint32_t inputs = number(), cells = number(), steps = length(), outs = length(), in = length(), out = length();
    get(steps32, sizeof *steps32, steps);
    get(outs32, sizeof *outs32, outs);
    get(in16, sizeof *in16, in);
    get_output(out32, sizeof *out32, out);
    put_step_count(hoengtila_steps_run(inputs, cells, steps32, steps, outs32, outs, in16, in, out32, out), out);
}

static void steps_list(void) {
    uint32_t n = number(), steps = length(), outs = length();
    hoengtila_listed l;
    get_output(steps32, sizeof *steps32, steps);
    get_output(outs32, sizeof *outs32, outs);
    l = hoengtila_steps_list(n, steps32, steps, outs32, outs);
    put_number(l.number);
    put_number(l.inputs);
    put_number(l.cells);
    put_number(l.steps);
    put_number(l.outs);
    put_output(steps32, sizeof *steps32, steps);
    put_output(outs32, sizeof *outs32, outs);
}

static void steps_forward(void) {
    uint32_t n = number(), in = length(), out = length();
    get(in16, sizeof *in16, in);
    get_output(out32, sizeof *out32, out);
    put_step_count(hoengtila_steps_forward(n, in16, in, out32, out), out);
}

int main(void) {
    uint32_t call;
    while (fread(&call, sizeof call, 1, stdin) == 1) {
        if (call == WEIGHT) weight();
        else if (call <= LINE_INVERSE_PRODUCT) line(call);
        else if (call == BLOCK_INVERSE) block_inverse();
        else if (call == BLOCK_FORWARD) block_forward();
        else if (call == SHAPE_OF) shape_of();
        else if (call == STRAY) stray();
        else if (call == BLOCK_INVERSE_LONG) block_inverse_long();
        else if (call == BLOCK_INVERSE_THIN) block_inverse_thin();
        else if (call == TRANSFORM_BLOCK_INVERSE) transform_block_inverse();
        else if (call == TRANSFORM_BLOCK_OF) transform_block_of();
        else if (call == BLOCK_WHY) block_why();
        else if (call == BLOCK_WHY_LONG) block_why_long();
        else if (call == BLOCK_ROW) row();
        else if (call == STEPS_RUN) steps_run();
        else if (call == STEPS_LIST) steps_list();
        else if (call == STEPS_FORWARD) steps_forward();
        else if (call == WRAPPED_FORWARD || call == WRAPPED_INVERSE) wrapped(call);
        else return 2;
        fflush(stdout);
    }
    return 0;
}
