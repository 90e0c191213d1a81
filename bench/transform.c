/* Transform blocks in place, the library beside the decoder: both are told which columns and rows are live. They overwrite their
 * numbers, which are copied before each call; `copy` is the copy alone, which the tables take off. */
#include "cases.h"

#include "random.h"

#include <stdio.h>
#include <string.h>

enum { DEPTH = 10 };

static int32_t coefficients[LARGEST_TRANSFORM], numbers[LARGEST_TRANSFORM], other[LARGEST_TRANSFORM];

/* LFNST: its index or 0, its set and its flag */
typedef struct { uint8_t index, set, transposed; } low_frequency;

static hoengtila_answer library_inverse(hoengtila_shape s, low_frequency low, int32_t *c) {
    hoengtila_transform_block block = {s.width, s.height, s.horizontal, s.vertical, s.depth, 0, s.columns, s.rows, low.index, low.set, low.transposed};
    return hoengtila_transform_block_inverse(block, c, (size_t)s.width * s.height);
}

static void decoded(hoengtila_shape s, low_frequency low, int32_t *c) {
    if (low.index) decoder_inverse_low(s, low.index, low.set, low.transposed, c);
    else decoder_inverse(s, c);
}

/* by `low` of a case: no LFNST; with it; and none where the set is told all the same, so that the call takes the tests in their order, as
 * with LFNST, and not its quick way for small blocks */
static const low_frequency lows[] = {{0, 0, 0}, {1, 1, 0}, {0, 1, 0}};

/* width, height, and the columns and rows that are live */
static const uint8_t dct2_parts[][4] = {
    {4, 4, 4, 4}, {4, 4, 2, 2}, {4, 4, 1, 1}, {8, 8, 8, 8}, {8, 8, 4, 4}, {8, 8, 3, 2}, {8, 8, 1, 1},
    {16, 16, 16, 16}, {16, 16, 8, 8}, {16, 16, 4, 4}, {16, 16, 1, 1}, {32, 32, 32, 32}, {32, 32, 16, 16}, {32, 32, 8, 8},
    {32, 32, 4, 4}, {32, 32, 1, 1}, {8, 4, 8, 4}, {4, 8, 4, 8}, {16, 4, 16, 4}, {4, 16, 4, 16}, {16, 8, 16, 8}, {8, 16, 8, 16},
    {32, 8, 32, 8}, {8, 32, 4, 4}, {32, 4, 4, 4}, {4, 32, 4, 4}, {64, 64, 32, 32}, {64, 64, 16, 16}, {64, 64, 8, 8}, {64, 64, 4, 4},
    {64, 64, 1, 1}, {64, 32, 32, 32}, {64, 16, 32, 16}, {64, 16, 4, 4}, {16, 64, 4, 4}, {64, 4, 32, 4}, {4, 64, 4, 32},
    {2, 2, 2, 2}, {2, 4, 2, 4}, {4, 2, 4, 2}, {2, 8, 2, 8}, {8, 2, 8, 2}, {2, 32, 2, 32}, {32, 2, 32, 2}, {64, 2, 8, 2},
    {1, 16, 1, 16}, {16, 1, 16, 1}, {1, 32, 1, 32}, {64, 1, 32, 1}, {1, 64, 1, 4}, {16, 1, 1, 1},
};
static const uint8_t dst7_parts[][4] = {{4, 4, 4, 4}, {8, 8, 8, 8}, {16, 16, 16, 16}, {16, 16, 4, 4}, {32, 32, 16, 16}, {1, 16, 1, 16}};

static const uint8_t low_parts[][4] = {
    {4, 4, 4, 4}, {8, 8, 4, 4}, {4, 8, 4, 4}, {8, 4, 4, 4}, {8, 16, 4, 4}, {16, 16, 4, 4}, {16, 16, 2, 2}, {4, 16, 4, 4}, {32, 32, 4, 4}, {64, 64, 4, 4}, {64, 4, 4, 4},
};

static bench_case transform_case(const uint8_t *part, uint32_t kind) {
    hoengtila_shape s = {part[0], part[1], kind, kind, DEPTH, part[2], part[3]};
    return (bench_case){.shape = s, .fill = kind == DST_VII ? "dst7-" : "live-", .transform = 1};
}

int make_transforms(bench_case *cases) {
    int count = 0;
    for (size_t k = 0; k < sizeof dct2_parts / sizeof *dct2_parts; k++) cases[count++] = transform_case(dct2_parts[k], DCT_II);
    for (size_t k = 0; k < sizeof dst7_parts / sizeof *dst7_parts; k++) cases[count++] = transform_case(dst7_parts[k], DST_VII);
    for (size_t k = 0; k < sizeof low_parts / sizeof *low_parts; k++) {
        const uint8_t *part = low_parts[k];
        cases[count] = transform_case(part, DCT_II);
        cases[count].fill = "low-";
        cases[count++].low = 1;
        if (part[2] < 4) continue;
        /* what the stages read behind LFNST */
        uint8_t side = part[0] < 8 || part[1] < 8 ? 4 : 8, behind[4] = {part[0], part[1], side, side};
        cases[count] = transform_case(behind, DCT_II);
        cases[count].fill = "behind-";
        cases[count++].low = 2;
    }
    return count;
}

static int is_live(hoengtila_shape s, uint32_t k) { return k % s.width < s.columns && k / s.width < s.rows; }

void fill_transform(const bench_case *c) {
    seed_random(1);
    for (uint32_t k = 0; k < c->shape.width * c->shape.height; k++) coefficients[k] = is_live(c->shape, k) ? other_than_zero(1023) : 0;
}

void run_transform(const bench_case *c, int i) {
    memcpy(numbers, coefficients, sizeof *numbers * c->shape.width * c->shape.height);
    low_frequency low = lows[c->low];
    if (i == LIBRARY) library_inverse(c->shape, low, numbers);
    else if (i == DECODER) decoded(c->shape, low, numbers);
}

/* The library finds other numbers beyond the live part, which the decoder has to find 0. */
static int compare_block(hoengtila_shape s, low_frequency low) {
    size_t elements = (size_t)s.width * s.height;
    int most = next_random() % 4 ? 32767 : 1023;
    for (uint32_t k = 0; k < elements; k++) {
        int live = is_live(s, k);
        other[k] = live && next_random() % 3 ? other_than_zero(most) : 0;
        numbers[k] = live ? other[k] : (int32_t)next_random();
    }
    decoded(s, low, other);
    return library_inverse(s, low, numbers).number == 0 && !memcmp(numbers, other, elements * sizeof *numbers);
}

/* Every pair of sides that has LFNST, with every index, set and flag, at every depth. */
static int compare_low(void) {
    int blocks = 0;
    for (uint32_t k = 0; k < 25 * 16 * 9; k++) {
        uint32_t w = 4u << k % 5, h = 4u << k / 5 % 5, l = k / 25 % 16, d = 8 + k / 400;
        low_frequency low = {(uint8_t)(1 + l % 2), (uint8_t)(l / 2 % 4), (uint8_t)(l / 8)};
        hoengtila_shape s = {w, h, DCT_II, DCT_II, d, 1 + next_random() % 4, 1 + next_random() % 4};
        if (!compare_block(s, low)) {
            printf("bench: FAILED: transform %ux%u, depth %u, live %ux%u, LFNST %u of set %u, flag %u: decoder differs from the library\n", w, h, d, s.columns, s.rows, low.index, low.set, low.transposed);
            return -1;
        }
        blocks++;
    }
    return blocks;
}

/* Every pair of sides and kinds at every depth, and some of its live parts; then LFNST. */
int compare_transforms(void) {
    int blocks = 0, low;
    for (uint32_t k = 0; k < 49 * 9 * 9 * 4; k++) {
        uint32_t w = 1u << k / 7 % 7, h = 1u << k % 7, x = k / 49 % 3, y = k / 147 % 3, d = 8 + k / 441 % 9;
        if ((w == 1 && h == 1) || (x && (w == 2 || w == 64)) || (y && (h == 2 || h == 64))) continue;
        hoengtila_transform_block b = hoengtila_transform_block_of(w, h, x, y, d);
        hoengtila_shape s = {w, h, x, y, d, 1 + next_random() % b.columns, 1 + next_random() % b.rows};
        if (!compare_block(s, lows[0])) {
            printf("bench: FAILED: transform %ux%u, kinds %u %u, depth %u, live %ux%u: decoder differs from the library\n", w, h, x, y, d, s.columns, s.rows);
            return -1;
        }
        blocks++;
    }
    low = compare_low();
    return low < 0 ? low : blocks + low;
}
