/* Every implementation against the library, and the library's weights against the fold rule. */
#include "cases.h"

#include "random.h"

#include <stdio.h>
#include <string.h>

enum { BLOCKS_OF_A_SHAPE = 12 };

static int16_t input[LARGEST], output16[2][LARGEST];
static int32_t output32[2][LARGEST];
static int blocks;

/* Numbers of every size, both ends of the range among them, and more zeros in later blocks. */
static int16_t number(int most, int block) {
    uint32_t r = next_random();
    if (r % 12 < (uint32_t)block) return 0;
    if (r % 97 == 0) return (int16_t)(most == 32767 ? -32768 : -most);
    if (r % 89 == 0) return (int16_t)most;
    return other_than_zero(block % 2 ? most : most / 64);
}

static int is_kept(hoengtila_shape s, uint32_t x, uint32_t y) { return (int)x < columns_of(s) && (int)y < rows_of(s); }

static void fill(hoengtila_shape s, int most, int kept_only, int block) {
    for (uint32_t k = 0; k < s.width * s.height; k++)
        input[k] = !kept_only || is_kept(s, k % s.width, k / s.width) ? number(most, block) : 0;
}

static int differ(hoengtila_shape s, const char *direction, int i) {
    printf("bench: FAILED: %s %ux%u, kinds %u %u, depth %u, kept %ux%u: %s differs from the library\n", direction, s.width, s.height,
           s.horizontal, s.vertical, s.depth, s.columns, s.rows, implementation_name(i));
    return 1;
}

static int compare_inverse(hoengtila_shape s, int block) {
    size_t elements = (size_t)s.width * s.height;
    fill(s, 32767, 1, block);
    if (hoengtila_block_inverse(s, input, elements, output32[0], elements).number != 0) return differ(s, "inverse", 0);
    for (int i = 1; i < IMPLEMENTATIONS; i++) {
        if (!has_shape(i, 0, s)) continue;
        memset(output32[1], 0x55, sizeof output32[1]);
        inverse_of(i)(s, input, output32[1]);
        if (memcmp(output32[0], output32[1], elements * sizeof **output32)) return differ(s, "inverse", i);
    }
    return 0;
}

static int compare_forward(hoengtila_shape s, int block) {
    size_t elements = (size_t)s.width * s.height;
    fill(s, (1 << s.depth) - 1, 0, block);
    if (hoengtila_block_forward(s, input, elements, output16[0], elements).number != 0) return differ(s, "forward", 0);
    for (int i = 1; i < IMPLEMENTATIONS; i++) {
        if (!has_shape(i, 1, s)) continue;
        memset(output16[1], 0x55, sizeof output16[1]);
        forward_of(i)(s, input, output16[1]);
        if (memcmp(output16[0], output16[1], elements * sizeof **output16)) return differ(s, "forward", i);
    }
    return 0;
}

/* A row of this shape, in one call and in as many calls. */
static int compare_row(hoengtila_shape s) {
    static hoengtila_shape shapes[ROW];
    static hoengtila_answer one[ROW], each[ROW];
    size_t elements = (size_t)s.width * s.height, count = LARGEST / elements < ROW ? LARGEST / elements : ROW;
    for (size_t k = 0; k < count; k++) shapes[k] = s;
    for (uint32_t k = 0; k < count * elements; k++) input[k] = is_kept(s, k % s.width, k / s.width % s.height) ? number(32767, 1) : 0;
    if (hoengtila_blocks_inverse(shapes, count, one, input, count * elements, output32[0], count * elements) != 0) return differ(s, "row", 0);
    for (size_t k = 0; k < count; k++) each[k] = hoengtila_block_inverse(s, input + k * elements, elements, output32[1] + k * elements, elements);
    if (memcmp(one, each, count * sizeof *one) || memcmp(output32[0], output32[1], count * elements * sizeof **output32)) return differ(s, "row", 0);
    return 0;
}

static int compare_shape(hoengtila_shape s) {
    for (int block = 0; block < BLOCKS_OF_A_SHAPE; block++, blocks += 2)
        if (compare_inverse(s, block) || compare_forward(s, block)) return 1;
    return compare_row(s);
}

static int compare_lines(uint32_t n, uint32_t kind) {
    hoengtila_shape s = hoengtila_shape_of(n, 1, kind, kind, 10);
    for (int block = 0; block < BLOCKS_OF_A_SHAPE; block++) {
        fill(s, 32767, 0, block);
        hoengtila_line_inverse(n, kind, input, n, output32[0], n);
        hoengtila_line_inverse_product(n, kind, input, n, output32[1], n);
        if (memcmp(output32[0], output32[1], n * sizeof **output32)) return differ(s, "inverse line", 0);
        hoengtila_line_forward(n, kind, input, n, output32[0], n);
        hoengtila_line_forward_product(n, kind, input, n, output32[1], n);
        if (memcmp(output32[0], output32[1], n * sizeof **output32)) return differ(s, "forward line", 0);
    }
    for (uint32_t k = 0; k < n * n; k++)
        if (hoengtila_weight(kind, n, k / n, k % n) != weight((int)kind, (int)n, (int)(k / n), (int)(k % n)))
            return differ(s, "weight", 0);
    return 0;
}

/* A shape, and one that keeps a part of what it keeps. */
static int compare_kept(hoengtila_shape s) {
    if (compare_shape(s)) return 1;
    s.columns = 1 + next_random() % s.columns;
    s.rows = 1 + next_random() % s.rows;
    return compare_shape(s);
}

/* Kinds and depths change from shape to shape, and all nine pairs of kinds come up at each size. */
static int compare_size(uint32_t w, uint32_t h) {
    for (uint32_t kinds = 0; kinds < 9; kinds++)
        for (uint32_t depth = 8 + kinds % 2; depth <= 12; depth += 2)
            if (compare_kept(hoengtila_shape_of(w, h, kinds % 3, kinds / 3, depth))) return 1;
    return 0;
}

/* Whether the library gives what stands in the second output. */
static int library_gives(hoengtila_shape s) {
    size_t elements = (size_t)s.width * s.height;
    memset(output32[0], 0x55, sizeof output32[0]);
    return hoengtila_block_inverse(s, input, elements, output32[0], elements).number == 0 && !memcmp(output32[0], output32[1], elements * sizeof **output32);
}

/* A block with the live part of the shape: the decoder, which is told that part, and the library, told it and told the most. */
static int compare_live_part(hoengtila_shape s) {
    fill(s, 32767, 1, (int)(next_random() % BLOCKS_OF_A_SHAPE));
    for (uint32_t k = 0; k < s.width * s.height; k++) output32[1][k] = input[k];
    decoder_inverse(s, output32[1]);
    return !library_gives(s) || !library_gives(hoengtila_shape_of(s.width, s.height, DCT_II, DCT_II, s.depth));
}

/* Every live part of a size of kind 0 at every depth. */
static int compare_live(uint32_t w, uint32_t h) {
    for (uint32_t depth = 8; depth <= 12; depth++)
        for (uint32_t k = 0; k < w * h; k++, blocks++) {
            hoengtila_shape s = hoengtila_shape_of(w, h, DCT_II, DCT_II, depth);
            s.columns = 1 + k % w, s.rows = 1 + k / w;
            if (compare_live_part(s)) return differ(s, "live", DECODER);
        }
    return 0;
}

int compare(void) {
    seed_random(7);
    for (uint32_t w = 4; w <= LONGEST; w *= 2) {
        if (compare_lines(w, DCT_II) || compare_lines(w, DST_VII) || compare_lines(w, DCT_VIII)) return 1;
        for (uint32_t h = 4; h <= LONGEST; h *= 2)
            if (compare_size(w, h) || compare_live(w, h)) return 1;
    }
    int transforms = compare_transforms();
    if (transforms < 0) return 1;
    printf("bench: the library and the baselines give the same on %d blocks\n", blocks + transforms);
    return 0;
}
