/* Writes decoder/blocks.bin (decoder/blocks.h has its format) from inside the decoder, for decoder/watch.h. */
#include "blocks.h"

static struct {
    FILE *file;
    int half, nibbles; /* the first nibble of a byte, and how many there were */
    uint8_t taken[1 << 21];
} hoengtila_recorded;

static void hoengtila_record_nibble(int nibble)
{
    if (hoengtila_recorded.nibbles++ % 2)
        fputc(hoengtila_recorded.half << 4 | nibble, hoengtila_recorded.file);
    hoengtila_recorded.half = nibble;
}

static void hoengtila_record_number(uint32_t number)
{
    for (; number >= 8; number >>= 3)
        hoengtila_record_nibble(8 | (number & 7));
    hoengtila_record_nibble(number);
}

/* A signed number as it is written, and the nibbles that it takes. */
static uint32_t hoengtila_folded(int32_t number) { return number < 0 ? -2 * (uint32_t) number - 1 : 2 * (uint32_t) number; }

static int hoengtila_nibbles(uint32_t number) { return number < 8 ? 1 : 1 + hoengtila_nibbles(number >> 3); }

static int hoengtila_record_cost(int way, const hoengtila_transform_block *b, const int32_t *residuals)
{
    int cost = 0;
    for (uint32_t place = 0; place < b->width * b->height; place++)
        cost += hoengtila_nibbles(hoengtila_folded(residuals[place] - hoengtila_foretold(way, residuals, b->width, place)));
    return cost;
}

static int hoengtila_record_way(const hoengtila_transform_block *b, const int32_t *residuals)
{
    int best = 0;
    for (int way = 1; way < 3; way++)
        if (hoengtila_record_cost(way, b, residuals) < hoengtila_record_cost(best, b, residuals))
            best = way;
    return best;
}

static void hoengtila_record_fields(const hoengtila_transform_block *b)
{
    const uint32_t fields[11] = {b->width, b->height, b->horizontal, b->vertical, b->depth, b->extended,
                                 b->columns, b->rows, b->lfnst, b->set, b->transposed};
    for (int k = 0; k < 11; k++)
        hoengtila_record_number(fields[k]);
}

static void hoengtila_record_coefficients(const hoengtila_transform_block *b, const int32_t *coefficients)
{
    for (uint32_t k = 0; k < b->columns * b->rows; k++)
        hoengtila_record_number(hoengtila_folded(coefficients[k / b->columns * b->width + k % b->columns]));
}

static void hoengtila_record_residuals(const hoengtila_transform_block *b, const int32_t *residuals)
{
    const int way = hoengtila_record_way(b, residuals);
    hoengtila_record_number(way);
    for (uint32_t place = 0; place < b->width * b->height; place++)
        hoengtila_record_number(hoengtila_folded(residuals[place] - hoengtila_foretold(way, residuals, b->width, place)));
}

/* Of each class the first blocks, of small ones more: sides, kinds, LFNST with set and order, depth, switch, and with rails or without. */
static int hoengtila_record_takes(const hoengtila_transform_block *b, uint32_t rails)
{
    const uint32_t area = b->width * b->height, most = area <= 64 ? 4 : area <= 256 ? 2 : 1;
    uint32_t class = av_log2(b->width) << 3 | av_log2(b->height);
    class = class << 4 | b->horizontal << 2 | b->vertical;
    class = class << 5 | b->lfnst << 3 | b->set << 1 | b->transposed;
    class = class << 6 | (b->depth - 8) << 2 | (b->extended != 0) << 1 | (rails != 0);
    return hoengtila_recorded.taken[class] < most && ++hoengtila_recorded.taken[class];
}

static void hoengtila_record(const hoengtila_transform_block *b, const int32_t *coefficients, const int32_t *residuals)
{
    hoengtila_record_fields(b);
    hoengtila_record_coefficients(b, coefficients);
    hoengtila_record_residuals(b, residuals);
}

static void hoengtila_record_open(const char *name)
{
    hoengtila_recorded.file = fopen(name, "wb");
    if (!hoengtila_recorded.file) {
        perror(name);
        abort();
    }
}

static void hoengtila_record_close(void)
{
    hoengtila_record_number(0);
    hoengtila_record_nibble(0); /* fills the last byte, or is left out with it */
    fclose(hoengtila_recorded.file);
}
