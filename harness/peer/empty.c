/* Buffers of no elements: each function of the header is called with every choice of its buffers left empty, once with pointers to
 * memory and once with null for the empty ones. It hands back the same and leaves the same in the other buffers, else this names the
 * function and ends with 1. */
#include "hoengtila.h"

#include <stdio.h>
#include <string.h>

enum { MOST_BUFFERS = 4, ROOM = 16384 };

struct lent {
    void *at;
    size_t length;
};

/* all that a call can write */
struct state {
    unsigned char told[64]; /* what it hands back */
    uint64_t totals[578];
    hoengtila_answer answers[64];
    unsigned char buffers[MOST_BUFFERS][ROOM];
};

static struct state state, other;
static const hoengtila_shape shape = {4, 4, 1, 1, 10, 4, 4};
static const hoengtila_transform_block block = {4, 4, 1, 1, 10, 0, 4, 4, 0, 0, 0};
static hoengtila_shape shapes[64];
static uint32_t count; /* blocks of a row, and inputs and cells of a list of steps */

/* a pointer and its length */
#define LENT(type, k) (type *)b[k].at, b[k].length

#define CALL(name, type, ...)                  \
    static void run_##name(struct lent *b) {   \
        type t = name(__VA_ARGS__);            \
        memcpy(state.told, &t, sizeof t);      \
    }

CALL(hoengtila_line_forward, hoengtila_answer, 4, 1, LENT(int16_t, 0), LENT(int32_t, 1))
CALL(hoengtila_line_inverse, hoengtila_answer, 4, 1, LENT(int16_t, 0), LENT(int32_t, 1))
CALL(hoengtila_line_forward_product, hoengtila_answer, 4, 1, LENT(int16_t, 0), LENT(int32_t, 1))
CALL(hoengtila_line_inverse_product, hoengtila_answer, 4, 1, LENT(int16_t, 0), LENT(int32_t, 1))
CALL(hoengtila_line_forward_wrapped, hoengtila_answer, 4, 1, 9, LENT(uint32_t, 0), LENT(int16_t, 1), LENT(int32_t, 2))
CALL(hoengtila_line_inverse_wrapped, hoengtila_answer, 4, 1, 9, LENT(uint32_t, 0), LENT(int16_t, 1), LENT(int32_t, 2))
CALL(hoengtila_block_inverse, hoengtila_answer, shape, LENT(int16_t, 0), LENT(int32_t, 1))
CALL(hoengtila_block_forward, hoengtila_answer, shape, LENT(int16_t, 0), LENT(int16_t, 1))
CALL(hoengtila_block_row, uint32_t, shapes, count, state.answers, LENT(int16_t, 0), LENT(int32_t, 1))
CALL(hoengtila_blocks_inverse, uint32_t, count ? shapes : NULL, count, count ? state.answers : NULL, LENT(int16_t, 0), LENT(int32_t, 1))
CALL(hoengtila_block_inverse_long, hoengtila_answer, shape, 0, LENT(int32_t, 0), LENT(int32_t, 1))
CALL(hoengtila_block_inverse_thin, hoengtila_thin, shape, LENT(int16_t, 0), LENT(int32_t, 1), LENT(int32_t, 2))
CALL(hoengtila_transform_block_inverse, hoengtila_answer, block, LENT(int32_t, 0))
CALL(hoengtila_block_why, hoengtila_parts, shape, LENT(int16_t, 0), 5)
CALL(hoengtila_block_why_long, hoengtila_parts, shape, 0, LENT(int32_t, 0), 5)
CALL(hoengtila_report_add, hoengtila_answer, state.totals, shape, LENT(int16_t, 0))
CALL(hoengtila_picture_write, hoengtila_written, 4, 4, LENT(int32_t, 0), LENT(uint8_t, 1))
CALL(hoengtila_picture_read, hoengtila_picture, LENT(uint8_t, 0), LENT(int32_t, 1))
CALL(hoengtila_salvage, hoengtila_saved, LENT(uint8_t, 0), LENT(uint8_t, 1), LENT(uint32_t, 2))
CALL(hoengtila_steps_run, hoengtila_step_count, count, count, LENT(int32_t, 0), LENT(int32_t, 1), LENT(int16_t, 2), LENT(int32_t, 3))
CALL(hoengtila_steps_list, hoengtila_listed, 4, LENT(int32_t, 0), LENT(int32_t, 1))
CALL(hoengtila_steps_forward, hoengtila_step_count, 4, LENT(int16_t, 0), LENT(int32_t, 1))

/* how long a buffer is where it is not empty; a length of 0 ends the list */
struct call {
    const char *name;
    void (*run)(struct lent *);
    size_t lengths[MOST_BUFFERS + 1];
};

#define OF(name, ...) {#name, run_##name, {__VA_ARGS__}}

static const struct call calls[] = {
    OF(hoengtila_line_forward, 4, 4),
    OF(hoengtila_line_inverse, 4, 4),
    OF(hoengtila_line_forward_product, 4, 4),
    OF(hoengtila_line_inverse_product, 4, 4),
    OF(hoengtila_line_forward_wrapped, 4, 4, 4),
    OF(hoengtila_line_inverse_wrapped, 4, 4, 4),
    OF(hoengtila_block_inverse, 16, 16),
    OF(hoengtila_block_forward, 16, 16),
    OF(hoengtila_block_row, 16, 16),
    OF(hoengtila_blocks_inverse, 16, 16),
    OF(hoengtila_block_inverse_long, 16, 16),
    OF(hoengtila_block_inverse_thin, 16, 16, 16),
    OF(hoengtila_transform_block_inverse, 16),
    OF(hoengtila_block_why, 16),
    OF(hoengtila_block_why_long, 16),
    OF(hoengtila_report_add, 16),
    OF(hoengtila_picture_write, 16, 64),
    OF(hoengtila_picture_read, 64, 16),
    OF(hoengtila_salvage, 64, 64, 2048),
    OF(hoengtila_steps_run, 4, 1, 1, 1),
    OF(hoengtila_steps_list, 72, 4),
    OF(hoengtila_steps_forward, 4, 4),
};

/* Buffer k is empty where bit k of `empty` is set. */
static void run(const struct call *call, unsigned empty, int with_null) {
    struct lent lent[MOST_BUFFERS];
    size_t k;
    memset(&state, 0, sizeof state);
    memset(state.buffers, 1, sizeof state.buffers);
    for (k = 0; k < MOST_BUFFERS; k++) {
        int is_empty = empty >> k & 1;
        lent[k].at = is_empty && with_null ? NULL : state.buffers[k];
        lent[k].length = is_empty ? 0 : call->lengths[k];
    }
    call->run(lent);
}

/* The number that a call hands back stands first. */
static int is_accepted(void) {
    uint32_t number;
    memcpy(&number, state.told, sizeof number);
    return number == 0;
}

int main(void) {
    unsigned empty, ran = 0, accepted = 0;
    const struct call *call, *end = calls + sizeof calls / sizeof *calls;
    size_t k;
    for (k = 0; k < 64; k++) shapes[k] = shape;
    for (call = calls; call < end; call++) {
        unsigned buffers = 0;
        while (call->lengths[buffers]) buffers++;
        for (empty = 1; empty < 1u << buffers; empty++) {
            for (count = 0; count < 2; count++) {
                run(call, empty, 0);
                other = state;
                run(call, empty, 1);
                if (memcmp(&state, &other, sizeof state)) {
                    printf("empty: %s differs where null is handed to it\n", call->name);
                    return 1;
                }
                ran++;
                accepted += is_accepted();
            }
        }
    }
    printf("%u calls with empty buffers, %u of them accepted, give the same where their pointers are null\n", ran, accepted);
    return 0;
}
