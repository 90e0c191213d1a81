/* What the peers share: requests on standard input, replies on standard output, numbers as the machine has them, little end first
 * on both sides. A peer ends with 1 where the pipe breaks, with 2 at a request that it does not know, and with 3 where a call wrote
 * beyond an output. */
#ifndef PIPE_H
#define PIPE_H

#include "hoengtila.h"

#include <stdio.h>
#include <stdlib.h>
#include <string.h>

static inline void get(void *to, size_t size, size_t count) {
    if (fread(to, size, count, stdin) != count) exit(1);
}

static inline void put(const void *from, size_t size, size_t count) {
    if (fwrite(from, size, count, stdout) != count) exit(1);
}

static inline uint32_t number(void) {
    uint32_t n;
    get(&n, sizeof n, 1);
    return n;
}

static inline void put_number(uint32_t n) { put(&n, sizeof n, 1); }

/* A length, of a buffer that has room for so many. */
static inline uint32_t at_most(uint32_t most) {
    uint32_t n = number();
    if (n > most) exit(2);
    return n;
}

/* An output has room for one element more than the library is told of, which is to stay as it is. */
enum { BEYOND = 0x5A };

static inline void get_output(void *to, size_t size, size_t count) {
    get(to, size, count);
    memset((unsigned char *)to + size * count, BEYOND, size);
}

static inline void put_output(const void *from, size_t size, size_t count) {
    const unsigned char *beyond = (const unsigned char *)from + size * count;
    size_t k;
    for (k = 0; k < size; k++)
        if (beyond[k] != BEYOND) exit(3);
    put(from, size, count);
}

/* Field by field and by name, as a caller does it: the order of the fields is the header's affair. */
static inline hoengtila_shape shape(void) {
    hoengtila_shape s;
    s.width = number();
    s.height = number();
    s.horizontal = number();
    s.vertical = number();
    s.depth = number();
    s.columns = number();
    s.rows = number();
    return s;
}

static inline void put_answer(hoengtila_answer a) {
    put_number(a.number);
    put_number(a.place);
    put_number(a.rails);
}

#endif
