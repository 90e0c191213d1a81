/* Saves broken block files by the library, for a test program on the other side of a pipe: a request is three lengths, the file,
 * and what the output and the list hold; a reply is what the call hands back, how many microseconds it took, and what the output
 * and the list then hold. */
#define _POSIX_C_SOURCE 199309L
#include "pipe.h"

#include <time.h>

enum { MOST = 70000 };
static uint8_t file[MOST], out[MOST + 1];
static uint32_t list[MOST + 1];

static uint32_t microseconds(void) {
    struct timespec now;
    clock_gettime(CLOCK_PROCESS_CPUTIME_ID, &now);
    return (uint32_t)(now.tv_sec * 1000000 + now.tv_nsec / 1000);
}

int main(void) {
    uint32_t lengths[3];
    while (fread(lengths, sizeof *lengths, 3, stdin) == 3) {
        uint32_t took;
        hoengtila_saved saved;
        if (lengths[0] > MOST || lengths[1] > MOST || lengths[2] > MOST) return 2;
        get(file, 1, lengths[0]);
        get_output(out, 1, lengths[1]);
        get_output(list, sizeof *list, lengths[2]);
        took = microseconds();
        saved = hoengtila_salvage(file, lengths[0], out, lengths[1], list, lengths[2]);
        took = microseconds() - took;
        put_number(saved.number);
        put_number(saved.bytes);
        put_number(saved.stretches);
        put_number(took);
        put_output(out, 1, lengths[1]);
        put_output(list, sizeof *list, lengths[2]);
        fflush(stdout);
    }
    return 0;
}
