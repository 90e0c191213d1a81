/* Writes and reads pictures by the library, for a test program on the other side of a pipe: a request is 0 (write) and the
 * width, the height, two lengths, the residuals and what the output holds, or 1 (read) and two lengths, the file and what the
 * output holds; a reply is what the call hands back and what the output then holds. */
#include "pipe.h"

enum { MOST = 8192 };
static int32_t numbers[MOST + 1];
static uint8_t bytes[MOST + 1];

static void write_picture(void) {
    uint32_t width = number(), height = number(), in = at_most(MOST), out = at_most(MOST);
    hoengtila_written w;
    get(numbers, sizeof *numbers, in);
    get_output(bytes, 1, out);
    w = hoengtila_picture_write(width, height, numbers, in, bytes, out);
    put_number(w.number);
    put_number(w.bytes);
    put_output(bytes, 1, out);
}

static void read_picture(void) {
    uint32_t in = at_most(MOST), out = at_most(MOST);
    hoengtila_picture p;
    get(bytes, 1, in);
    get_output(numbers, sizeof *numbers, out);
    p = hoengtila_picture_read(bytes, in, numbers, out);
    put_number(p.number);
    put_number(p.width);
    put_number(p.height);
    put_output(numbers, sizeof *numbers, out);
}

int main(void) {
    uint32_t call;
    while (fread(&call, sizeof call, 1, stdin) == 1) {
        if (call == 0) write_picture();
        else if (call == 1) read_picture();
        else return 2;
        fflush(stdout);
    }
    return 0;
}
