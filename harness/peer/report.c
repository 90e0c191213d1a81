/* Totals by the library, for a test program on the other side of a pipe: a request is 0 (clear) and the totals, or 1 (add) and the
 * totals, the shape, how many residuals there are, and the residuals; a reply is the answer, where a block was added, and what
 * the totals then hold. */
#include "pipe.h"

enum { MOST = 8192, TOTALS = 578 };
static uint64_t totals[TOTALS + 1];
static int16_t residuals[MOST];

static void add(void) {
    hoengtila_shape s = shape();
    uint32_t in = at_most(MOST);
    get(residuals, sizeof *residuals, in);
    put_answer(hoengtila_report_add(totals, s, residuals, in));
}

int main(void) {
    uint32_t call;
    while (fread(&call, sizeof call, 1, stdin) == 1) {
        get_output(totals, sizeof *totals, TOTALS);
        if (call == 0) hoengtila_report_clear(totals);
        else if (call == 1) add();
        else return 2;
        put_output(totals, sizeof *totals, TOTALS);
        fflush(stdout);
    }
    return 0;
}
