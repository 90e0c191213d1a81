/* The driver.
 *   bench compare        every implementation on many blocks; ends with status 1 at the first difference
 *   bench list WORD..    the cases and implementations whose names have all of the words, one to a line
 *   bench time WORD..    their times in nanoseconds: the least of many rounds, in which the implementations take turns
 *   bench count WORD..   runs each of them once, inside `counted`, for a tool that counts instructions
 *   bench twice WORD..   runs each of them twice, for a tool that counts those of a whole run: the difference is one call */
#include "cases.h"

#include <stdio.h>
#include <string.h>
#include <time.h>

enum { ROUNDS = 400, ROUND_NS = 50000 };

static double now_ns(void) {
    struct timespec t;
    clock_gettime(CLOCK_MONOTONIC, &t);
    return (double)t.tv_sec * 1e9 + (double)t.tv_nsec;
}

static double time_of(const bench_case *c, int i, long calls) {
    double start = now_ns();
    for (long k = 0; k < calls; k++) run_case(c, i);
    return (now_ns() - start) / (double)calls;
}

/* Whether a word is one of those that a name is made of. */
static int has_word(const char *name, const char *word) {
    size_t length = strlen(word);
    while (strncmp(name, word, length) || (name[length] && name[length] != ' ')) {
        const char *space = strchr(name, ' ');
        if (!space) return 0;
        name = space + 1;
    }
    return 1;
}

static int wanted(const char *name, int words, char **word) {
    for (int k = 0; k < words; k++)
        if (!has_word(name, word[k])) return 0;
    return 1;
}

/* Calls of a round: as many as fill it, going by the first implementation. */
static long calls_of(const bench_case *c) {
    double ns = 1e9;
    for (int k = 0; k < 20; k++) {
        double t = time_of(c, 0, 1);
        if (t < ns) ns = t;
    }
    return ns < ROUND_NS ? (long)(ROUND_NS / (ns + 1)) : 1;
}

static void time_case(const bench_case *c, int words, char **word) {
    double least[IMPLEMENTATIONS];
    char name[64];
    int some = 0;
    for (int i = 0; i < IMPLEMENTATIONS; i++) some |= has_case(i, c) && wanted(case_name(c, i, name), words, word);
    if (!some) return;
    fill_case(c);
    long calls = calls_of(c);
    for (int i = 0; i < IMPLEMENTATIONS; i++) least[i] = 1e18;
    for (int round = 0; round < ROUNDS; round++)
        for (int i = 0; i < IMPLEMENTATIONS; i++) {
            if (!has_case(i, c)) continue;
            double t = time_of(c, i, calls);
            if (t < least[i]) least[i] = t;
        }
    for (int i = 0; i < IMPLEMENTATIONS; i++)
        if (has_case(i, c)) printf("ns %s %.1f\n", case_name(c, i, name), least[i]);
}

__attribute__((noinline)) void counted(const bench_case *c, int i) {
    run_case(c, i);
    __asm__ volatile("");
}

__attribute__((noinline)) void counted_end(void) { __asm__ volatile(""); }

enum { NONE, COMPARE, LIST, TIME, COUNT, TWICE };

static int mode_of(const char *word) {
    static const char *const names[] = {"", "compare", "list", "time", "count", "twice"};
    for (int k = COMPARE; k <= TWICE; k++)
        if (!strcmp(word, names[k])) return k;
    return NONE;
}

static void each(int mode, const bench_case *c, int i, int words, char **word) {
    char name[64];
    if (!has_case(i, c) || !wanted(case_name(c, i, name), words, word)) return;
    if (mode == LIST) {
        puts(name);
        return;
    }
    fill_case(c);
    for (int times = COUNT; times <= mode; times++) counted(c, i);
    counted_end();
}

int main(int words, char **word) {
    int mode = words > 1 ? mode_of(word[1]) : NONE;
    bench_case cases[CASES];
    int count = make_cases(cases);
    if (mode == NONE) return 2;
    prepare();
    if (mode == COMPARE) return compare();
    for (int k = 0; k < count; k++) {
        if (mode == TIME) time_case(&cases[k], words - 2, word + 2);
        else for (int i = 0; i < IMPLEMENTATIONS; i++) each(mode, &cases[k], i, words - 2, word + 2);
    }
    return 0;
}
