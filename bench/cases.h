/* The cases of the benchmark, and what runs them. */
#ifndef CASES_H
#define CASES_H

#include "bench.h"

enum { CASES = 224, ROW = 64 };
enum { LIBRARY, REFERENCE, TRIPLE, ROWS, FOLDED, BUTTERFLY, HALVES, LONG, DECODER, COPY, IMPLEMENTATIONS };

typedef struct {
    int line; /* a line of width points, by the fast path and by the full product; otherwise a block */
    int forward;
    hoengtila_shape shape;
    const char *fill;
    int row; /* 64 inverse blocks of this shape, in one call and in 64 */
    int live; /* an inverse block of kind 0, of which the first so many columns and rows are live; otherwise 0 */
    int transform; /* a transform block, in place, which is told the columns and rows of the shape */
    int low; /* 1 with LFNST; 2 what is read behind it, without */
} bench_case;

void prepare(void);
const char *implementation_name(int i);
inverse_block *inverse_of(int i);
forward_block *forward_of(int i);

int make_cases(bench_case *cases);
/* whether an implementation has a direction, the kinds of a shape, and its kept part */
int has_shape(int i, int forward, hoengtila_shape s);
/* whether it runs a case */
int has_case(int i, const bench_case *c);
/* "inverse 16x16 dense library": what is run, its size, what it is run on, and who runs it */
const char *case_name(const bench_case *c, int i, char *name);
void fill_case(const bench_case *c);
void run_case(const bench_case *c, int i);

/* The same of transform blocks, which the library and the decoder run, each behind a copy of the coefficients. */
int make_transforms(bench_case *cases);
void fill_transform(const bench_case *c);
void run_transform(const bench_case *c, int i);

/* Runs every implementation on many blocks and lines of random numbers; 0 where they all give the same. */
int compare(void);
/* Transform blocks: how many gave the same, or -1. */
int compare_transforms(void);

#endif
