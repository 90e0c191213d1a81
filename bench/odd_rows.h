/* H.266's numbers of the odd rows of DCT-II. */
#ifndef ODD_ROWS_H
#define ODD_ROWS_H

#include "bench.h"

/* the first weights of the odd rows of 2, 4, 8, 16, 32 and 64 points, one after the other: those of n from n / 2 - 1 on */
static const int odd_rows[] = {64, 83, 36, 89, 75, 50, 18, 90, 87, 80, 70, 57, 43, 25, 9, 90,
                               90, 88, 85, 82, 78, 73, 67, 61, 54, 46, 38, 31, 22, 13, 4, 91,
                               90, 90, 90, 88, 87, 86, 84, 83, 81, 79, 77, 73, 71, 69, 65, 62,
                               59, 56, 52, 48, 44, 41, 37, 33, 28, 24, 20, 15, 11, 7, 2};

/* the weight of an odd row i in column j at n points */
ALWAYS int odd_weight(int n, int i, int j) {
    int turn = i * (2 * j + 1) % (4 * n), near = turn < 4 * n - turn ? turn : 4 * n - turn;
    int number = odd_rows[n / 2 - 1 + (near < 2 * n - near ? near : 2 * n - near) / 2];
    return near > n ? -number : number;
}

#endif
