/* Shots one by one, for a library without a call for many. */
#include "harness.h"

void bench_shots(const int64_t rows[][NUMBERS], size_t count, int64_t answers[][WORDS])
{
    for (size_t i = 0; i < count; i++)
        answers[i][0] = bench_shot(rows[i], &answers[i][1]);
}
