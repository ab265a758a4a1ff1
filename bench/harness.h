/* The shots of a library under the timing harness. */
#ifndef BENCH_HARNESS_H
#define BENCH_HARNESS_H

#include <stddef.h>
#include <stdint.h>

enum { NUMBERS = 11, WORDS = 5 };

/* Works shots, a row of eleven numbers for each, in the card's order. A row of answers has the
   refusal's number, 0 for none, azimuth, zenith distance, hour angle and the Sun's apparent
   longitude, in units of 0.0001 second of arc. */
void bench_shots(const int64_t rows[][NUMBERS], size_t count, int64_t answers[][WORDS]);

/* Works one shot; a library that has no call for many implements this, and is linked with single.c.
   Returns the refusal's number. */
int64_t bench_shot(const int64_t fields[NUMBERS], int64_t angles[WORDS - 1]);

#endif
