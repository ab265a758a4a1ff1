/* Prints the shots of standard input with ET - UT1 as ERFA has it in field 11: TT - UT1 in
   milliseconds, by its table of leap seconds and the shot's own DUT1. A date beyond that table
   has the leap seconds of the table's end. Needs liberfa-dev.
   Link with -lerfa -lm. */
#include <erfa.h>
#include <erfam.h>
#include <math.h>
#include <stdio.h>
#include <stdlib.h>

int main(void)
{
    for (;;) {
        long n[11];
        for (int i = 0; i < 11; i++)
            if (scanf("%ld", &n[i]) != 1)
                return EXIT_SUCCESS;
        double tai_less_utc;
        if (eraDat((int)n[0], (int)n[1], (int)n[2], 0.0, &tai_less_utc) < 0)
            return EXIT_FAILURE;
        n[10] = lround(1000.0 * (ERFA_TTMTAI + tai_less_utc)) - n[6];
        for (int i = 0; i < 11; i++)
            printf("%ld%c", n[i], i < 10 ? ' ' : '\n');
    }
}
