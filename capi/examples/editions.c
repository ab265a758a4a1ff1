/* Prints what the short edition of the Sun's series costs in a year: for the first of each month, at
   noon UTC, the Sun's apparent longitude by both editions, how far they are apart, and the bound.

   usage: editions [YEAR]    1976 to 2049; else 2020 */
#include "fieldbook.h"

#include <inttypes.h>
#include <stdio.h>
#include <stdlib.h>

/* In units of 0.0001 second of arc. */
enum { SECOND = 10000 };

/* ET - UT1 in milliseconds, with TAI - UTC at 37 s and DUT1 at 0, for every year. In 1976 it was 22 s
   less: that is 0.9 seconds of arc of both longitudes, but of their distance a unit or two. */
enum { DELTA_T = 69184 };

/* Prints an angle in seconds of arc, to the right of a column. */
static void print_seconds(int width, uint64_t angle)
{
    printf("%*" PRIu64 ".%04" PRIu64, width - 5, angle / SECOND, angle % SECOND);
}

static void print_month(int64_t year, int month)
{
    struct fieldbook_editions_answer a = fieldbook_editions(year, month, 1, 12, 0, 0, 0, DELTA_T);
    printf("%" PRId64 "-%02d-01", year, month);
    if (a.refusal != FIELDBOOK_ANSWERED) {
        printf(" no %" PRIu64 "\n", a.refusal);
        return;
    }
    print_seconds(14, a.short_edition);
    print_seconds(14, a.full_edition);
    print_seconds(9, a.apart);
    print_seconds(9, a.bound);
    putchar('\n');
}

int main(int argc, char **argv)
{
    int64_t year = argc > 1 ? strtoll(argv[1], NULL, 10) : 2020;
    puts("The Sun's apparent longitude at noon UTC, DUT1 0, delta T 69.184 s, in seconds of arc.\n"
         "Bound: the amplitudes that the short series leaves out, added up; apart is never more.\n");
    printf("%-10s%14s%14s%9s%9s\n", "date", "short", "full", "apart", "bound");
    for (int month = 1; month <= 12; month++)
        print_month(year, month);
    return 0;
}
