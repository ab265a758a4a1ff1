/* Works the shots of standard input, eleven numbers to a line, and prints the angles or the
   refusal of each.

   usage: shots [EDITION]    the edition of the Sun's series, a number; else the short one */
#include "fieldbook.h"

#include <inttypes.h>
#include <stdio.h>
#include <stdlib.h>

/* Reads the eleven numbers of the next shot; returns whether there was one. */
static int read_shot(int64_t n[11])
{
    for (int i = 0; i < 11; i++)
        if (scanf("%" SCNd64, &n[i]) != 1)
            return 0;
    return 1;
}

int main(int argc, char **argv)
{
    struct fieldbook_options options = FIELDBOOK_DEFAULTS;
    int64_t n[11];
    if (argc > 1)
        options.edition = strtoll(argv[1], NULL, 10);
    while (read_shot(n)) {
        struct fieldbook_shot_answer a = fieldbook_shot(n[0], n[1], n[2], n[3], n[4], n[5], n[6],
                                                        n[7], n[8], n[9], n[10], options);
        if (a.refusal != FIELDBOOK_ANSWERED)
            printf("no %" PRIu64 "\n", a.refusal);
        else
            printf("az %" PRIu64 " zd %" PRIu64 " ha %" PRIu64 " s %" PRIu64 "\n", a.azimuth,
                   a.zenith_distance, a.hour_angle, a.longitude);
    }
    return 0;
}
