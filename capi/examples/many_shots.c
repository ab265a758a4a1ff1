/* Works the shots of standard input, eleven numbers to a line, many in one call, and prints the
   angles or the refusal of each.

   usage: many_shots [EDITION]    the edition of the Sun's series, a number; else the short one */
#include "fieldbook.h"

#include <inttypes.h>
#include <stdio.h>
#include <stdlib.h>

enum { MOST = 1000 };

static int64_t rows[MOST][FIELDBOOK_SHOT_NUMBERS];
static struct fieldbook_shot_answer answers[MOST];

/* Reads the next shots, as many as there are rows at most; returns how many. */
static size_t read_rows(void)
{
    for (size_t count = 0; count < MOST; count++)
        for (int i = 0; i < FIELDBOOK_SHOT_NUMBERS; i++)
            if (scanf("%" SCNd64, &rows[count][i]) != 1)
                return count;
    return MOST;
}

int main(int argc, char **argv)
{
    struct fieldbook_options options = FIELDBOOK_DEFAULTS;
    size_t count;
    if (argc > 1)
        options.edition = strtoll(argv[1], NULL, 10);
    while ((count = read_rows()) != 0) {
        fieldbook_shots(rows[0], count * FIELDBOOK_SHOT_NUMBERS, (uint64_t *)answers,
                        count * FIELDBOOK_SHOT_WORDS, options);
        for (size_t i = 0; i < count; i++) {
            struct fieldbook_shot_answer a = answers[i];
            if (a.refusal != FIELDBOOK_ANSWERED)
                printf("no %" PRIu64 "\n", a.refusal);
            else
                printf("az %" PRIu64 " zd %" PRIu64 " ha %" PRIu64 " s %" PRIu64 "\n", a.azimuth,
                       a.zenith_distance, a.hour_angle, a.longitude);
        }
    }
    return 0;
}
