/* Works two sets of pointings from standard input, the eleven numbers of a shot and the horizontal
   angle to a line, with an empty line between the sets. Prints the azimuth of the mark by each in
   degrees, minutes and seconds, or the refusal, and at the end which set has the smaller spread.

   usage: pointings [EDITION]    the edition of the Sun's series, a number; else the short one */
#include "fieldbook.h"

#include <inttypes.h>
#include <stdio.h>
#include <stdlib.h>

/* In units of 0.0001 second of arc. */
enum { DEGREE = 36000000, MINUTE = 600000, SECOND = 10000 };

/* One more than the choice takes: a longer set is refused by its count, not cut short. */
enum { ROOM = 65 };

struct set {
    int64_t results[ROOM];
    size_t count;
};

static void fail(const char *why)
{
    fprintf(stderr, "pointings: %s\n", why);
    exit(EXIT_FAILURE);
}

/* Reads the next pointing of a set; returns whether there was one. */
static int read_pointing(int64_t n[12])
{
    int c = getchar();
    if (c == '\n' || c == EOF)
        return 0;
    ungetc(c, stdin);
    for (int i = 0; i < 12; i++)
        if (scanf("%" SCNd64, &n[i]) != 1)
            fail("a line is twelve numbers");
    c = getchar();
    if (c != '\n' && c != EOF)
        fail("a line is twelve numbers");
    return 1;
}

/* Works the next set: prints each azimuth, and then an empty line. */
static struct set work_set(struct fieldbook_options options)
{
    struct set set = {{0}, 0};
    int64_t n[12];
    while (read_pointing(n)) {
        struct fieldbook_pointing_answer a =
            fieldbook_pointing(n[0], n[1], n[2], n[3], n[4], n[5], n[6], n[7], n[8], n[9], n[10],
                               n[11], options);
        if (a.refusal != FIELDBOOK_ANSWERED) {
            printf("no %" PRIu64 "\n", a.refusal);
            continue;
        }
        printf("%" PRIu64 " %02" PRIu64 " %02" PRIu64 ".%04" PRIu64 "\n", a.mark / DEGREE,
               a.mark % DEGREE / MINUTE, a.mark % MINUTE / SECOND, a.mark % SECOND);
        if (set.count < ROOM)
            set.results[set.count++] = (int64_t)a.mark;
    }
    putchar('\n');
    return set;
}

/* The largest result less the smallest. */
static int64_t spread(const int64_t *results, size_t count)
{
    int64_t most = results[0], least = results[0];
    for (size_t i = 1; i < count; i++) {
        most = results[i] > most ? results[i] : most;
        least = results[i] < least ? results[i] : least;
    }
    return most - least;
}

int main(int argc, char **argv)
{
    struct fieldbook_options options = FIELDBOOK_DEFAULTS;
    if (argc > 1)
        options.edition = strtoll(argv[1], NULL, 10);
    struct set first = work_set(options);
    struct set second = work_set(options);
    if (getchar() != EOF)
        fail("more than two sets");

    struct fieldbook_choice_answer a =
        fieldbook_choice(first.results, first.count, second.results, second.count);
    if (a.refusal != FIELDBOOK_ANSWERED) {
        printf("no %" PRIu64 "\n", a.refusal);
        return EXIT_SUCCESS;
    }
    int64_t least = spread(a.list == 2 ? second.results : first.results, a.count);
    printf("set %" PRIu64 ", %" PRIu64 " results, spread %" PRId64 ".%04" PRId64 "\n", a.list, a.count,
           least / SECOND, least % SECOND);
    return EXIT_SUCCESS;
}
