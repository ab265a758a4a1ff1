/* Times bench_shots on the shots that `second bench-shots` prints, read from standard
   input, and prints what `second bench` prints.

   usage: PROGRAM COUNT [sun|polaris]    nanoseconds per shot
          PROGRAM answers                each shot's refusal and four angles */
#define _POSIX_C_SOURCE 199309L
#include "harness.h"

#include <inttypes.h>
#include <stdio.h>
#include <stdlib.h>
#include <string.h>
#include <time.h>

enum { LARGEST_POOL = 1 << 16, BATCH = 1000 };

static int64_t pool[LARGEST_POOL][NUMBERS];
static int64_t answers[LARGEST_POOL][WORDS];

/* Reads shots of one body, or of both when body is 0; returns how many. */
static size_t read_pool(int64_t body)
{
    size_t count = 0;
    while (count < LARGEST_POOL) {
        int64_t *fields = pool[count];
        for (int i = 0; i < NUMBERS; i++)
            if (scanf("%" SCNd64, &fields[i]) != 1)
                return count;
        if (body == 0 || fields[9] == body)
            count++;
    }
    return count;
}

static double nanoseconds(void)
{
    struct timespec now;
    clock_gettime(CLOCK_MONOTONIC, &now);
    return 1e9 * (double)now.tv_sec + (double)now.tv_nsec;
}

/* Prints the answer to each shot of the pool. */
static void print_answers(size_t size)
{
    bench_shots(pool, size, answers);
    for (size_t i = 0; i < size; i++)
        for (int k = 0; k < WORDS; k++)
            printf("%" PRId64 "%c", answers[i][k], k + 1 < WORDS ? ' ' : '\n');
}

/* Times count shots, rounded up to whole batches, each of as many shots that follow in the pool. */
static void time_shots(size_t size, long count)
{
    long batches = count <= BATCH ? 1 : (count + BATCH - 1) / BATCH;
    double fastest = 0, total = 0;
    size_t next = 0;
    for (long batch = 0; batch < batches; batch++) {
        if (next + BATCH > size)
            next = 0;
        double start = nanoseconds();
        bench_shots(&pool[next], BATCH, answers);
        double time = (nanoseconds() - start) / BATCH;
        next += BATCH;
        total += time;
        if (batch == 0 || time < fastest)
            fastest = time;
    }
    printf("%.1f ns per shot in the fastest batch, %.1f in the mean\n", fastest,
           total / (double)batches);
}

int main(int count, char **words)
{
    const char *body = count > 2 ? words[2] : "";
    size_t size = read_pool(strcmp(body, "sun") == 0 ? 1 : strcmp(body, "polaris") == 0 ? 2 : 0);
    if (count < 2 || size < BATCH) {
        fputs("usage: PROGRAM COUNT [sun|polaris] or answers, with a batch of shots as input\n", stderr);
        return EXIT_FAILURE;
    }
    if (strcmp(words[1], "answers") == 0)
        print_answers(size);
    else
        time_shots(size, atol(words[1]));
    return EXIT_SUCCESS;
}
