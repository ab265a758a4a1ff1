/* A run of the crate `measures`, for callgrind.

   usage: measures KIND COUNT    KIND: 0 nothing, 1 sines, 2 sines and cosines, 3 the angles of both */
#include <inttypes.h>
#include <stdio.h>
#include <stdlib.h>

uint64_t measured(uint64_t kind, uint64_t count);

int main(int argc, char **argv)
{
    if (argc != 3)
        return 2;
    printf("%" PRIu64 "\n", measured(strtoull(argv[1], NULL, 10), strtoull(argv[2], NULL, 10)));
    return 0;
}
