/* Both editions of the Sun's series at the instant of a shot, by the book's static library, under the
   harness: the answer's row has these in place of a shot's angles. */
#include "fieldbook.h"
#include "harness.h"

int64_t bench_shot(const int64_t n[NUMBERS], int64_t angles[WORDS - 1])
{
    struct fieldbook_editions_answer a =
        fieldbook_editions(n[0], n[1], n[2], n[3], n[4], n[5], n[6], n[10]);
    angles[0] = (int64_t)a.short_edition;
    angles[1] = (int64_t)a.full_edition;
    angles[2] = (int64_t)a.apart;
    angles[3] = (int64_t)a.bound;
    return (int64_t)a.refusal;
}
