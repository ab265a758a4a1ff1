/* Many shots in one call of the book's static library. Compile with the edition of the Sun's series
   as EDITION. */
#include "fieldbook.h"
#include "harness.h"

void bench_shots(const int64_t rows[][NUMBERS], size_t count, int64_t answers[][WORDS])
{
    struct fieldbook_options options = FIELDBOOK_DEFAULTS;
    options.edition = EDITION;
    fieldbook_shots(&rows[0][0], count * FIELDBOOK_SHOT_NUMBERS, (uint64_t *)answers,
                    count * FIELDBOOK_SHOT_WORDS, options);
}
