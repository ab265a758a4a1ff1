/* The single shot by the book's static library. Compile with the edition of the Sun's series as
   EDITION. */
#include "fieldbook.h"
#include "harness.h"

int64_t bench_shot(const int64_t n[NUMBERS], int64_t angles[WORDS - 1])
{
    struct fieldbook_options options = FIELDBOOK_DEFAULTS;
    options.edition = EDITION;
    struct fieldbook_shot_answer a = fieldbook_shot(n[0], n[1], n[2], n[3], n[4], n[5], n[6], n[7],
                                                    n[8], n[9], n[10], options);
    angles[0] = (int64_t)a.azimuth;
    angles[1] = (int64_t)a.zenith_distance;
    angles[2] = (int64_t)a.hour_angle;
    angles[3] = (int64_t)a.longitude;
    return (int64_t)a.refusal;
}
