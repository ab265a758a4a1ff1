/* The shot by libnova, geocentric, without refraction: needs libnova-dev. Its functions share one
   time, for which they are given UT1; field 11, ET - UT1, is not used. Link with -lnova -lm. */
#include "harness.h"

#include <libnova/libnova.h>
#include <math.h>

/* Units of 0.0001 second of arc in a degree. */
static const double UNITS = 36e6;

/* An angle in degrees as units of 0 .. a turn. */
static int64_t units(double degrees)
{
    return (int64_t)(fmod(fmod(degrees, 360.0) + 360.0, 360.0) * UNITS);
}

/* The body's apparent place: the Sun's, or that of Polaris from its place at J2000.0
   (37.95456067, +89.26410897 degrees; 44.48 mas a year over cos(dec) and -11.85). */
static struct ln_equ_posn place(int64_t body, double jd)
{
    struct ln_equ_posn star = {37.95456067, 89.26410897};
    struct ln_equ_posn motion = {44.48 / 3.6e6 / 0.012843, -11.85 / 3.6e6};
    struct ln_equ_posn apparent;
    if (body == 1)
        ln_get_solar_equ_coords(jd, &apparent);
    else
        ln_get_apparent_posn(&star, &motion, jd, &apparent);
    return apparent;
}

int64_t bench_shot(const int64_t fields[NUMBERS], int64_t angles[WORDS - 1])
{
    struct ln_date date = {(int)fields[0], (int)fields[1], (int)fields[2], (int)fields[3],
                           (int)fields[4], (double)(fields[5] + fields[6]) / 1000.0};
    struct ln_lnlat_posn observer = {(double)fields[8] / 36e3, (double)fields[7] / 36e3};
    double jd = ln_get_julian_day(&date);
    struct ln_equ_posn apparent = place(fields[9], jd);
    double sidereal = ln_get_apparent_sidereal_time(jd);
    struct ln_hrz_posn horizon;
    ln_get_hrz_from_equ_sidereal_time(&apparent, &observer, sidereal, &horizon);
    angles[0] = units(horizon.az + 180.0);
    angles[1] = units(90.0 - horizon.alt);
    angles[2] = units(15.0 * sidereal + observer.lng - apparent.ra);
    angles[3] = 0; /* asking for the longitude too would work the Sun twice */
    return 0;
}
