/* The shot by ERFA (IAU 2006/2000A), geocentric, without refraction: needs liberfa-dev.
   Link with -lerfa -lm. */
#include "harness.h"

#include <erfa.h>
#include <erfam.h>
#include <math.h>

/* Units of 0.0001 second of arc in a radian. */
static const double UNITS = 648e3 * 1e4 / ERFA_DPI;

/* An instant on three scales, each in two parts. */
struct instant {
    double utc[2], tt[2], ut1[2];
};

/* Fields 1 to 7 as UTC, TT and UT1. TT is found from UTC by ERFA's own table of leap seconds, and
   field 11, ET - UT1, is not used. */
static struct instant instant_of(const int64_t *fields)
{
    struct instant t;
    double tai[2];
    eraDtf2d("UTC", (int)fields[0], (int)fields[1], (int)fields[2], (int)fields[3],
             (int)fields[4], (double)fields[5] / 1000.0, &t.utc[0], &t.utc[1]);
    eraUtctai(t.utc[0], t.utc[1], &tai[0], &tai[1]);
    eraTaitt(tai[0], tai[1], &t.tt[0], &t.tt[1]);
    eraUtcut1(t.utc[0], t.utc[1], (double)fields[6] / 1000.0, &t.ut1[0], &t.ut1[1]);
    return t;
}

/* The Sun's apparent place: hour angle at longitude 0, declination and longitude. */
static void sun(const struct instant *t, double *hour_angle, double *declination, double *s)
{
    double pvh[2][3], pvb[2][3], natural[3], proper[3], apparent[3], ecliptic[3];
    double velocity[3], distance, matrix[3][3], tilt[3][3], ra, latitude, psi, nutation;
    eraEpv00(t->tt[0], t->tt[1], pvh, pvb);
    for (int i = 0; i < 3; i++) {
        natural[i] = -pvh[0][i];
        velocity[i] = pvb[1][i] * ERFA_AULT / ERFA_DAYSEC;
    }
    eraPn(natural, &distance, natural);
    eraAb(natural, velocity, distance, sqrt(1.0 - eraPdp(velocity, velocity)), proper);
    eraPnm06a(t->tt[0], t->tt[1], matrix);
    eraRxp(matrix, proper, apparent);
    eraC2s(apparent, &ra, declination);
    *hour_angle = eraGst06(t->ut1[0], t->ut1[1], t->tt[0], t->tt[1], matrix) - ra;
    eraNut06a(t->tt[0], t->tt[1], &psi, &nutation);
    eraIr(tilt);
    eraRx(eraObl06(t->tt[0], t->tt[1]) + nutation, tilt);
    eraRxp(tilt, apparent, ecliptic);
    eraC2s(ecliptic, s, &latitude);
}

/* The apparent place of Polaris from its Hipparcos place at J2000.0 (ICRS 37.95456067,
   +89.26410897 degrees; 44.48 and -11.85 mas a year; 7.54 mas; -16.42 km/s). */
static void polaris(const struct instant *t, double *hour_angle, double *declination)
{
    double ra, origins, dec = 89.26410897 * ERFA_DD2R;
    eraAtci13(37.95456067 * ERFA_DD2R, dec, 0.04448 * ERFA_DAS2R / cos(dec),
              -0.01185 * ERFA_DAS2R, 0.00754, -16.42, t->tt[0], t->tt[1], &ra, declination,
              &origins);
    *hour_angle = eraEra00(t->ut1[0], t->ut1[1]) - ra;
}

int64_t bench_shot(const int64_t fields[NUMBERS], int64_t angles[WORDS - 1])
{
    struct instant t = instant_of(fields);
    double hour_angle, declination, azimuth, altitude, s = 0.0;
    double latitude = (double)fields[7] * 0.1 * ERFA_DAS2R;
    if (fields[9] == 1)
        sun(&t, &hour_angle, &declination, &s);
    else
        polaris(&t, &hour_angle, &declination);
    hour_angle = eraAnp(hour_angle + (double)fields[8] * 0.1 * ERFA_DAS2R);
    eraHd2ae(hour_angle, declination, latitude, &azimuth, &altitude);
    angles[0] = (int64_t)(eraAnp(azimuth) * UNITS);
    angles[1] = (int64_t)((ERFA_DPI / 2.0 - altitude) * UNITS);
    angles[2] = (int64_t)(hour_angle * UNITS);
    angles[3] = (int64_t)(eraAnp(s) * UNITS);
    return 0;
}
