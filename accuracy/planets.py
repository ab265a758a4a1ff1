#!/usr/bin/env python3
"""planets.py SHOTS SHORT FULL ERFA: fits the periods of Jupiter, Mars and others to the differences in the Sun's longitude of the short
edition and of the full one from ERFA, and to those in its hour angle of the full one, and prints the size of each, in seconds of arc, to
show where the differences come from and what the full edition takes away."""
import datetime
import math
import sys

from plot import read_book, read_erfa, short_way

HOUR_ANGLE, LONGITUDE = 2, 3  # their places in an answer
# Mean longitudes at noon of 2000-01-01, in degrees, and their daily motions: the Sun seen from the Earth is opposite to the Earth.
EARTH, MARS, JUPITER, SATURN = (100.46, 0.98564736), (355.43, 0.52402068), (34.35, 0.08308529), (50.08, 0.03344414)
PERIODS = {
    'Jupiter, E - J': ((1, EARTH), (-1, JUPITER)),
    'Jupiter, 2E - 2J': ((2, EARTH), (-2, JUPITER)),
    'Jupiter, J': ((1, JUPITER),),
    'Jupiter, E - 2J': ((1, EARTH), (-2, JUPITER)),
    'Jupiter, 2E - 3J': ((2, EARTH), (-3, JUPITER)),
    'Mars, 2E - 2M': ((2, EARTH), (-2, MARS)),
    'Mars, E - 2M': ((1, EARTH), (-2, MARS)),
    'Mars, 2E - 4M': ((2, EARTH), (-4, MARS)),
    'Mars, E - M': ((1, EARTH), (-1, MARS)),
    'Saturn, E - S': ((1, EARTH), (-1, SATURN)),
    'one year': ((1, EARTH),),
}


def angle(parts, day):
    return math.radians(sum(k * (start + motion * day) for k, (start, motion) in parts))


def solve(rows, values):
    """The coefficients that leave the least squares."""
    n = len(rows[0])
    m = [[sum(r[i] * r[j] for r in rows) for j in range(n)] + [sum(r[i] * v for r, v in zip(rows, values))] for i in range(n)]
    for i in range(n):
        pivot = max(range(i, n), key=lambda k: abs(m[k][i]))
        m[i], m[pivot] = m[pivot], m[i]
        for k in range(n):
            if k != i:
                factor = m[k][i] / m[i][i]
                m[k] = [a - factor * b for a, b in zip(m[k], m[i])]
    return [m[i][n] / m[i][i] for i in range(n)]


def root_mean_square(values):
    return math.sqrt(sum(v * v for v in values) / len(values))


def fit(shots, book, erfa, place):
    """What the differences in an angle of the Sun's shots, at its place in an answer, have of each period, and what is left: names and
    sizes."""
    days, values = [], []
    for n, b, e in zip(shots, book, erfa):
        if n[9] == 1:
            days.append((datetime.date(n[0], n[1], n[2]) - datetime.date(2000, 1, 1)).days + (n[3] - 12) / 24)
            values.append(short_way(b[place], e[place]))
    rows = [[1, day / 36_525] + [f(angle(p, day)) for p in PERIODS.values() for f in (math.sin, math.cos)] for day in days]
    fitted = solve(rows, values)
    left = [v - sum(a * b for a, b in zip(fitted, row)) for v, row in zip(values, rows)]
    sizes = [(name, math.hypot(fitted[2 + 2 * i], fitted[3 + 2 * i])) for i, name in enumerate(PERIODS)]
    return sizes + [
        ('constant, at 2000', fitted[0]),
        ('slope, a century', fitted[1]),
        ('root mean square', root_mean_square(values)),
        ('of what is left', root_mean_square(left)),
    ]


def main():
    shots = [[int(w) for w in line.split()] for line in open(sys.argv[1])]
    short, full, erfa = read_book(sys.argv[2]), read_book(sys.argv[3]), read_erfa(sys.argv[4])
    print(f'{"seconds of arc":20}{"longitude, short":>18}{"longitude, full":>18}{"hour angle, full":>18}')
    for rows in zip(fit(shots, short, erfa, LONGITUDE), fit(shots, full, erfa, LONGITUDE), fit(shots, full, erfa, HOUR_ANGLE)):
        print(f'{rows[0][0]:20}' + ''.join(f'{size:18.2f}' for _, size in rows))


main()
