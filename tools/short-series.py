#!/usr/bin/env python3
"""short-series.py SECOND [PROGRAM..]: what the terms that the short edition of the Sun's series leaves out come to, 1976 to 2049. Asks PROGRAM, which is
target/bin/editions unless it is given, for the longitude by both editions every five days, draws the differences between their bounds as
docs/short-series.svg, and prints the largest, their root mean square and what ΔT changes of them. Asks SECOND, the second program (its command `shots`), for
shots of the Sun by both editions at every hour of these days, from five latitudes, and prints how far the azimuths are apart. Both are also given in
millimetres over 900 m. DUT1 is 0 everywhere, and so is ΔT, but where its part is measured."""
import datetime
import math
import os
import re
import subprocess
import sys

sys.dont_write_bytecode = True
import almanac
from almanac import ROOT

UNITS = 10_000  # to a second of arc
DEGREE = 36_000_000  # in units
MILLIMETRES = 900_000 * math.pi / (180 * DEGREE)  # that a unit is at 900 m
FIRST, END, STEP, HOUR = datetime.datetime(1976, 1, 1), datetime.datetime(2050, 1, 1), datetime.timedelta(days=5), datetime.timedelta(hours=1)
LARGEST_DELTA_T = 120_000  # in milliseconds
# in the five days between two instants a swing rises less than this above both, in units
BETWEEN_DAYS = 2_000
LATITUDES = (60, 47, 25, 0, -35)  # in degrees
ZENITH_DISTANCES = (30, 80)  # of the shots that are compared, in degrees

# the picture, in pixels: of a panel, and around it
WIDTH, HEIGHT, LEFT, RIGHT, TOP, BETWEEN = 900, 300, 70, 130, 134, 86
REACH = 25  # of a panel up and down, in seconds of arc
DIFFERENCE, BOUND = "#002f6c", "#b34700"
CLOSE = (2014, 2026)  # the years of the second panel
DESCRIPTION = (
    "Two panels, seconds of arc against years. A solid line swings about zero once in thirteen months, in each year as far as 5 to 16 seconds of arc, "
    "between two level broken lines at plus and minus 22.8. The first panel has 1976 to 2049, the second 2014 to 2026; a circle marks the largest difference."
)
# text that is read over a line has a white edge
EDGE = 'stroke="#fff" stroke-width="5" stroke-linejoin="round" paint-order="stroke"'


def answers(command, lines):
    """What a program answers each line with."""
    out = subprocess.run(command, input="".join(line + "\n" for line in lines), stdout=subprocess.PIPE, text=True, check=True).stdout.splitlines()
    if len(out) != len(lines):
        sys.exit(f"{' '.join(command)} answered {len(out)} of {len(lines)} lines")
    return out


def differences(program, times, delta_t=0):
    """At each time the longitude by the full edition less that by the short one, the short way round, and the bound, in units."""
    found = []
    for time, answer in zip(times, answers(program, [almanac.instant(time, delta_t) for time in times])):
        words = answer.split()
        if words[::2] != ["short", "full", "apart", "bound"]:
            sys.exit(f"{time}: {answer}")
        short, full, apart, bound = map(int, words[1::2])
        difference = almanac.short(full - short)
        if abs(difference) != apart or apart > bound:
            sys.exit(f"{time}: {answer}, but the difference is {difference}")
        found.append((difference, bound))
    return found


def every(step, first, end):
    """The times from one to another, without that."""
    return [first + i * step for i in range(math.ceil((end - first) / step))]


def largest(program, times, found):
    """The time of the largest difference, its size and its bound: of all hours around the days on which a swing comes near it."""
    sizes = [abs(difference) for difference, _ in found]
    near = [time for time, size in zip(times, sizes) if size > max(sizes) - BETWEEN_DAYS]
    hours = sorted({hour for time in near for hour in every(HOUR, max(FIRST, time - STEP), min(END, time + STEP))})
    of_hours = zip(hours, differences(program, hours))
    time, (difference, bound) = max(of_hours, key=lambda hour: abs(hour[1][0]))
    return time, difference, bound


def root_mean_square(numbers):
    return math.sqrt(sum(number * number for number in numbers) / len(numbers))


def measures(units):
    """An angle in seconds of arc and over 900 m."""
    return f"{units / UNITS:.4f}″, {units * MILLIMETRES:.1f} mm over 900 m"


def print_longitudes(program, times, found, top):
    """The figures of the longitude."""
    time, difference, bound = top
    sizes = sorted(abs(difference) for difference, _ in found)
    print(f"longitude, full less short, every five days at 0h, {len(sizes)} instants")
    print(f"  largest of the hours: {measures(abs(difference))}, at {time:%Y-%m-%d %H}h (full less short {difference:+} units)")
    print(f"  bound there: {bound} units, {measures(bound)}; the largest is {abs(difference) / bound:.3f} of it")
    print(f"  bound, first and last: {found[0][1]}, {found[-1][1]} units; the last {measures(found[-1][1])}")
    print(f"  root mean square: {measures(root_mean_square(sizes))}; middle of all: {measures(sizes[len(sizes) // 2])}")
    for seconds in (5, 10, 15):
        print(f"  beyond {seconds}″: {sum(size > seconds * UNITS for size in sizes) / len(sizes):.1%} of the instants")
    moved = [abs(with_it - without) for (with_it, _), (without, _) in zip(differences(program, times, LARGEST_DELTA_T), found)]
    print(f"  a ΔT of 120 s in place of 0 moves a difference by at most {max(moved)} units, root mean square {root_mean_square(moved):.2f}")


def shots(second, latitude, times):
    """The azimuths by both editions, in units, of the shots at these times whose zenith distance by the short one is in the range, and their lines."""
    lines = [f"{at} {latitude * 36_000} 0 1 {delta_t}" for at, delta_t in (almanac.instant(time, 0).rsplit(" ", 1) for time in times)]
    editions = [answers([second, "shots"], [f"{line} {edition}" for line in lines]) for edition in (1, 2)]
    low, high = (degrees * DEGREE for degrees in ZENITH_DISTANCES)
    for line, short, full in zip(lines, *(map(str.split, edition) for edition in editions)):
        if short[0] == "az" and low <= int(short[3]) <= high:
            yield line, int(short[1]), int(full[1])


def print_azimuths(second, times):
    """The figures of the azimuth, from each latitude and all."""
    hours = [time + i * HOUR for time in times for i in range(24)]
    low, high = ZENITH_DISTANCES
    print(f"azimuth of the Sun, full less short, zenith distance {low}° to {high}°, every hour of the same days, longitude 0°")
    every_size, top = [], (0, None)
    for latitude in LATITUDES:
        found = [(abs(almanac.short(full - short)), line) for line, short, full in shots(second, latitude, hours)]
        sizes = [size for size, _ in found]
        every_size += sizes
        top = max(top, max(found))
        print(f"  latitude {latitude}°: {len(sizes)} shots, largest {measures(max(sizes))}; root mean square {measures(root_mean_square(sizes))}")
    print(f"  all: {len(every_size)} shots, largest {measures(top[0])}, by the shot {top[1]}; root mean square {measures(root_mean_square(every_size))}")


def panel(title, years, step, points, mark, top):
    """One panel of points, the year and both numbers of each: a line of the differences, and broken ones of the bounds."""
    x = lambda year: LEFT + (year - years[0]) / (years[1] - years[0]) * WIDTH
    y = lambda units: top + HEIGHT / 2 - units / UNITS / REACH * HEIGHT / 2
    out = [f'<text x="{LEFT}" y="{top - 12}" font-weight="bold">{title}</text>']
    for seconds in (-20, -10, 0, 10, 20):
        height = y(seconds * UNITS)
        out.append(f'<path d="M{LEFT} {height:.1f}h{WIDTH}" stroke="#ccc"/>')
        out.append(f'<text x="{LEFT - 8}" y="{height + 6:.1f}" text-anchor="end">{seconds}″</text>'.replace(">-", ">−"))
    for year in range(-(-years[0] // step) * step, years[1] + 1, step):
        out.append(f'<path d="M{x(year):.1f} {top}v{HEIGHT}" stroke="#eee"/>')
        out.append(f'<text x="{x(year):.1f}" y="{top + HEIGHT + 22}" text-anchor="middle">{year}</text>')
    inside = [point for point in points if years[0] <= point[0] <= years[1]]
    for sign in (1, -1):
        ends = "L".join(f"{x(year):.1f} {y(sign * bound):.2f}" for year, _, bound in (inside[0], inside[-1]))
        out.append(f'<path d="M{ends}" fill="none" stroke="{BOUND}" stroke-width="4" stroke-dasharray="10 6"/>')
    width = 1.5 if len(inside) > WIDTH else 3
    curve = line([(x(year), y(difference)) for year, difference, _ in inside])
    out.append(f'<path d="{curve}" fill="none" stroke="{DIFFERENCE}" stroke-width="{width}" stroke-linejoin="round"/>')
    year, difference, label = mark
    out.append(f'<circle cx="{x(year):.1f}" cy="{y(difference):.1f}" r="7" fill="none" stroke="#000" stroke-width="3"/>')
    out.append(f'<text x="{x(year) + 14:.1f}" y="{y(difference) + 2:.1f}" {EDGE}>{label}</text>')
    for units, colour, words in ((inside[-1][2], BOUND, ("the bound",)), (0, DIFFERENCE, ("full less", "short")), (-inside[-1][2], BOUND, ("the bound",))):
        for i, word in enumerate(words):
            height = y(units) + 6 + 22 * (i - (len(words) - 1) / 2)
            out.append(f'<text x="{LEFT + WIDTH + 8}" y="{height:.1f}" fill="{colour}" font-weight="bold">{word}</text>')
    return out


def line(places):
    """A path through places, to a tenth of a pixel, each from the one before."""
    rounded = [(round(10 * x), round(10 * y)) for x, y in places]
    steps = zip(rounded, rounded[1:])
    moves = "".join(f"l{(b[0] - a[0]) / 10:g} {(b[1] - a[1]) / 10:g}" for a, b in steps)
    return re.sub(r" (?=-)|(?<!\d)0(?=\.)", "", f"M{rounded[0][0] / 10:g} {rounded[0][1] / 10:g}{moves}")


def draw(times, found, top):
    """The picture."""
    time, difference, _ = top
    year = lambda time: time.year + (time - datetime.datetime(time.year, 1, 1)) / datetime.timedelta(days=365 if time.year % 4 else 366)
    points = [(year(time), difference, bound) for time, (difference, bound) in zip(times, found)]
    mark = (year(time), difference, f"{abs(difference) / UNITS:.2f}″ on {time.day} {time:%B} {time.year}")
    legend = (
        "The Sun's longitude by the full edition less that by the short one, which leaves terms out.",
        "The line goes through every fifth day, at 0h with DUT1 and ΔT 0. The bound is all that is left out, added up:",
        f"{found[0][1] / UNITS:.2f}″ in 1976, {found[-1][1] / UNITS:.2f}″ in 2049. At no instant are the two farther apart.",
    )
    out = [f'<text x="{LEFT}" y="{28 + 24 * i}">{text}</text>' for i, text in enumerate(legend)]
    titles = (f"1976 to 2049: at most {abs(difference) / UNITS:.2f}″ apart", f"{CLOSE[0]} to {CLOSE[1]}: the swing of thirteen months is Jupiter's")
    for i, (title, years, step) in enumerate(zip(titles, ((FIRST.year, END.year), CLOSE), (10, 1))):
        out += panel(title, years, step, points, mark, TOP + i * (HEIGHT + BETWEEN))
    size = (LEFT + WIDTH + RIGHT, TOP + 2 * (HEIGHT + BETWEEN) - BETWEEN + 40)
    head = [
        f'<svg xmlns="http://www.w3.org/2000/svg" viewBox="0 0 {size[0]} {size[1]}" font-family="sans-serif" font-size="18" role="img" '
        'aria-labelledby="t d">',
        '<title id="t">What the short edition of the Sun\'s series leaves out, 1976 to 2049</title>',
        f'<desc id="d">{DESCRIPTION}</desc>',
        '<rect width="100%" height="100%" fill="#fff"/>',
    ]
    with open(os.path.join(ROOT, "docs", "short-series.svg"), "w") as picture:
        picture.write("\n".join(head + out + ["</svg>"]) + "\n")


def main(second, program):
    times = every(STEP, FIRST, END)
    found = differences(program, times)
    top = largest(program, times, found)
    print_longitudes(program, times, found, top)
    print_azimuths(second, times)
    draw(times, found, top)


if __name__ == "__main__":
    if len(sys.argv) < 2:
        sys.exit("usage: short-series.py SECOND-PROGRAM [PROGRAM..]")
    main(os.path.abspath(sys.argv[1]), sys.argv[2:] or [os.path.join(ROOT, "target", "bin", "editions")])
