#!/usr/bin/env python3
"""almanac.py SECOND: prints the tables of docs/almanacs.md: each figure of crates/vectors/almanac.txt beside what the second program (SECOND, its commands
`parts` and `angle`) says of the same instant, without ΔT and with it; then, of each quantity at hours of UT, the mean and the root mean square
of the differences. The program `vectors` is held to the same numbers by its stored run."""
import collections
import datetime
import itertools
import math
import os
import subprocess
import sys
from fractions import Fraction

ROOT = os.path.join(os.path.dirname(os.path.abspath(__file__)), "..")
TURN = 12_960_000_000
UNITS = {"d": 36_000_000, "h": 540_000_000, "s": 10_000}
MARKS = {"d": "°′″", "h": "hms", "s": "″"}
# what `sun` answers, in its order, with the name in the tables
QUANTITIES = {
    "longitude": "apparent longitude",
    "nutation-in-longitude": "Δψ",
    "nutation-in-obliquity": "Δε",
    "obliquity": "ε",
    "sidereal-time": "apparent sidereal time",
    "right-ascension": "right ascension",
    "declination": "declination",
}
# the heads of the tables, by the scale of the almanac's hour; at 0h of ET with ΔT the Sun's numbers are those of 0h without it
HEADS = {
    "ET": "| date | quantity | almanac | at 0h ET | difference | at 0h UT | difference |",
    "UT": "| date, 0h | quantity | almanac | without ΔT | difference | with ΔT | difference |",
}


def answers(second, command, lines):
    """What the second program answers each line with."""
    given = "".join(line + "\n" for line in lines)
    out = subprocess.run([second, command], input=given, stdout=subprocess.PIPE, text=True, check=True).stdout
    return [line.split(" = ")[1] for line in out.splitlines()]


def ask(second, command, words):
    """The words that it answers one line with."""
    return answers(second, command, [words])[0].split()


def parts(second, words):
    """Its steps of a shot with eleven numbers, which is by the short edition, by name."""
    answer = ask(second, "parts", words)
    return dict(zip(answer[::2], answer[1::2]))


def short(a):
    return a % TURN - TURN if a % TURN > TURN // 2 else a % TURN


def readings(hour, scale, delta_t):
    """The instants, fields 1 to 7 and 11, at which a figure of an hour is worked, by name: that hour of UT with no ΔT, the same with it, and where the
    figure's own scale is ET that hour of ET, which is ΔT before it by UT."""
    instants = {"without": instant(hour, 0), "UT": instant(hour, delta_t)}
    if scale == "ET":
        instants["ET"] = instant(hour - datetime.timedelta(milliseconds=delta_t), delta_t)
    return instants


def instant(time, delta_t):
    """Fields 1 to 7 and 11 of a time of UT, with DUT1 0."""
    return f"{time.year} {time.month} {time.day} {time.hour} {time.minute} {time.second * 1000 + time.microsecond // 1000} 0 {delta_t}"


def sun(second, instant):
    """The quantities of the Sun at an instant, by the second program: seen from where it stands near the meridian, on the equator, so that the shot is
    answered."""
    *time, delta_t = instant.split()
    step = parts(second, f"{' '.join(time)} 0 {6_480_000 - 540_000 * int(time[3])} 1 {delta_t}")
    x, y, z = map(int, step["vector"].split(","))
    angle = lambda x, y: int(ask(second, "angle", f"{x} {y}")[0])
    return [int(step[name]) for name in ("s", "dpsi", "deps", "eps", "sidereal")] + [angle(x, y), short(angle(math.isqrt(x * x + y * y), z))]


def printed(words):
    """A figure as it is printed, in whole units."""
    total, i = Fraction(0), 0
    while i < len(words):
        sign, unit, part = {"+": 1, "-": -1}[words[i]], UNITS[words[i + 1]], Fraction(1)
        i += 2
        while i < len(words) and words[i] not in "+-":
            total += sign * unit * part * Fraction(words[i])
            part /= 60
            i += 1
    assert total.denominator == 1, words
    return int(total)


def figures():
    """The hour, its scale, ΔT in milliseconds, the quantity, the printed words and the source's line of each figure."""
    with open(os.path.join(ROOT, "crates", "vectors", "almanac.txt")) as file:
        for line in file:
            if line.strip() and not line.startswith("#"):
                figure, source = line.strip().split(" # ")
                words = figure.split()
                yield datetime.datetime(*map(int, words[:4])), words[4], int(words[5]), words[6], words[7:], source


def rounded(numerator, denominator):
    """A quotient to the nearest whole number, a half away from 0."""
    size = (2 * abs(numerator) + denominator) // (2 * denominator)
    return size if numerator >= 0 else -size


def written(units, words, places):
    """An angle in the notation of a printed figure, its last part with so many decimal places."""
    count = len(list(itertools.takewhile(lambda word: word not in "+-", words[2:])))
    marks, text = MARKS[words[1]][:count], ""
    rest = rounded(abs(units) * 60 ** (count - 1) * 10**places, UNITS[words[1]])
    for mark in reversed(marks[1:]):
        rest, part = divmod(rest, 60 * 10**places)
        text = f" {part / 10**places:0{places + 3 if places else 2}.{places}f}{mark}{text}"
        places = 0
    return f"{'−' if units < 0 else ''}{rest / 10**places:.{places}f}{marks[0]}{text}"


def main(second):
    head, differences = None, collections.defaultdict(list)
    for hour, scale, delta_t, quantity, words, source in figures():
        if scale != head:
            print(HEADS[scale] + "\n|---|---|---|---|---|---|---|")
            head = scale
        figure = printed(words) % TURN if quantity == "right-ascension" else printed(words)
        ours = {name: sun(second, at)[list(QUANTITIES).index(quantity)] for name, at in readings(hour, scale, delta_t).items()}
        if ours.setdefault("ET", ours["without"]) != ours["without"]:
            sys.exit(f"{hour} of ET with ΔT and without are not the same: {quantity}")
        cells = [f"{hour:%Y-%m-%d}", f"{QUANTITIES[quantity]} ({source})", written(figure, words, max(len(word.partition(".")[2]) for word in words))]
        # minutes of arc to 0.001′, all else to 0.0001 of a second
        places = 3 if len(words) == 4 else 4
        for name in ("ET", "UT"):
            difference = short(ours[name] - figure)
            if scale == "UT":
                differences[hour.year, quantity, name].append(difference / 10_000)
            cells += [written(ours[name], words, places), f"{rounded(difference, 10) / 1000:+.3f}".replace("-", "−")]
        print("| " + " | ".join(cells) + " |")
    for (year, quantity, name), found in differences.items():
        square = math.sqrt(sum(difference**2 for difference in found) / len(found))
        print(f"{year} {quantity}, {'with' if name == 'UT' else 'without'} ΔT: mean {sum(found) / len(found):+.2f}, root mean square {square:.2f}")


if __name__ == "__main__":
    if len(sys.argv) != 2:
        sys.exit("usage: almanac.py SECOND-PROGRAM")
    main(os.path.abspath(sys.argv[1]))
