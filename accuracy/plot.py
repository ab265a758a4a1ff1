#!/usr/bin/env python3
"""plot.py SHOTS WITHOUT WITH FULL ERFA PICTURE: compares the book's answers, without and with ΔT and by the full edition of the Sun's
series, with ERFA's. Prints the largest and the root mean square differences, in seconds of arc and those of azimuths also over 900 m, and
draws the differences. SHOTS: eleven numbers to a line. WITH: what the batch program prints for them. WITHOUT: the same with 0 for ΔT, field
11. FULL: the same as WITH, but by the full edition. ERFA: what bench/harness.c prints."""
import math
import sys
from collections import namedtuple

TURN = 12_960_000_000
UNITS = 10_000  # to a second of arc
MILLIMETRES = 900_000 * math.pi / 648_000  # that a second of arc is at 900 m
WIDTH, HEIGHT, LEFT, RIGHT, TOP, BETWEEN = 900, 240, 70, 130, 110, 76  # of a panel, and around it, in pixels
FIRST_YEAR, LAST_YEAR = 1976, 2050
ANGLES = [("Sun's apparent longitude", 1, 3), ("Sun's azimuth", 1, 0), ('Azimuth of Polaris', 2, 0)]  # with body and place
COLUMNS = ('without - ERFA', 'with ΔT - ERFA', 'full - ERFA', 'with - without', 'full - with')
# How the answers without ΔT are drawn, those with it and those of the full edition: told apart by hue, by brightness, and as a broken, a
# solid and a dotted line.
Style = namedtuple('Style', 'name colour line dot')
STYLES = [
    Style('without ΔT', '#b34700', 'stroke-width="4" stroke-dasharray="10 6"', 'stroke="#ffc766" stroke-width="4"'),
    Style('with ΔT', '#002f6c', 'stroke-width="4"', 'stroke="#3d78d0" stroke-width="2.5"'),
    Style('full edition', '#000', 'stroke-width="5" stroke-dasharray="0 9" stroke-linecap="round"', 'stroke="#808080" stroke-width="2"'),
]


def read_book(path):
    """The four angles of each answered shot."""
    answers = []
    for line in open(path):
        words = line.split()
        if words[0] != 'az':
            sys.exit('a shot was refused: ' + line)
        answers.append([int(w) for w in words[1::2]])
    return answers


def read_erfa(path):
    return [[int(w) for w in line.split()[1:]] for line in open(path)]


def short_way(a, b):
    """a less b, the short way round, in seconds of arc."""
    return ((a - b + TURN // 2) % TURN - TURN // 2) / UNITS


def series(shots, body, angle, a, b):
    """Year and difference of one angle of one body."""
    return [(n[0] + (n[1] - 1) / 12 + (n[2] - 1) / 365, short_way(x[angle], y[angle])) for n, x, y in zip(shots, a, b) if n[9] == body]


def figures(points):
    """The largest and the root mean square difference."""
    return max(abs(d) for _, d in points), math.sqrt(sum(d * d for _, d in points) / len(points))


def yearly(points):
    """The middle of each year and the mean of its differences."""
    years = {}
    for year, d in points:
        years.setdefault(int(year), []).append(d)
    return [(year + 0.5, sum(ds) / len(ds)) for year, ds in years.items()]


def apart(places, distance):
    """Places as near as can be to those given, but at least so far from one another."""
    order = sorted(range(len(places)), key=lambda i: places[i])
    moved = [places[i] for i in order]
    for i in range(1, len(moved)):
        moved[i] = max(moved[i], moved[i - 1] + distance)
    back = (sum(moved) - sum(places)) / len(places)
    return [moved[order.index(i)] - back for i in range(len(places))]


def panel(title, drawn, top):
    """One panel of pairs, a style and its points: a dot for every second instant, and a line through the yearly means."""
    reach = max(1.0, math.ceil(max(abs(d) for _, points in drawn for _, d in points)))
    x = lambda year: LEFT + (year - FIRST_YEAR) / (LAST_YEAR - FIRST_YEAR) * WIDTH
    y = lambda d: top + HEIGHT / 2 - d / reach * HEIGHT / 2
    out = [f'<text x="{LEFT}" y="{top - 12}" font-weight="bold">{title}</text>']
    for d in (-reach, -reach / 2, 0, reach / 2, reach):
        out.append(f'<path d="M{LEFT} {y(d):.1f}h{WIDTH}" stroke="#ccc"/>')
        out.append(f'<text x="{LEFT - 8}" y="{y(d) + 6:.1f}" text-anchor="end">{d:g}″</text>')
    for year in range(1980, LAST_YEAR + 1, 10):
        out.append(f'<path d="M{x(year):.1f} {top}v{HEIGHT}" stroke="#eee"/>')
        out.append(f'<text x="{x(year):.1f}" y="{top + HEIGHT + 22}" text-anchor="middle">{year}</text>')
    for style, points in drawn:
        dots = ''.join(f'M{x(year):.1f} {y(d):.1f}h0' for year, d in points[::2])
        out.append(f'<path d="{dots}" {style.dot} stroke-linecap="round"/>')
    lines = [(style, 'M' + 'L'.join(f'{x(year):.1f} {y(d):.1f}' for year, d in yearly(points))) for style, points in reversed(drawn)]
    out += [f'<path d="{line}" fill="none" stroke="#fff" stroke-width="9"/>' for _, line in lines]
    out += [f'<path d="{line}" fill="none" stroke="{style.colour}" {style.line}/>' for style, line in lines]
    ends = apart([y(yearly(points)[-1][1]) for _, points in drawn], 20)
    for end, (style, _) in zip(ends, drawn):
        out.append(f'<text x="{LEFT + WIDTH + 8}" y="{end + 6:.1f}" fill="{style.colour}" font-weight="bold">{style.name}</text>')
    return out


def legend():
    """What the lines and the dots are."""
    out = [f'<text x="{LEFT}" y="28">The book less ERFA; the full edition has ΔT too. Lines: the mean of each year. Dots: every tenth day.</text>']
    for i, style in enumerate(STYLES):
        x = LEFT + 260 * i
        out.append(f'<path d="M{x} 52h60" stroke="{style.colour}" {style.line}/>')
        out.append(f'<path d="M{x + 70} 52h0m12 0h0m12 0h0" {style.dot} stroke-linecap="round"/>')
        out.append(f'<text x="{x + 106}" y="58" fill="{style.colour}" font-weight="bold">{style.name}</text>')
    return out


def main():
    shots = [[int(w) for w in line.split()] for line in open(sys.argv[1])]
    without, given, full = (read_book(path) for path in sys.argv[2:5])
    erfa = read_erfa(sys.argv[5])
    if not len(shots) == len(without) == len(given) == len(full) == len(erfa):
        sys.exit('not every shot has its answers')
    print(f'{"seconds of arc":45}' + ''.join(f'{column:>16}' for column in COLUMNS))
    panels, over, titles = [], [], []
    for name, body, angle in ANGLES:
        pairs = ((without, erfa), (given, erfa), (full, erfa), (given, without), (full, given))
        parts = [series(shots, body, angle, a, b) for a, b in pairs]
        for word, *row in zip(('largest', 'root mean square'), *(figures(p) for p in parts)):
            print(f'{name + ", " + word:45}' + ''.join(f'{d:16.2f}' for d in row[:3]) + ''.join(f'{d:16.4f}' for d in row[3:]))
            over.append(f'{name + ", " + word:45}' + ''.join(f'{d * MILLIMETRES:16.1f}' for d in row))
        lag = sorted(abs(d) for _, d in parts[3])
        titles.append(f'{name}: with and without ΔT {lag[0]:.2g}″ to {lag[-1]:.2g}″ apart')
        drawn = list(zip(STYLES, parts[:3]))
        panels.append((titles[-1], drawn if body == 1 else drawn[:2]))
        if body == 1:
            panels.append((f'{name}, the full edition alone: at most {figures(parts[2])[0]:.2g}″', drawn[2:]))
    print('\nmillimetres over 900 m', *over[2:], '', *titles, '', sep='\n')
    out = legend()
    for i, (title, drawn) in enumerate(panels):
        out += panel(title, drawn, TOP + i * (HEIGHT + BETWEEN))
    size = (LEFT + WIDTH + RIGHT, TOP + len(panels) * (HEIGHT + BETWEEN) - BETWEEN + 40)
    head = f'<svg xmlns="http://www.w3.org/2000/svg" viewBox="0 0 {size[0]} {size[1]}" font-family="sans-serif" font-size="18">'
    with open(sys.argv[6], 'w') as picture:
        picture.write('\n'.join([head, '<rect width="100%" height="100%" fill="#fff"/>'] + out + ['</svg>']) + '\n')


if __name__ == '__main__':
    main()
