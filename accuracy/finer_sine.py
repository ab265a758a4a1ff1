#!/usr/bin/env python3
"""finer_sine.py SHOTS FINER COARSER: what the table's step alone does to the book's angles. SHOTS: eleven numbers to a line. FINER: what the batch program
prints for them. COARSER: the same by the second program with the step of 5′. Prints the largest and the root mean square differences, in seconds of arc."""
import sys

from plot import ANGLES, figures, read_book, series


def main(shots, finer, coarser):
    shots = [[int(w) for w in line.split()] for line in open(shots)]
    finer, coarser = read_book(finer), read_book(coarser)
    print(f'{"seconds of arc, a step of 1′ less one of 5′":46} {"largest":>14} {"root mean square":>17}')
    for name, body, angle in ANGLES:
        largest, mean = figures(series(shots, body, angle, finer, coarser))
        print(f'{name:46} {largest:14.4f} {mean:17.4f}')
    print()


if __name__ == '__main__':
    main(*sys.argv[1:])
