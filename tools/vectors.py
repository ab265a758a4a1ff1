#!/usr/bin/env python3
"""vectors.py VECTORS SECOND: writes the stored run of the program `vectors`, crates/vectors/stdin and stdout: a line that asks, and the line that must
answer it. VECTORS is the folder of the outside vectors, SECOND the second program. No answer comes from the program under test: most are what the vector
files have behind the `=`, the lines of crates/vectors/cases.txt are answered there, and the Sun's numbers at the almanacs' instants are the second
program's, as are the calls that bring the numbers of a pointing onto a card. pointing.txt is older than request 5: what hangs on the sine, a mark's
azimuth and whether its shot is refused by 7 or 8, is the second program's, which must agree with it in everything else. Prints how many lines each word
has. Where a line of longitude.txt breaks its own bound, nothing is written."""
import collections
import os
import sys

sys.dont_write_bytecode = True
import almanac
from almanac import ROOT, TURN

# the names of parts.txt in the order in which `parts` answers
TIME = "N sidereal_q Ne q L Ms Mm Mv D Om Lm obl lp1 lp2 lp3 lp4 MM MJ Msn".split()
FRAME = "dpsi mean_obliquity eps sidereal g".split()
SUN = ["s"]
POLARIS = "p ra dec zeta z theta catalogue before_aberration".split()
VIEW = "vector x east z_component up north azimuth zenith hour_angle".split()
# of the plain shots, so many of each refusal, of the answered ones of each body and edition; after so many calls on the card stands one of them, which must
# leave the card alone
SHOTS = 4
CALLS = 20
# of the pointings from a card, so many of each refusal and of each body; a number that can be heard is at most so large; the buffer that it is read into
POINTINGS = 1
HEARD = 9_999_999
EMPTY = "00" * 15
# the most numbers of a line
NUMBERS = 13
# the most digits of a number on a line
DIGITS = 18
# the places of the body and of the edition on a line of shot.txt
BODY, EDITION = 9, 11
# a latitude from which Polaris is always seen, 45° in 0.1″
NORTH = 1_620_000


def pairs(path):
    """What stands before and behind the ` = ` of each line that is no comment."""
    with open(path) as file:
        return [line.rstrip("\n").split(" = ") for line in file if line.strip() and not line.startswith("#")]


def listed(value, names):
    return " ".join(value[name] for name in names).replace(",", " ")


def sines(lines):
    return [(f"sine {left}", f"0 {right}") for left, right in lines]


def angles(lines):
    return [(f"angle {left}", f"0 {right}") for left, right in lines]


def longitudes(lines):
    """s. No function gives the polynomial longitude; here it is held to s, the short way round, within the line's bound."""
    for left, right in lines:
        s, polynomial, bound = map(int, right.split())
        if abs(almanac.short(s - polynomial)) > bound:
            sys.exit(f"not within {bound} units: {left} = {right}")
    return [(f"longitude {left}", f"0 {right.split()[0]}") for left, right in lines]


def steps(lines):
    """The time of each line of parts.txt by itself, and all its steps. The Sun's lines have the centre sum and not g: L plus that sum, reduced."""
    found = []
    for left, right in lines:
        words, fields = right.split(), left.split()
        value = dict(zip(words[::2], words[1::2]))
        body = SUN if fields[BODY] == "1" else POLARIS
        value.setdefault("g", str((int(value["L"]) + int(value.get("centre", 0))) % TURN))
        found.append((f"instant {' '.join(fields[:7] + fields[10:11])}", f"0 {listed(value, TIME)}"))
        found.append((f"parts {left}", f"0 {listed(value, TIME + FRAME + body + VIEW)}"))
    return found


def suns(second):
    instants = dict.fromkeys(at for hour, scale, delta_t, *_ in almanac.figures() for at in almanac.readings(hour, scale, delta_t).values())
    return [(f"sun {at}", " ".join(map(str, [0] + almanac.sun(second, at)))) for at in instants]


def own_cases(second, lines):
    """An accepted instant's arguments, behind N and q of its two times, are the second program's, which must agree on these four."""
    found = []
    for left, right in lines:
        word, _, numbers = left.partition(" ")
        if word == "instant" and right.startswith("0 "):
            *time, delta_t = numbers.split()
            answer = "0 " + listed(almanac.parts(second, f"{' '.join(time)} {NORTH} 0 2 {delta_t}"), TIME)
            if not answer.startswith(right + " "):
                sys.exit(f"the second program has {answer}: {left} = {right}")
            right = answer
        found.append((left, right))
    return found


def first_of_each(lines, count, places):
    """The first lines of each refusal, and of those that are answered the first with each of the numbers that stand at some places."""
    taken, found = collections.Counter(), []
    for left, right in lines:
        refusal, numbers = right.split()[0], left.split()
        kind = (refusal, *(numbers[place] for place in places if refusal == "0"))
        taken[kind] += 1
        if taken[kind] <= count:
            found.append((left, right))
    return found


def some_shots(lines):
    """Of the plain shots those that a line has room for."""
    fitting = [(left, right) for left, right in lines if all(len(number.lstrip("-")) <= DIGITS for number in left.split())]
    return [(f"shot {left}", right) for left, right in first_of_each(fitting, SHOTS, (BODY, EDITION))]


def pointings_from_cards(second, lines):
    """A pointing of each kind of pointing.txt from a card: refused by 1 on the fresh card, and answered where every number was heard, read and confirmed.
    The answers are the second program's, which must agree with the file on what does not hang on the sine."""
    found = []
    for left, right in first_of_each([(left, right) for left, right in lines if can_be_heard(left)], POINTINGS, (BODY,)):
        *fields, angle = left.split()
        calls = ["fresh", f"pointing {angle}"]
        for number, value in enumerate(fields, 1):
            calls += [f"hear {number} {value}", f"read {number} 0 {EMPTY}", f"confirm {number}"]
        calls.append(f"pointing {angle}")
        answers = almanac.answers(second, "card", calls)
        if without_sine(answers[-1].split()[0]) != without_sine(right.split()[0]):
            sys.exit(f"the second program has {answers[-1]}: {left} = {right}")
        found += zip(calls, answers)
    return found


def choices(lines):
    """The lines of choice.txt that a line of this program has room for; the answer has the results themselves that are handed back."""
    found = []
    for left, right in lines:
        numbers, (refusal, which, count) = left.split(), right.split()
        if len(numbers) <= NUMBERS:
            start = 1 if which == "1" else int(numbers[0]) + 2
            found.append((f"choice {left}", " ".join([refusal] + numbers[start : start + int(count)])))
    return found


def can_be_heard(left):
    return all(abs(int(value)) <= HEARD for value in left.split()[:-1])


def without_sine(refusal):
    """A refusal's number, one for all that hang on the sine: 0 for none, 7 below the horizon, 8 near the zenith, and 15 behind these."""
    return "seen or not" if refusal in ("0", "7", "8", "15") else refusal


def calls_and_shots(calls, shots):
    """The calls on the card as they stand, with a plain shot after every so many."""
    found, left = [], list(shots)
    for i, call in enumerate(calls, 1):
        found.append(call)
        if i % CALLS == 0 and left:
            found.append(left.pop(0))
    return found + left


def main(folder, second):
    vectors = lambda name: pairs(os.path.join(folder, name))
    crate = os.path.join(ROOT, "crates", "vectors")
    lines = (
        own_cases(second, pairs(os.path.join(crate, "cases.txt")))
        + sines(vectors("sine.txt"))
        + angles(vectors("angle.txt"))
        + longitudes(vectors("longitude.txt"))
        + steps(vectors("parts.txt"))
        + suns(second)
        + calls_and_shots(vectors("card.txt"), some_shots(vectors("shot.txt")))
        + pointings_from_cards(second, vectors("pointing.txt"))
        + choices(vectors("choice.txt"))
    )
    for name, side in (("stdin", 0), ("stdout", 1)):
        with open(os.path.join(crate, name), "w") as file:
            file.writelines(line[side] + "\n" for line in lines)
    for word, count in collections.Counter(line[0].split(" ")[0] for line in lines).items():
        print(f"{count:5} {word or '(no word)'}")


if __name__ == "__main__":
    if len(sys.argv) != 3:
        sys.exit("usage: vectors.py VECTORS-FOLDER SECOND-PROGRAM")
    main(sys.argv[1], os.path.abspath(sys.argv[2]))
