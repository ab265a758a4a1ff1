#!/usr/bin/env python3
"""sine-table.py: writes crates/sine_table/src/entries.rt by the rule of docs/RULES.md, in exact fractions: R·P at each multiple of the step, rounded. The
prover tests the file against the same rule, so nothing rests on this script. The rule's step stands in crates/sine_table/specs/Step.antt."""
import os
from math import factorial

Q, R, STEP = 3_240_000_000, 1_000_000_000, 600_000
ARC, WHOLE = 31_415_926_535_897_932, 6_480_000_000 * 10**16
DEN = factorial(17) * WHOLE**17


def numerator(a):
    return sum((-1) ** k * (ARC * a) ** m * (factorial(17) // factorial(m)) * WHOLE ** (17 - m) for k, m in enumerate(range(1, 18, 2)))


table = [(2 * R * numerator(STEP * n) + DEN) // (2 * DEN) for n in range(Q // STEP + 1)]
rows = "".join("    " + f"{x:_},\n" for x in table)
path = os.path.join(os.path.dirname(os.path.abspath(__file__)), "..", "crates", "sine_table", "src", "entries.rt")
with open(path, "w") as out:
    out.write(
        """// The sine's table: R·P at every STEP from 0 to a quadrant, to nearest. Written by tools/sine-table.py.
ghost use Rattle.std.specs.Prelude.{◌≡◌};
ghost use Rattle.sine_table.specs.Table.{entries};

// The table's step in units of 0.0001 second of arc.
pub const STEP: u64 = %s;

// How many steps a quadrant has: the index of the last entry.
pub const STEPS: usize = %s;

static ENTRIES: [u32; %s] = [
%s];

// The table.
pub fn table() -> &'static [u32; %s]
    ensures { result.now ≡ entries }
{
    &ENTRIES
}
"""
        % (f"{STEP:_}", f"{len(table) - 1:_}", f"{len(table):_}", rows, f"{len(table):_}")
    )
