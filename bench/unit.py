#!/usr/bin/env python3
"""unit.py PROGRAM: compares 1,000,000 stores on a new unit with 100,000, in order and at scattered positions.

A step of a unit is to be logarithmic in its segments, so the larger may take at most 14 times the smaller. Ten smaller units take their
stores by turns for each larger one, so that as many pages are held in both: what differs is the unit, and not how much of it a processor's
caches hold. A run doesn't free its units, and takes up to 0.6 GB.

Stores with one cell in each segment, as no log has them, are timed too, and nothing is wanted of their ratio.

The program is crates/bench_costs/out/bench_costs, once `rt run` has built it."""
import sys

import times

SMALL, LARGE, MOST = 100_000, 1_000_000, 14
# how many larger units, in orders that fill each segment, and in one that has one cell in each
UNITS = {"rising": 5, "scattered": 5, "sparse": 2}


def spent(program, order, count, units):
    """The processor time of so many stores on one of so many units."""
    return times.seconds(program, ("unit", order, count, units), f"{count * units}\n".encode()) / units


over = False
for order, units in UNITS.items():
    small = spent(sys.argv[1], order, SMALL, units * LARGE // SMALL)
    large = spent(sys.argv[1], order, LARGE, units)
    is_bounded = order != "sparse"
    over = over or is_bounded and large > MOST * small
    wanted = f", at most {MOST}" if is_bounded else ""
    print(f"{order}: {SMALL} stores {small:.3f} s; {LARGE} stores {large:.3f} s; ratio {large / small:.1f}{wanted}", flush=True)
sys.exit(over)
