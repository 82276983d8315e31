#!/usr/bin/env python3
"""plays.py PROGRAM: compares plays of 100,000 entries on one object with plays of 10,000, and further plays of ten more after each.

A play is to take the time of the entries that it is given, so the larger may take at most 14 times the smaller; and a
view that has played more is to take ten more in about the same time, at most twice that of the smaller.

The program is crates/bench_costs/out/bench_costs, once `rt run` has built it."""
import sys

import times

SMALL, LARGE, PLAYS = 10_000, 100_000, 20_000
MOST_AT_ONCE, MOST_FURTHER = 14, 2


def spent(program, count, more):
    """The processor time of playing so many entries at once, and then ten more so many times."""
    return times.seconds(program, ("plays", count, more), f"{count + 10 * more}\n".encode())


def compare(what, small, large, most):
    """Prints the times and their ratio; whether it is above the most that is wanted."""
    print(f"{what}: after {SMALL} {small:.3f} s; after {LARGE} {large:.3f} s; ratio {large / small:.1f}, at most {most}", flush=True)
    return large > most * small


program = sys.argv[1]
at_once = [spent(program, count, 0) for count in (SMALL, LARGE)]
further = [spent(program, count, PLAYS) - once for count, once in zip((SMALL, LARGE), at_once)]
over = compare("all at once", *at_once, MOST_AT_ONCE)
over = compare(f"{PLAYS} plays of ten more", *further, MOST_FURTHER) or over
sys.exit(over)
