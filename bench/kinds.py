#!/usr/bin/env python3
"""kinds.py PROGRAM: compares `PROGRAM kinds WORKLOAD COUNT ROUNDS` at 100,000 ops and at 10,000, for each workload.

An op is to cost about the same however large its object is, so the larger may take at most 13 times the smaller. A run doesn't free its
objects, and takes up to 0.6 GB.

The program is crates/bench_costs/out/bench_costs, once `rt run` has built it."""
import sys

import times

ROUNDS = {
    "counter": 5_000,
    "register": 100,
    "map": 20,
    "set": 50,
    "tree": 20,
    "list-back": 50,
    "list-front": 50,
    "list-pop-back": 50,
    "list-pop-front": 50,
}


def answer(workload, count, rounds):
    """What the program is to print: each round answers the count, and a register the length of its last text."""
    return rounds * (len(f"v{count - 1}") if workload == "register" else count)


sys.exit(times.compare(sys.argv[1], "kinds", ROUNDS, (10_000, 100_000), 13, answer, "ops"))
