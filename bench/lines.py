#!/usr/bin/env python3
"""lines.py PROGRAM: compares `PROGRAM script` at a script of 200,000 lines and at one of 20,000.

Reading and printing a line is to cost about the same however long its script is, so the larger may take at most
12 times the smaller.

The program is crates/tests_texts/out/tests_texts, once `rt run` has built it."""
import sys

import times

SMALL, LARGE, MOST = 20_000, 200_000, 12
HEADER = "cluster units 4 layouts 3 seqs 2 clients 4 limit 1000000\nchains u0,u1/u2,u3\nobjects ctr0 reg0 map0 list0 tree0 set0\n"
FORMS = [
    "c{client} update ctr0 add -{number}",
    "c{client} begin",
    "c{client} ask map0 get k{number}",
    "settle",
    "c{client} put map0 set k{number} v{number}",
    "c{client} put tree0 create /p{number} v{number}",
    "c{client} end",
    "deliver {number}",
    "lose {number}",
    "tick s1",
    "c{client} ask-at {number} list0 items",
    "c{client} reconf s1 drop u1 open u2,u0/u3 join u1 0 1",
]


def script(count):
    """A script of so many lines, its header included."""
    lines = (FORMS[i % len(FORMS)].format(client=i % 4, number=i + 1) for i in range(count - 3))
    return (HEADER + "".join(f"{line}\n" for line in lines)).encode()


def spent(program, count):
    """The processor time of printing a script of so many lines back."""
    text = script(count)
    return times.seconds(program, ("script",), text, text)


small, large = spent(sys.argv[1], SMALL), spent(sys.argv[1], LARGE)
print(f"{SMALL} lines {small:.3f} s; {LARGE} lines {large:.3f} s; ratio {large / small:.1f}, at most {MOST}")
sys.exit(large > MOST * small)
