#!/usr/bin/env python3
"""replays.py PROGRAM: compares `PROGRAM replay` on made loads of about 200,000 and of about 20,000 steps.

A step is to cost the same at a run's end as at its start, so a step of the larger run may take at most 1.3 times one of
the smaller; and the larger may take at most 1 GiB of memory.

The load has three clients that take turns, a rival and, in its middle, the next layout. Its steps are counted here as
those of the transcript's world can't be: a run is cut where its script asks more than 200,000 (status 7), so the
larger is the greatest load that ends with status 0, found by halving.

The program is crates/tango/out/tango, once `rt run` has built it."""
import resource
import subprocess
import sys

ROUNDS_SMALL_OF_LARGE, MOST_RATIO, MOST_MEMORY = 10, 1.3, 1 << 30
OBJECTS = ["ctr0", "reg0", "map0", "list0", "tree0", "set0"]
HEADER = f"cluster units 2 layouts 1 seqs 2 clients 4 limit 100000\nchains u0,u1\nobjects {' '.join(OBJECTS)}\n"


def draws(start):
    """The running numbers of a load."""
    number = start % 2147483646 + 1
    while True:
        number = number * 48271 % 2147483647
        yield number


def op(o, v):
    return [f"ctr0 add {v}", f"reg0 write t{v}", f"map0 set k{v} t{v}", f"list0 push_back t{v}", f"tree0 create /t{v} t{v}", f"set0 include {v}"][o]


def ask(o, v):
    return ["ctr0 value", "reg0 text", f"map0 get k{v}", "list0 len", "tree0 children /", f"set0 member {v}"][o]


def load(start, count):
    """The script of a made load of so many rounds."""
    lines = [f"c{client} host {name}" for client in range(3) for name in OBJECTS] + ["c3 host ctr0"]
    numbers = draws(start)
    for i in range(count):
        if i == count // 2:
            lines += ["c0 reconf s1 drop u1", "settle"]
        t, o, v = next(numbers) % 4, next(numbers) % 6, next(numbers) % 8
        c = f"c{i % 3}"
        if t == 0:
            lines += [f"{c} begin", f"{c} ask {ask(o, v)}", "settle"]
            lines += [f"c3 update {op(o, v)}"] if v % 2 == 0 else []
            lines += [f"{c} put {op((o + 1) % 6, v)}", f"{c} end", "settle"]
        elif t == 1:
            lines += ["c3 begin", "c3 ask ctr0 value", "settle", "c3 end"]
        elif t == 2:
            lines += [f"{c} begin", f"{c} ask {ask(o, v)}", "settle", f"{c} end"]
        else:
            lines += [f"{c} update {op(o, v)}", "settle"]
    return HEADER + "".join(f"{line}\n" for line in lines)


def run(program, count):
    """The least processor time of three runs, and whether they stayed within the limits."""
    text = load(7, count).encode()
    best = float("inf")
    for _ in range(3):
        before = resource.getrusage(resource.RUSAGE_CHILDREN)
        ended = subprocess.run([program, "replay"], input=text, capture_output=True)
        after = resource.getrusage(resource.RUSAGE_CHILDREN)
        if ended.returncode == 7:
            return None
        if ended.returncode != 0:
            sys.exit(f"{count} rounds: status {ended.returncode}: {ended.stderr.decode().strip()}")
        best = min(best, after.ru_utime + after.ru_stime - before.ru_utime - before.ru_stime)
    return best


def largest(program):
    """The greatest count of rounds, to the next hundred, that stays within the limits, and its time."""
    fits, passes = 100, 20_000
    best = run(program, fits)
    while passes - fits > 100:
        middle = (fits + passes) // 200 * 100
        spent = run(program, middle)
        if spent is None:
            passes = middle
        else:
            fits, best = middle, spent
    return fits, best


program = sys.argv[1]
rounds, large = largest(program)
memory = resource.getrusage(resource.RUSAGE_CHILDREN).ru_maxrss * 1024
small = run(program, rounds // ROUNDS_SMALL_OF_LARGE)
ratio = large / ROUNDS_SMALL_OF_LARGE / small
print(f"{rounds // ROUNDS_SMALL_OF_LARGE} rounds {small:.3f} s; {rounds} rounds, nearly 200,000 steps, {large:.3f} s; a step's ratio {ratio:.2f}, at most {MOST_RATIO}")
print(f"about {200_000 / large:,.0f} steps a second; {memory / (1 << 20):.0f} MiB, at most {MOST_MEMORY >> 20}")
sys.exit(ratio > MOST_RATIO or memory > MOST_MEMORY)
