#!/usr/bin/env python3
"""cost: what a step of a replay costs, in instructions and in memory.

    python3 bench/cost.py crates/tango/out/tango

For each of five loads it makes scripts of nearly 20,000 and nearly 200,000 steps, and prints of each the instructions that
a step takes, by callgrind, without those of the program's start, and the peak of memory, with the ratio of the larger's
step to the smaller's. It ends with the status 1 where a ratio is above 1.1. Callgrind runs some fifty times slower than
the program; its counts don't depend on what else the machine does.

    python3 bench/cost.py write LOAD ROUNDS > FILE

writes a load's script of so many rounds alone. The loads: `arrivals` (one packet that arrives again and again), `asks`
(transactions of four clients, each with two asks and a write), `clients` (32 clients, all at once), `mixed` (the load of
replays.py, with a reconfiguration in its middle), and `views` (a long history, then late hosts and asks at past
positions)."""
import os
import re
import subprocess
import sys

MOST_STEPS, MOST_RATIO = 200_000, 1.1


def arrivals(rounds):
    yield "cluster units 1 layouts 1 seqs 1 clients 3 limit 100\nchains u0\nobjects ctr0 ctr1\nc0 update ctr0 add 5\n"
    for _ in range(rounds):
        yield "deliver 0\n"


def asks(rounds):
    yield "cluster units 2 layouts 1 seqs 1 clients 4 limit 100000\nchains u0,u1\nobjects ctr0 map0 reg0\n"
    for client in range(4):
        for name in ("ctr0", "map0", "reg0"):
            yield f"c{client} host {name}\ndrain\n"
    for turn in range(rounds):
        c, key = f"c{turn % 4}", f"k{turn % 8}"
        yield f"{c} begin\n{c} ask ctr0 value\ndrain\n{c} ask map0 get {key}\ndrain\n{c} put map0 set {key} v{turn}\n{c} end\ndrain\n"


def clients(rounds):
    yield "cluster units 4 layouts 1 seqs 1 clients 32 limit 100000\nchains u0,u1/u2,u3\nobjects ctr0 ctr1 ctr2 ctr3 ctr4 ctr5 ctr6 ctr7\n"
    each = [(f"c{client}", f"ctr{client % 8}") for client in range(32)]
    yield "".join(f"{c} host {ctr}\ndrain\n" for c, ctr in each)
    for turn in range(rounds):
        yield "".join(f"{c} update {ctr} add {turn}\n" for c, ctr in each) + "drain\n"
        yield "".join(f"{c} begin\n" for c, _ in each)
        yield "".join(f"{c} ask {ctr} value\n" for c, ctr in each) + "drain\n"
        yield "".join(f"{c} end\n" for c, _ in each) + "drain\n"


def mixed(rounds):
    """The load of replays.py."""
    here = os.path.join(os.path.dirname(os.path.abspath(__file__)), "replays.py")
    with open(here, encoding="utf-8") as file:
        text = file.read()
    names = {}
    exec(text[:text.index("program = sys.argv[1]")], names)
    yield names["load"](7, rounds)


def views(rounds):
    yield "cluster units 2 layouts 1 seqs 1 clients 32 limit 100000\nchains u0,u1\nobjects ctr0 map0\n"
    written = 20 * rounds
    for at in range(written):
        yield f"c0 update ctr0 add 1\ndrain\n" if at % 2 else f"c0 update map0 set k{at % 50} v{at}\ndrain\n"
    for client in range(1, 9):
        c = f"c{client}"
        yield f"{c} host ctr0\ndrain\n{c} host map0\ndrain\n{c} ask-at {written - 2} ctr0 value\ndrain\n{c} ask-at {written * 2 // 3} map0 get k1\ndrain\n"


LOADS = {"arrivals": arrivals, "asks": asks, "clients": clients, "mixed": mixed, "views": views}


def replay(program, text, before=()):
    """The status of a replay of this script, and what was printed beside."""
    ended = subprocess.run([*before, program, "replay"], input=text.encode(), stdout=subprocess.DEVNULL, stderr=subprocess.PIPE)
    return ended.returncode, ended.stderr.decode()


def steps_of(program, text):
    """The steps of a script's run, None where there are too many: as many as fill it up to the limit are a step each."""
    if replay(program, text)[0] == 7:
        return None
    fits, passes = 0, MOST_STEPS
    while passes - fits > 1:
        middle = (fits + passes) // 2
        status = replay(program, text + "tick u0\n" * middle)[0]
        if status not in (0, 7):
            sys.exit(f"status {status}")
        fits, passes = (middle, passes) if status == 0 else (fits, middle)
    return MOST_STEPS - fits


def largest(program, make, most):
    """The rounds of the greatest script of at most so many steps, its text and its steps."""
    fits, passes, found = 1, MOST_STEPS + 1, None
    while passes - fits > 1:
        middle = min((fits + passes) // 2, fits * 4)
        text = "".join(make(middle))
        count = steps_of(program, text)
        if count is None or count > most:
            passes = middle
        else:
            fits, found = middle, (middle, text, count)
        if found and found[2] > 0.97 * most:
            break
    return found


def instructions(program, text):
    status, said = replay(program, text, ("valgrind", "--tool=callgrind", "--callgrind-out-file=/dev/null"))
    if status != 0:
        sys.exit(f"under callgrind: status {status}")
    return int(re.search(r"Collected : (\d+)", said).group(1))


def memory(program, text):
    """The peak of memory of a run, in MiB, by time(1): a child of this process would count this one's memory too."""
    status, said = replay(program, text, ("/usr/bin/time", "-f", "%M"))
    if status != 0:
        sys.exit(f"status {status}")
    return int(said.split()[-1]) / 1024


def main():
    if sys.argv[1:2] == ["write"] and len(sys.argv) == 4:
        sys.stdout.writelines(LOADS[sys.argv[2]](int(sys.argv[3])))
        return
    program, names, well = sys.argv[1], sys.argv[2:] or list(LOADS), True
    start = instructions(program, "".join(arrivals(1)))
    for name in names:
        each = []
        for most in (MOST_STEPS // 10, MOST_STEPS):
            rounds, text, steps = largest(program, LOADS[name], most)
            each.append((instructions(program, text) - start) / steps)
            print(f"{name}: {rounds:,} rounds, {steps:,} steps: {each[-1]:,.0f} instructions a step, {memory(program, text):.1f} MiB", flush=True)
        ratio = each[1] / each[0]
        print(f"{name}: the larger's step is {ratio:.2f} of the smaller's, at most {MOST_RATIO}", flush=True)
        well = well and ratio <= MOST_RATIO
    sys.exit(not well)


if __name__ == "__main__":
    main()
