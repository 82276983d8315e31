#!/usr/bin/env python3
"""proofs.py: what a check of a crate takes its time for, in processor seconds.

    python3 bench/proofs.py tg_trace [FLAG..]   runs `rt check --jobs 1 FLAG..` in the crate, and tells each module that it checked anew

A check keeps each module in out/incremental once it is checked. While it runs, its processor time is sampled, and what was taken
from one module's file to the next is that module's. A function's parts are told apart: `Lts` are the steps of its code, whose
cost grows as the square of its length, `Proof` what its answers and the search take. The first of each check, some 20 seconds,
is what is read before. Only what isn't kept yet is checked: remove out/incremental to have all."""

import bisect
import collections
import os
import subprocess
import sys
import threading
import time

from libraries import CRATES

TICKS = os.sysconf("SC_CLK_TCK")
PARTS = ("Lts", "Proof", "Tie", "Mir", "Code", "Reads", "Kinds", "Layout", "Answers", "Named", "Met", "Statement", "Goals", "Given", "Invariants")


def processor_seconds(folder, ended):
    """Returns what the provers in a folder have taken, those that have ended too."""
    for number in filter(str.isdigit, os.listdir("/proc")):
        try:
            if os.readlink(f"/proc/{number}/cwd") != folder:
                continue
            with open(f"/proc/{number}/cmdline", "rb") as it:
                if os.path.basename(it.read().split(b"\0")[0]) != b"rattle":
                    continue
            with open(f"/proc/{number}/stat") as it:
                fields = it.read().rsplit(")", 1)[1].split()
            ended[number] = (int(fields[11]) + int(fields[12])) / TICKS
        except OSError:
            # (it has ended meanwhile)
            pass
    return sum(ended.values())


def main():
    folder, flags = os.path.realpath(os.path.join(CRATES, sys.argv[1])), sys.argv[2:]
    times, taken, ended, over = [], [], {}, threading.Event()

    def sample():
        while not over.wait(0.15):
            taken.append(processor_seconds(folder, ended))
            times.append(time.time())

    begun = time.time()
    sampler = threading.Thread(target=sample, daemon=True)
    sampler.start()
    ran = subprocess.run(["rt", "check", "--jobs", "1", *flags], cwd=folder, stdout=subprocess.PIPE, stderr=subprocess.STDOUT, text=True)
    over.set()
    sampler.join()

    saved = []
    for at, _, names in os.walk(os.path.join(folder, "out", "incremental")):
        for name in names:
            when = os.stat(os.path.join(at, name)).st_mtime
            if name.endswith(".oantt") and when >= begun:
                saved.append((when, name))
    seconds, parts, before = collections.defaultdict(float), collections.defaultdict(collections.Counter), 0
    for when, name in sorted(saved):
        place = min(bisect.bisect(times, when), len(times) - 1)
        spent, before = taken[place] - before, taken[place]
        words = name[: -len(".oantt")].split("-", 1)[-1].split(".")
        of_function = words[0].endswith("-proofs") and words[-1] in PARTS
        module = ".".join(words[1:-1] if of_function else words)
        seconds[module] += spent
        parts[module][words[-1] if of_function else "module"] += spent
    print(f"{sys.argv[1]}: {taken[-1]:.0f} processor seconds in {time.time() - begun:.0f}, {len(saved)} modules")
    for module, spent in sorted(seconds.items(), key=lambda it: -it[1]):
        if spent >= 0.5:
            print(f"{spent:7.1f}  {module}  " + ", ".join(f"{part} {much:.1f}" for part, much in parts[module].most_common(3)))
    print(ran.stdout.strip().splitlines()[-1])


if __name__ == "__main__":
    sys.exit(main())
