#!/usr/bin/env python3
"""paths.py: counts the paths through crates.txt, downwards from each crate: in all, without the laws, and for the ten crates with the most."""
import functools
import os

TOP = os.path.dirname(os.path.dirname(os.path.abspath(__file__)))
with open(os.path.join(TOP, "crates.txt"), encoding="utf-8") as file:
    lines = [line.split("#")[0].split(":") for line in file if ":" in line.split("#")[0]]
below = {line[0].split()[0]: line[1].split() for line in lines}
paths = functools.cache(lambda name: 1 + sum(paths(it) for it in below[name] if it in below))
others = [name for name in below if not name.startswith("tg_law_")]
print(f"{sum(map(paths, below)):,} paths from {len(below)} crates, {sum(map(paths, others)):,} from the {len(others)} that are no laws")
for name in sorted(below, key=paths, reverse=True)[:10]:
    print(f"{paths(name):>9,} {name}")
