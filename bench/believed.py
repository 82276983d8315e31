#!/usr/bin/env python3
"""believed.py: counts the definitions that a reader of the program's contracts has to believe.

It follows the imports of the top call's clauses (crates/tango/src/top.rt) through the specs of the repository's crates, and
prints how many lines each crate's modules have there. Definitions of types in src, and those of the kit, aren't counted."""
import os
import re

TOP = os.path.dirname(os.path.dirname(os.path.abspath(__file__)))
IMPORT = re.compile(r"^\s*(?:ghost )?(?:pub )?use Rattle\.(\w+)\.specs\.([\w.]+)", re.M)


def modules():
    """The modules that the top call's clauses stand on, each as its path."""
    found, left = set(), [os.path.join("crates", "tango", "src", "top.rt")]
    while left:
        with open(os.path.join(TOP, left.pop()), encoding="utf-8") as file:
            found_in = IMPORT.findall(file.read())
        # a module may lie in another, and what follows its name is a definition's
        parts = [(crate, name.rstrip(".").split(".")) for crate, name in found_in]
        paths = {os.path.join("crates", crate, "specs", *names[:depth]) + ".antt" for crate, names in parts for depth in range(1, len(names) + 1)}
        new = {path for path in paths - found if os.path.exists(os.path.join(TOP, path))}
        found |= new
        left += new
    return found


lines = {}
for path in modules():
    with open(os.path.join(TOP, path), encoding="utf-8") as file:
        lines.setdefault(path.split(os.sep)[1], []).append(sum(1 for _ in file))
print(f"{sum(map(sum, lines.values())):,} lines in {sum(map(len, lines.values()))} modules of {len(lines)} crates")
for crate in sorted(lines, key=lambda it: -sum(lines[it])):
    print(f"{sum(lines[crate]):>6} {crate} ({len(lines[crate])})")
