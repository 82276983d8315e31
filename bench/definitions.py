#!/usr/bin/env python3
"""definitions.py: turns the protocol's definitions, an edit after the other, and tells which law crate refuses each.

    python3 bench/definitions.py                  tries every edit in bench/definitions
    python3 bench/definitions.py a_promise_is_broken half_is_a_majority
                                                  tries these

A law is worth something only where a wrong definition breaks it. An edit names a file of `tg_protocol` (`file:`), the law
crate that has to refuse it (`law:`), and what stands in place of what (`old:`, `new:`, one line each, in pairs). This copies
the repository to a folder of its own, makes the edit there, and checks that law crate's functions with `tg_protocol` and
all crates between as source, over the libraries below that the last `rt ci` in this checkout left (without them these are
source too, and it takes longer). What the check finds wrong first is what refuses.

What came of each edit is a line of bench/definitions.txt: the edit, the crate that refused it (or `none`, where the law is
still proved, or `not read`, where the edit is no definition), and the commit that was checked out. The status is 1 where an
edit that was tried now isn't refused by a law crate."""

import os
import re
import shutil
import subprocess
import sys
import tempfile

import libraries
from libraries import TOP

EDITS = os.path.join(TOP, "bench", "definitions")
KEPT = os.path.join(TOP, "bench", "definitions.txt")


def edit_of(name):
    """The file that an edit names, its law crate, and its pairs of texts."""
    with open(os.path.join(EDITS, name + ".edit"), encoding="utf-8") as file:
        rows = [line.rstrip("\n").split(": ", 1) for line in file]
    olds = [text for word, text in rows if word == "old"]
    news = [text for word, text in rows if word == "new"]
    return dict(rows)["file"], dict(rows)["law"], list(zip(olds, news, strict=True))


def read_kept():
    if not os.path.exists(KEPT):
        return {}
    with open(KEPT, encoding="utf-8") as file:
        rows = [line.rstrip("\n").split(", ") for line in file]
    return {name: (crate, commit) for name, crate, commit in rows}


def checked(copy, law):
    """What a check of a law crate's functions says, with all from `tg_protocol` on as source. The functions of code between
    would take longer than all laws, and no law rests on them."""
    named = libraries.names_of(copy)
    is_turned = lambda it: it == "tg_protocol" or "tg_protocol" in libraries.below(it, named)
    told = libraries.words(law, f"{copy}/crates/{law}/src/lib.rt", named, is_turned, copy)
    modules = sorted(it[:-3] for it in os.listdir(f"{copy}/crates/{law}/src") if it != "lib.rt")
    told += [it for module in modules for it in ("--only", module)]
    return subprocess.run([f"{libraries.kit()}/bin/rattle", "check", *told], cwd=copy, stdout=subprocess.PIPE, stderr=subprocess.STDOUT, text=True)


def tried(name):
    """The crate that refuses an edit."""
    path, law, pairs = edit_of(name)
    with tempfile.TemporaryDirectory(prefix="definitions-") as room:
        copy = os.path.join(room, "copy")
        shutil.copytree(TOP, copy, ignore=shutil.ignore_patterns("out", ".git"))
        with open(os.path.join(copy, path), encoding="utf-8") as file:
            text = file.read()
        for old, new in pairs:
            if text.count(old) != 1:
                return "not read"
            text = text.replace(old, new)
        with open(os.path.join(copy, path), "w", encoding="utf-8") as file:
            file.write(text)
        ran = checked(copy, law)
    if ran.returncode == 0:
        return "none"
    first = re.search(r"crates/(\w+)/\S+: error", ran.stdout)
    if not first:
        return "not tried"
    return first[1] if first[1].startswith("tg_law_") else "not read"


def main(names):
    every = sorted(it[: -len(".edit")] for it in os.listdir(EDITS) if it.endswith(".edit"))
    kept = read_kept()
    head = subprocess.run(["git", "rev-parse", "--short=12", "HEAD"], cwd=TOP, capture_output=True, text=True).stdout.strip()
    well = True
    for name in names or every:
        crate = tried(name)
        print(f"{name}: {crate}", flush=True)
        kept[name] = crate, head
        well = well and crate.startswith("tg_law_")
        with open(KEPT, "w", encoding="utf-8") as file:
            for it in every:
                file.write(", ".join((it, *kept.get(it, ("not tried", "-")))) + "\n")
    return 0 if well else 1


if __name__ == "__main__":
    sys.exit(main(sys.argv[1:]))
