#!/usr/bin/env python3
"""names.py: prints each name in backquotes in the documents that the repository doesn't have.

The documents are README.md, docs/*.md, examples/README.md and crates/*/README.md; docs/notes speaks of drafts. A name is a word of
code (`unit_step`), words joined by `::` (`tg_wire::fits`: the second one has to stand in that crate), or a path or file
(`specs/Laws.antt`). It has to stand as a word outside comments in some crate's src, specs, proofs, must-fail or edits, to be
a file there, or a file of the repository. Where a crate is named beside the word (`fits` of `tg_wire`, `fits` in `tg_wire`,
`fits` (`tg_wire`), `tg_wire`: `fits`), it has to stand in that crate, and likewise for a module of specs (`Units`: `in_epoch`).
Other words in backquotes, as commands and lines of scripts, aren't looked at.
The status is 1 where something is printed."""

import glob
import os
import re
import sys

TOP = os.path.dirname(os.path.dirname(os.path.abspath(__file__)))
PLACES = ("src", "specs", "proofs", "must-fail", "edits")
# Commands, words of the toolchain, words of scripts and transcripts that no code spells as a word, calls of the system, and a load of bench/cost.py.
OTHERS = set("rt git python3 NAME NAMES ID START COUNT RT_JOBS std rattle clap sendto recvfrom mixed".split())
SCRIPT = re.compile(r"([ulsc]|ctr|reg|map|list|tree|set|dir)(\d+|N)$")
NAME = re.compile(r"[A-Za-z_][\w']*(::[A-Za-z_][\w']*)*$")
FILE = re.compile(r"[\w./-]+\.(rt|antt|md|py|txt|edit|patch|script|transcript|header)$|[\w.-]+(/[\w.-]+)+/?$")
WORD = re.compile(r"[A-Za-z_][\w']*")
# A word and its crate, and a crate or module and its word.
WORD_OF = re.compile(r"`([\w:']+)`\s+(?:of\s+|in\s+|\()`(\w+)`")
OF_WORD = re.compile(r"`(\w+)`:\s+`([\w:']+)`")


def words_of(path):
    """The words of a file outside its comments."""
    with open(path, encoding="utf-8") as file:
        text = file.read()
    text = re.sub(r"//.*", "", text) if path.endswith(".rt") else re.sub(r"-- .*", "", text) if path.endswith(".antt") else text
    return WORD.findall(text)


def crates():
    """The words of each crate, with the names of its files."""
    found = {}
    for name in os.listdir(os.path.join(TOP, "crates")):
        known = found[name] = {name}
        for place in PLACES:
            for path in glob.glob(os.path.join(TOP, "crates", name, place, "**", "*.*"), recursive=True):
                known.update(words_of(path))
                known.add(os.path.splitext(os.path.basename(path))[0])
    return found


def modules(found):
    """The words of each module of specs, by its name."""
    known = {}
    for path in glob.glob(os.path.join(TOP, "crates", "*", "specs", "*.antt")):
        known.setdefault(os.path.splitext(os.path.basename(path))[0], set()).update(words_of(path))
    return {**known, **found}


def strays(text, crates_alone, places):
    """The pairs of a place and a word that doesn't stand there."""
    pairs = [(it.start(), it[2], it[1]) for it in WORD_OF.finditer(text) if it[2] in crates_alone]
    pairs += [(it.start(), it[1], it[2]) for it in OF_WORD.finditer(text)]
    return [(at, f"{word} in {place}") for at, place, word in pairs if place in places and not set(word.split("::")) <= places[place]]


def is_file(name, files):
    return any(path == name or path.startswith(name.rstrip("/") + "/") or f"/{name.rstrip('/')}" in f"/{path}" for path in files)


def is_known(name, found, everything, files):
    if name in OTHERS or name.endswith("_") or SCRIPT.match(name):
        return True
    if FILE.match(name):
        return "NAME" in name or "/out" in name or is_file(name, files)
    if not NAME.match(name):
        return True
    first, *rest = name.split("::")
    if first in found and rest:
        return all(word in found[first] for word in rest)
    return all(word in everything for word in (first, *rest))


def main():
    found = crates()
    places = modules(found)
    everything = set().union(*found.values())
    files = [os.path.relpath(os.path.join(folder, name), TOP) for folder, _, names in os.walk(TOP) if "/.git" not in folder and "/out" not in folder for name in names]
    documents = [it for form in ("README.md", "docs/*.md", "examples/README.md", "crates/*/README.md") for it in sorted(glob.glob(os.path.join(TOP, form)))]
    lacking = 0
    for document in documents:
        with open(document, encoding="utf-8") as file:
            text = file.read()
        # without blocks of code; a word may stand over the end of a line
        text = re.sub(r"^    .*", "", text, flags=re.M)
        unknown = [(it.start(), " ".join(it[1].split())) for it in re.finditer(r"`([^`]+)`", text)]
        unknown = [(at, name) for at, name in unknown if not is_known(name, found, everything, files)]
        for at, name in sorted(unknown + strays(text, found, places)):
            lacking += 1
            line = text.count("\n", 0, at) + 1
            print(f"{os.path.relpath(document, TOP)}:{line}: {name}")
    sys.exit(lacking > 0)


if __name__ == "__main__":
    main()
