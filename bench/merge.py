#!/usr/bin/env python3
"""merge.py TOP INTO FROM:Module..: merges crates of laws into one, a module for each.

    python3 bench/merge.py . tg_law_claims tg_law_playing:Playing tg_law_causes:Causes

A crate FROM whose module is left out has modules for its things already, and these move as they are (`tg_law_store:`).
The crate INTO gets for each crate FROM a module of specs and one of proofs, with its modules in it as they are, and its files of
src, of which `laws.rt` becomes `laws_of_module.rt`. Names follow in all crates and in crates.txt. INTO may be one of
FROM. No module of proofs may have a name that one of src has but for case: it stops there."""

import glob
import os
import re
import shutil
import sys

top, into, *pairs = sys.argv[1:]
pairs = [pair.split(":") for pair in pairs]
names = [name for name, _ in pairs]
crates = os.path.join(top, "crates")
room = os.path.join(crates, into + "_merged")


def read(path):
    with open(path, encoding="utf-8") as file:
        return file.read()


def write(path, text):
    os.makedirs(os.path.dirname(path), exist_ok=True)
    with open(path, "w", encoding="utf-8") as file:
        file.write(text)


renames, mods, uses, docs = [], [], [], []
taken = {}
for name, module in pairs:
    old = os.path.join(crates, name)
    stems = sorted({os.path.splitext(it)[0] for it in os.listdir(os.path.join(old, "src")) if it != "lib.rt"})
    for stem in stems:
        to = f"{stem}_of_{module.lower()}" if stem == "laws" or stem in taken or stem in [it.lower() for _, it in pairs] else stem
        if to in taken:
            sys.exit(f"{to} of {name} stands in {taken[to]}")
        taken[to] = name
        os.makedirs(os.path.join(room, "src"), exist_ok=True)
        shutil.move(os.path.join(old, "src", stem + ".rt"), os.path.join(room, "src", to + ".rt"))
        if os.path.isdir(os.path.join(old, "src", stem)):
            shutil.move(os.path.join(old, "src", stem), os.path.join(room, "src", to))
        if os.path.isdir(os.path.join(old, "proofs", stem)):
            shutil.move(os.path.join(old, "proofs", stem), os.path.join(room, "proofs", to))
        renames.append((rf"Rattle\.{name}\.proofs\.{stem}\b", f"Rattle.{into}.proofs.{to}"))
        root = read(os.path.join(old, "src", "lib.rt"))
        mods.append(f"pub mod {to};" if f"\npub mod {stem};" in root else f"mod {to};")
        for use in re.findall(rf"pub use {stem}::[^;]*;", root):
            uses.append(use.replace(f"pub use {stem}::", f"pub use {to}::"))
    docs.append(f"//! - " + " ".join(line[4:] for line in read(os.path.join(old, "src", "lib.rt")).splitlines() if line.startswith("//! ")))
    for part in ("proofs", "specs"):
        if not os.path.isdir(os.path.join(old, part)):
            continue
        for it in os.listdir(os.path.join(old, part)):
            lib = os.path.join(room, part, "Lib.antt")
            if it == "Lib.antt" and not module:
                write(lib, (read(lib) if os.path.exists(lib) else "") + read(os.path.join(old, part, it)))
            elif it == "Lib.antt":
                write(os.path.join(room, part, module + ".antt"), read(os.path.join(old, part, it)))
            else:
                os.makedirs(os.path.join(room, part, module), exist_ok=True)
                shutil.move(os.path.join(old, part, it), os.path.join(room, part, module, it))
        renames.append((rf"Rattle\.{name}\.{part}\.(?=[A-Z])", f"Rattle.{into}.{part}.{module}." if module else f"Rattle.{into}.{part}."))
        lib = os.path.join(room, part, "Lib.antt")
        if module:
            write(lib, (read(lib) if os.path.exists(lib) else "") + f"pub mod {module}\n")
    if os.path.isdir(os.path.join(old, "must-fail")):
        for it in glob.glob(os.path.join(old, "must-fail", "*.edit")):
            text = read(it)
            write(os.path.join(room, "must-fail", os.path.basename(it)), re.sub(r"(?m)^file: (specs|proofs)/(?=[A-Z])", rf"file: \1/{module}/", text) if module else text)
    renames.append((rf"(?m)^(use|pub use) {name}::", rf"\1 {into}::"))
    shutil.rmtree(old)
# (what INTO named before, before what the others come to be named there)
renames.sort(key=lambda it: it[0].split("\\.")[1] != into if it[0].startswith("Rattle") else True)
for stem in taken:
    for it in glob.glob(os.path.join(room, "proofs", "*.antt")):
        if os.path.splitext(os.path.basename(it))[0].lower() == stem.lower():
            sys.exit(f"{it} is {stem} but for case")
write(os.path.join(room, "src", "lib.rt"), "\n".join(["//! Laws over definitions, the contracts of empty functions:", "//!", *docs, "#![tactic(auto)]", "", *sorted(mods, key=lambda it: it.removeprefix("pub ")), "", *sorted(uses)]) + "\n")
shutil.move(room, os.path.join(crates, into))
for path in glob.glob(os.path.join(crates, "**", "*"), recursive=True):
    if path.endswith((".rt", ".antt", ".edit")):
        text = read(path)
        new = text
        for old, to in renames:
            new = re.sub(old, to, new)
        if new != text:
            write(path, new)
rows = {}
lines = read(os.path.join(top, "crates.txt")).split("\n")
for line in lines:
    found = re.match(r"(\w+):(.*)", line)
    if found:
        rows[found[1]] = found[2].split()
under = []
for name in names:
    under += [it for it in rows[name] if it not in names and it not in under]
order = [name for name in rows if name not in names]
under.sort(key=lambda it: -list(rows).index(it) if it in rows else 0)
out = []
for line in lines:
    found = re.match(r"(\w+):(.*)", line)
    if not found:
        out.append(line)
    elif found[1] == names[-1]:
        out.append(f"{into}: " + " ".join(under))
    elif found[1] not in names:
        out.append(f"{found[1]}: " + " ".join(dict.fromkeys(into if it in names else it for it in found[2].split())))
write(os.path.join(top, "crates.txt"), "\n".join(out))
