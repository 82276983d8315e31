"""What the tools of this folder that check an edited copy share: what each crate names by crates.txt, and the libraries that the
last `rt ci` in this checkout left."""

import os
import shutil

TOP = os.path.dirname(os.path.dirname(os.path.abspath(__file__)))
CRATES = os.path.join(TOP, "crates")


def kit():
    """The toolchain's folder."""
    return os.path.dirname(os.path.dirname(os.path.realpath(shutil.which("rt"))))


def names_of(top):
    """What each crate names, by crates.txt."""
    with open(os.path.join(top, "crates.txt"), encoding="utf-8") as file:
        rows = [line.split("#")[0].split(":") for line in file if ":" in line.split("#")[0]]
    return {row[0].strip(): row[1].split() for row in rows}


def below(name, named, found=None):
    """All that stands below one, the kit's libraries too, each after those that it names."""
    found = {} if found is None else found
    for it in named.get(name, []):
        if it not in found:
            below(it, named, found)
            found[it] = None
    return list(found)


def left(name):
    """The folder with the library of a crate that the last `rt ci` left, if it did."""
    out = os.path.join(CRATES, name, "out", "rlib")
    return out if os.path.isdir(os.path.join(out, name + ".rlib")) else None


def words(name, root, named, is_source=lambda it: False, sources=TOP):
    """The words of a check of a crate whose root file is given. A library that wasn't left, or that is to be source, is taken from
    the folder `sources`."""
    at = kit()
    told = ["--crate-name", name, root, "--extern", f"std={at}/rlibs/std.rlib", "-L", f"dependency={at}/rlibs"]
    for it in below(name, named):
        out = None if it not in named or is_source(it) else left(it)
        if it not in named:
            told += ["--extern", f"{it}={at}/rlibs/{it}.rlib"]
        elif out:
            told += ["--extern", f"{it}={out}/{it}.rlib", "-L", f"dependency={out}"]
        else:
            told += ["--lib", f"{it}:{','.join(['std', *named[it]])}={sources}/crates/{it}/src/lib.rt"]
    return [*told, "--antt-project", f"{at}/rattle/logic/antt-project.json", "--logic-built", f"{at}/logic_built"]
