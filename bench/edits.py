#!/usr/bin/env python3
"""edits.py: tries edits of code, each of which the check has to refuse, and keeps what came of each.

    python3 bench/edits.py tg_unit tg_seqr      tries the edits beside the gate of these crates; without names, of every crate
    python3 bench/edits.py --lacking ..         tries those alone that have no verdict, or one older than their crate or edit
    python3 bench/edits.py --old                tells which verdicts are older than their crate or edit, and which lack

The gate tries the edits in crates/NAME/must-fail; the others stand in crates/NAME/edits. Each is made in a copy of its crate, and
there the functions that it changes are checked alone, over the libraries below that the last `rt ci` in this checkout left: that takes
seconds, where a check of the crate takes minutes. Where they are still proved, or the edit is of no function, the whole crate is checked.

What came of each edit is a line of bench/edits.txt: the crate, the edit, the verdict, and the commit that was checked out,
with a + where the crate had changes that weren't committed. A verdict is one of `refused`, `refused only at a name` (a proof
file names what the edit took away, which says little of the contract), `refused only at a limit` (of the prover), `still
proved`, `cannot be applied` and `not tried`. The status is 1 where an edit that was tried now isn't refused.

The edits of a crate that change different functions are tried together, in one check of these functions: a function's contract
is what its callers are checked against, so what is said at a function's own text or proof is said of its own edit. An edit of
which nothing is said there is tried once more by itself."""

import os
import re
import shutil
import subprocess
import sys
import tempfile

import libraries
from libraries import CRATES, TOP

KEPT = os.path.join(TOP, "bench", "edits.txt")
PARTS = ("src", "specs", "proofs")
FN = re.compile(r"^( *)(?:pub(?:\([a-z]+\))? )?(?:const )?fn (\w+)", re.M)
IMPL = re.compile(r"^impl(?:<[^\n{]*?>)? ([^\n{]*?)\s*\{", re.M)
ERROR = re.compile(r"(?:note: )?(\S+?):\d+:\d+: (?:error: )?(.*)")
# What is said of a goal, at its place in the code, or of an answer to one.
PLACE = re.compile(r"^(?:note: )?(\S+?):(\d+):\d+: (it is not proved that .*|error: (?!.*(?:has no field|is not in scope|has no `|was not admitted)).*)", re.M)
# What a proof file says where the edit took away what it names, and what a text says that can't be read.
AT_A_NAME = re.compile(r"(\./)?proofs/.*(has no field|is not in scope|has no `|was not admitted)")
UNREAD = re.compile(r"is not in scope|has no field|is no name|operand is missing|expected the end|cannot continue")


def edits_of(name):
    folder = os.path.join(CRATES, name, "edits")
    return sorted(it for it in os.listdir(folder) if it.endswith(".edit")) if os.path.isdir(folder) else []


def git(*words):
    ran = subprocess.run(["git", *words], cwd=TOP, capture_output=True, text=True)
    return ran.stdout.strip() if ran.returncode == 0 else ""


def read(path):
    with open(path, encoding="utf-8") as file:
        return file.read()


def read_kept():
    """The verdict and the commit of each edit that bench/edits.txt has."""
    if not os.path.exists(KEPT):
        return {}
    rows = [line.split(", ") for line in read(KEPT).splitlines()]
    return {(crate, edit): (verdict, commit) for crate, edit, verdict, commit in rows}


def write_kept(kept):
    """Writes a line for each edit that there is, whether tried or not."""
    with open(KEPT, "w", encoding="utf-8") as file:
        for crate in sorted(os.listdir(CRATES)):
            for edit in edits_of(crate):
                verdict, commit = kept.get((crate, edit), ("not tried", "-"))
                file.write(f"{crate}, {edit}, {verdict}, {commit}\n")


def pairs_of(path):
    """An edit's triples: the file, what stands there, and what is to stand there."""
    file, old, found = "", None, []
    for line in read(path).split("\n"):
        if line.startswith("file: "):
            file = line[len("file: ") :].strip()
        elif line.startswith("old: "):
            old = line[len("old: ") :]
        elif line.startswith("new:"):
            found.append((file, old, line[len("new:") :].removeprefix(" ")))
    return found


def end_of(text, start, indent):
    """Where the block ends that begins there, at a line with a brace below its first."""
    found = re.compile(rf"^{indent}\}}", re.M).search(text, start)
    return found.end() if found else len(text)


def function_at(file, text, at):
    """The path of the function around a place, as a check prints it, or None."""
    around = [it for it in FN.finditer(text) if it.start() <= at < end_of(text, it.end(), it[1])]
    if not around:
        return None
    inner = around[-1]
    path = [it for it in file[len("src/") : -len(".rt")].split("/") if it not in ("lib", "main")]
    impls = [it for it in IMPL.finditer(text) if it.start() <= inner.start() < end_of(text, it.end(), "")]
    if inner[1] and impls:
        trait, _, kind = re.sub(r"<.*?>", "", impls[-1][1]).rpartition(" for ")
        path.append(kind.split()[0] + trait)
    return "::".join([*path, inner[2]])


def paths_of(name, edit):
    """The paths of the functions that an edit changes, or none where it changes something else too."""
    found = []
    for file, old, _ in edit:
        text = read(os.path.join(CRATES, name, file))
        if re.match(r"\s*(ghost )?use ", old):
            continue
        path = function_at(file, text, text.index(old)) if file.startswith("src/") else None
        if not path:
            return []
        found.append(path)
    return found


def verdict_of(ran, changed):
    """What a check came to, by its status and its words."""
    lines = ran.stdout.rstrip("\n").split("\n")
    told = [(it, *ERROR.match(it).groups()) for it in lines if ERROR.match(it) and (": error" in it or it.startswith("note: "))]
    if ran.returncode == 0:
        return "still proved"
    if ran.returncode == 3:
        return "refused only at a limit"
    if ran.returncode != 1 or not re.match(r"logic=not-proved|only=", lines[-1]):
        return "not tried"
    for line, file, said in told:
        is_read = file.removeprefix("./") in changed or file.removeprefix("./").startswith(("src/", "specs/"))
        if is_read and ": error" in line and UNREAD.search(re.sub(r"`[^`]*`", "", said)):
            return "cannot be applied"
    return "refused only at a name" if told and all(AT_A_NAME.match(it[0]) for it in told) else "refused"


def copied(name, room):
    """Copies what a check of the crate reads."""
    for part in PARTS:
        if os.path.isdir(os.path.join(CRATES, name, part)):
            shutil.copytree(os.path.join(CRATES, name, part), os.path.join(room, part))


def make(room, pairs):
    """Makes an edit in a copy of its crate, and returns whether it could: what it replaces stands there once."""
    texts = {}
    for file, old, new in pairs:
        text = texts.get(file) or read(os.path.join(room, file))
        if text.count(old) != 1:
            return False
        texts[file] = text.replace(old, new)
    for file, text in texts.items():
        with open(os.path.join(room, file), "w", encoding="utf-8") as it:
            it.write(text)
    return True


def lines_of(room, file, path):
    """The lines of a function in a copy of its crate, with what stands right above it."""
    text = read(os.path.join(room, file))
    for it in FN.finditer(text):
        if function_at(file, text, it.start()) == path:
            start = text.rfind("\n\n", 0, it.start()) + 1
            return range(text.count("\n", 0, start) + 1, text.count("\n", 0, end_of(text, it.end(), it[1])) + 2)
    return range(0)


def check(room, words, kept, *only):
    whole = [f"{libraries.kit()}/bin/rattle", "check", *words, "--jobs", "1", "--incremental", kept, *only]
    return subprocess.run(whole, cwd=room, stdin=subprocess.DEVNULL, stdout=subprocess.PIPE, stderr=subprocess.STDOUT, text=True, errors="replace")


def refused_together(name, edits, words, kept):
    """Those of the edits that are refused where as many of them as change different functions are made at once."""
    with tempfile.TemporaryDirectory(prefix="edits-") as room:
        copied(name, room)
        made = {}
        for edit in edits:
            pairs = pairs_of(os.path.join(CRATES, name, "edits", edit))
            try:
                paths = {*paths_of(name, pairs)}
            except (OSError, ValueError):
                continue
            if paths and not any(paths & of for of, _ in made.values()) and make(room, pairs):
                made[edit] = paths, [file for file, _, _ in pairs if file.startswith("src/")]
        if len(made) < 2:
            return []
        only = [it for paths, _ in made.values() for path in sorted(paths) for it in ("--only", path)]
        ran = check(room, words, kept, *only)
        told = [(it[1].removeprefix("./"), int(it[2]), it[3]) for it in PLACE.finditer(ran.stdout)]
        if ran.returncode != 1 or any(not file.startswith("proofs/") and UNREAD.search(re.sub(r"`[^`]*`", "", said)) for file, _, said in told):
            return []
        return [edit for edit, (paths, files) in made.items() if any(is_of(room, file, line, files, paths) for file, line, _ in told)]


def is_of(room, file, line, files, paths):
    """Whether a place is in one of these functions' text, or in its proof."""
    if file.startswith("proofs/"):
        return os.path.dirname(file)[len("proofs/") :].replace("/", "::") in paths
    return file in files and any(line in lines_of(room, file, path) for path in paths)


def tried(name, edit, words, kept):
    """The verdict on one edit, over what the checks of those before it proved."""
    pairs = pairs_of(os.path.join(CRATES, name, "edits", edit))
    with tempfile.TemporaryDirectory(prefix="edit-") as room:
        copied(name, room)
        try:
            paths = paths_of(name, pairs)
        except (OSError, ValueError):
            return "cannot be applied"
        if not make(room, pairs):
            return "cannot be applied"
        # the functions by their paths, or else by the ends of these; then the crate
        ways = [[it for path in paths for it in ("--only", path)], [it for path in paths for it in ("--only", path.split("::")[-1])], []]
        verdict = "not tried"
        for only in ways if paths else [[]]:
            ran = check(room, words, kept, *only)
            verdict = verdict_of(ran, {file for file, _, _ in pairs})
            if verdict.startswith("refused") or verdict == "cannot be applied":
                break
        return verdict


def is_old(crate, edit, commit):
    """Whether the crate or the edit was changed after this commit, or has changes that aren't committed."""
    paths = [os.path.join("crates", crate, it) for it in (*PARTS, os.path.join("edits", edit))]
    last = git("log", "-1", "--format=%H", "--", *paths)
    is_after = subprocess.run(["git", "merge-base", "--is-ancestor", last or "HEAD", commit], cwd=TOP, capture_output=True).returncode != 0
    return commit.endswith("+") or is_after or bool(git("status", "--porcelain", *paths))


def is_open(crate, edit, kept):
    """Whether an edit has no verdict, or one older than its crate or itself."""
    verdict, commit = kept.get((crate, edit), ("not tried", "-"))
    return verdict == "not tried" or is_old(crate, edit, commit)


def tell_old():
    kept = read_kept()
    for crate in sorted(os.listdir(CRATES)):
        of = {edit: kept.get((crate, edit), ("not tried", "-")) for edit in edits_of(crate)}
        lacking = sum(verdict == "not tried" for verdict, _ in of.values())
        if lacking:
            print(f"{crate}: {lacking} of {len(of)} not tried")
        for edit, (verdict, commit) in of.items():
            if verdict != "not tried" and is_old(crate, edit, commit):
                print(f"{crate}, {edit}, {verdict}, {commit}: the crate or the edit has changed since")


def main():
    words = sys.argv[1:]
    if words == ["--old"]:
        return tell_old()
    is_lacking = words[:1] == ["--lacking"]
    names = words[is_lacking:] or [it for it in sorted(os.listdir(CRATES)) if edits_of(it)]
    named, kept, well = libraries.names_of(TOP), read_kept(), True
    for name in names:
        if not edits_of(name):
            sys.exit(f"{name} is no crate with edits beside the gate")
        root = "src/main.rt" if os.path.exists(os.path.join(CRATES, name, "src", "main.rt")) else "src/lib.rt"
        told = libraries.words(name, root, named)
        head = git("rev-parse", "--short=12", "HEAD") + ("+" if git("status", "--porcelain", os.path.join("crates", name)) else "")
        lacking = [it for it in edits_of(name) if not is_lacking or is_open(name, it, kept)]
        with tempfile.TemporaryDirectory(prefix="edits-") as work:

            def keep(edit, verdict):
                print(f"{name}, {edit}: {verdict}", flush=True)
                # (another run beside this one may have written others)
                write_kept({**read_kept(), (name, edit): (verdict, head)})

            while refused := refused_together(name, lacking, told, work):
                for edit in refused:
                    keep(edit, "refused")
                lacking = [it for it in lacking if it not in refused]
            for edit in lacking:
                verdict = tried(name, edit, told, work)
                keep(edit, verdict)
                well = well and verdict.startswith("refused")
    return not well


if __name__ == "__main__":
    sys.exit(main())
