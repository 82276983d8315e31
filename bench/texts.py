#!/usr/bin/env python3
"""texts.py PROGRAM FOLDER: reads each FOLDER/*.script and FOLDER/*.transcript and prints it back, byte for byte.

A script whose last line has no line feed is printed with one. Of a transcript the lines of its replies are printed
once more, one by one. Where a FOLDER/NAME.status isn't 0, the script may be outside the grammar, and the transcript
may be empty: such a text may be refused, but isn't printed another way.

The program is crates/tests_texts/out/tests_texts, once `rt run` has built it."""
import glob
import os
import subprocess
import sys

program, folder = sys.argv[1:3]


def printed(form, text):
    """What the program prints, None where it refuses the text."""
    run = subprocess.run([program, form], input=text, capture_output=True, timeout=60)
    return run.stdout if run.returncode == 0 else None


def replies(transcript):
    """The lines of a transcript between its first and the one that counts the history."""
    lines = transcript.splitlines(keepends=True)
    return b"".join(lines[1 : [line.split()[0] for line in lines].index(b"history")])


same, refused, differ = 0, 0, []
for script in sorted(glob.glob(os.path.join(folder, "*.script"))):
    name = script.removesuffix(".script")
    status = f"{name}.status"
    may_refuse = os.path.exists(status) and open(status).read().strip() != "0"
    for form, path in ("script", script), ("transcript", f"{name}.transcript"):
        text = open(path, "rb").read()
        out = printed(form, text)
        if out is None and may_refuse and (form == "script" or not text):
            refused += 1
        elif out is None or out != (text if text.endswith(b"\n") else text + b"\n"):
            differ.append(path)
        elif form == "transcript" and printed("replies", text) != replies(text):
            differ.append(f"{path}: replies")
        else:
            same += 1
for path in differ:
    print(f"differs: {path}")
print(f"{same} texts are printed back, {refused} of runs that end otherwise are refused, {len(differ)} differ")
sys.exit(bool(differ) or same == 0)
