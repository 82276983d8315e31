#!/usr/bin/env python3
"""live.py PROGRAM [SCRIPT..]: live runs over UDP on this machine, and the replays of their recordings.

    python3 bench/live.py crates/tango/out/tango

For each script `PROGRAM live` runs over UDP sockets of 127.0.0.1. It writes a recording, the line `transcript`, and the
transcript; `PROGRAM replay` of the recording has to print the same transcript. What the run took is told beside: two live
runs of one script need not print the same, since a datagram may come late or never. With no script the realistic run of
bench_replay's data is taken. Where no socket can be bound the script is skipped, with status 0.
"""

import os
import socket
import subprocess
import sys
import time

REALISTIC = "crates/bench_replay/data/long_run.script"


def can_bind():
    """Whether a UDP socket of this machine may be bound at all."""
    try:
        with socket.socket(socket.AF_INET, socket.SOCK_DGRAM) as it:
            it.bind(("127.0.0.1", 0))
        return True
    except OSError:
        return False


def run(program, form, text):
    """The output and the seconds of a run of the program with this input, which has to end well."""
    begun = time.time()
    done = subprocess.run([program, form], input=text, capture_output=True)
    if done.returncode != 0:
        sys.exit(f"{form}: status {done.returncode}: {done.stderr.decode().strip()}")
    return done.stdout, time.time() - begun


def main():
    program, *scripts = sys.argv[1:]
    if not can_bind():
        print("skipped: no UDP socket can be bound here")
        return
    for script in scripts or [REALISTIC]:
        with open(script, "rb") as it:
            text = it.read()
        said, seconds = run(program, "live", text)
        recording, mark, transcript = said.partition(b"\ntranscript\n")
        if not mark:
            sys.exit(f"{script}: the output has no line `transcript`")
        again, _ = run(program, "replay", recording + b"\n")
        events = recording.count(b"\n") - 2
        if again != transcript:
            sys.exit(f"{script}: the replay of the recording prints another transcript")
        history = [it for it in transcript.split(b"\n") if it.startswith(b"history ")]
        told = os.path.basename(script), events, seconds, history[0].decode()
        print("%s: %d events in %.2f s, %s; the replay of the recording prints the same" % told)


if __name__ == "__main__":
    main()
