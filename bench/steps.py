#!/usr/bin/env python3
"""steps.py PROGRAM: times `PROGRAM replay` on one update and 199,997 arrivals of its packet, and on a tenth of it.

A step is to cost the same at the end of a run as at its start, so the larger may take at most 12 times the smaller.
The program is crates/tango/out/tango, once `rt run` has built it."""
import subprocess
import sys
import time

HEADER = "cluster units 1 layouts 1 seqs 1 clients 3 limit 100\nchains u0\nobjects ctr0 ctr1\n"
TRANSCRIPT = "objects ctr0 ctr1\n1 c0 1 begin\n1 c0 1 put ctr0 add 5\n1 c0 1 end\nhistory 0\n"


def seconds(program, arrivals):
    """The shortest of seven runs."""
    script = (HEADER + "c0 update ctr0 add 5\n" + "deliver 0\n" * arrivals).encode()
    best = float("inf")
    for _ in range(7):
        start = time.perf_counter()
        run = subprocess.run([program, "replay"], input=script, capture_output=True)
        best = min(best, time.perf_counter() - start)
        if run.returncode != 0 or run.stdout.decode() != TRANSCRIPT:
            sys.exit(f"a run of {arrivals} arrivals ended with status {run.returncode} or another transcript")
    return best


small, large = seconds(sys.argv[1], 19_997), seconds(sys.argv[1], 199_997)
print(f"19,997 arrivals: {small:.3f} s; 199,997 arrivals: {large:.3f} s; ratio {large / small:.1f}, at most 12")
sys.exit(large > 12 * small)
