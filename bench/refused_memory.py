"""Refuses memory at each allocation of a replay, one in each run, and looks at what comes of it.

    python3 bench/refused_memory.py crates/tango/out/tango SCRIPT TRANSCRIPT [SCRIPT TRANSCRIPT ..]

For each script it counts the allocations of a whole replay, and then replays it once for each of them with that one
refused. The status has to be 8 (memory ran out) or 0, and what was written a front of the transcript; at status 0 it has
to be the whole. It prints how many were tried for each script. It wants gcc, and a program that takes its memory from the
C library.
"""

import os
import subprocess
import sys
import tempfile

SHIM = r"""
#include <stddef.h>
#include <stdlib.h>
#include <errno.h>
#include <unistd.h>
#include <string.h>
#include <stdio.h>
extern void *__libc_malloc(size_t);
extern void *__libc_calloc(size_t, size_t);
extern void *__libc_realloc(void *, size_t);
extern void *__libc_memalign(size_t, size_t);
static long refused = 0, made = 0;
static int is_read = 0;
static int refuses(void) {
    if (!is_read) {
        is_read = 1;
        const char *text = getenv("REFUSED");
        refused = text ? atol(text) : 0;
    }
    made += 1;
    return made == refused;
}
void *malloc(size_t n) { if (refuses()) { errno = ENOMEM; return NULL; } return __libc_malloc(n); }
void *calloc(size_t n, size_t m) { if (refuses()) { errno = ENOMEM; return NULL; } return __libc_calloc(n, m); }
void *realloc(void *p, size_t n) { if (refuses()) { errno = ENOMEM; return NULL; } return __libc_realloc(p, n); }
void *aligned_alloc(size_t a, size_t n) { if (refuses()) { errno = ENOMEM; return NULL; } return __libc_memalign(a, n); }
void *memalign(size_t a, size_t n) { if (refuses()) { errno = ENOMEM; return NULL; } return __libc_memalign(a, n); }
int posix_memalign(void **p, size_t a, size_t n) {
    if (refuses()) return ENOMEM;
    *p = __libc_memalign(a, n);
    return *p ? 0 : ENOMEM;
}
__attribute__((destructor)) static void tell(void) {
    const char *name = getenv("COUNTED");
    if (!name) return;
    FILE *out = fopen(name, "w");
    if (out) { fprintf(out, "%ld\n", made); fclose(out); }
}
"""


def main():
    program, names = sys.argv[1], sys.argv[2:]
    with tempfile.TemporaryDirectory() as room:
        with open(f"{room}/shim.c", "w", encoding="ascii") as it:
            it.write(SHIM)
        shim, counted = f"{room}/shim.so", f"{room}/counted"
        subprocess.run(["gcc", "-O1", "-shared", "-fPIC", "-fno-builtin", "-o", shim, f"{room}/shim.c"], check=True)
        failed = 0
        for script, wanted in zip(names[::2], names[1::2]):
            with open(script, "rb") as it:
                text = it.read()
            with open(wanted, "rb") as it:
                whole = it.read()

            def replay(refused, count=False):
                env = {"LD_PRELOAD": shim, "REFUSED": str(refused)} | ({"COUNTED": counted} if count else {})
                return subprocess.run([program, "replay"], input=text, capture_output=True, env=env, check=False)

            ran = replay(0, True)
            if ran.returncode or ran.stdout != whole:
                sys.exit(f"{script}: a whole replay has status {ran.returncode}, or another transcript")
            with open(counted, encoding="ascii") as it:
                made = int(it.read())
            statuses = {}
            for number in range(1, made + 1):
                ran = replay(number)
                status = ran.returncode
                statuses[status] = statuses.get(status, 0) + 1
                fine = status in (0, 8) and whole.startswith(ran.stdout) and (status or ran.stdout == whole)
                if not fine:
                    failed += 1
                    print(f"{script}: allocation {number} refused: status {status}, {len(ran.stdout)} bytes written, {ran.stderr!r}")
            told = ", ".join(f"{count} with status {status}" for status, count in sorted(statuses.items()))
            print(f"{os.path.basename(script)}: {made} allocations refused one by one: {told}")
    sys.exit(1 if failed else 0)


if __name__ == "__main__":
    main()
