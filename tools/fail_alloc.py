#!/usr/bin/env python3
"""Refuses each allocation of the built program in turn: the answer is then NO MEMORY, and nothing else.

    python3 tools/fail_alloc.py PROGRAM [JOBS]      needs cc

Each ask below is asked over and over, with its first allocation refused, then its second, and so on to its
last. Each time the status must be 10, the notes NO MEMORY, and the output empty, or for `run` a front of what
it displays; or the answer is the one that comes where none is refused, since a vector that can't have twice
its room is given as much as it needs. What crashes, hangs or answers otherwise is bad."""
import concurrent.futures
import glob
import os
import subprocess
import sys
import tempfile

HERE = os.path.dirname(os.path.dirname(os.path.abspath(__file__)))

# The Nth call for memory gets none, and this is told by a file.
SHIM = r"""
#include <fcntl.h>
#include <stdlib.h>
#include <unistd.h>
extern void *__libc_malloc(size_t), *__libc_realloc(void *, size_t);
static long calls, refused;
__attribute__((constructor)) static void begin(void) { refused = atol(getenv("REFUSED")); calls = 0; }
static int refuses(void) {
    if (++calls != refused) return 0;
    close(open(getenv("TOLD"), O_CREAT | O_WRONLY, 0600));
    return 1;
}
void *malloc(size_t size) { return refuses() ? NULL : __libc_malloc(size); }
void *realloc(void *old, size_t size) { return refuses() ? NULL : __libc_realloc(old, size); }
"""


def asks():
    """The words of each ask, and its source."""
    def sources(folder):
        names = sorted(glob.glob(f"{HERE}/examples/{folder}/*.cob"))
        return [open(name, "rb").read() for name in names if not name.endswith(".result.cob")]
    for source in sources("programs"):
        for words in (["restructure"], ["restructure", "--report"], ["check"], ["run", "--steps", "1000"]):
            yield words, source
    for folder in ("rules", "refusals"):
        for source in sources(folder):
            yield ["restructure"], source
    for source in sources("runs"):
        yield ["run", "--steps", "1000"], source
    for words in (["generate", "3"], ["trial", "3"], ["polish"], []):
        yield words, b""


def answer(program, shim, folder, words, source, refused):
    """The status, output and notes, and whether an allocation was refused."""
    told = f"{folder}/{refused}"
    env = {"LD_PRELOAD": shim, "REFUSED": str(refused), "TOLD": told}
    run = subprocess.run([program, *words], input=source, capture_output=True, timeout=60, env=env, cwd=folder)
    was_refused = os.path.exists(told)
    if was_refused:
        os.remove(told)
    return run.returncode, run.stdout, run.stderr, was_refused


def main():
    program, jobs = os.path.abspath(sys.argv[1]), int(sys.argv[2]) if len(sys.argv) > 2 else 2
    asked = refused = done_without = bad = 0
    with tempfile.TemporaryDirectory() as folder, concurrent.futures.ThreadPoolExecutor(jobs) as pool:
        with open(f"{folder}/shim.c", "w") as file:
            file.write(SHIM)
        shim = f"{folder}/shim.so"
        subprocess.run(["cc", "-O2", "-shared", "-fPIC", "-o", shim, file.name], check=True)
        for words, source in asks():
            plain = answer(program, shim, folder, words, source, 0)[:3]
            asked, number, more = asked + 1, 1, True
            while more:
                numbers = range(number, number + 64)
                for at, (status, out, notes, was_refused) in zip(numbers, pool.map(
                        lambda at: answer(program, shim, folder, words, source, at), numbers)):
                    more = was_refused
                    if not was_refused:
                        break
                    refused += 1
                    right = plain[1].startswith(out) if words[:1] == ["run"] else out == b""
                    if (status, out, notes) == plain:
                        done_without += 1
                    elif status != 10 or notes != b"NO MEMORY\n" or not right:
                        bad += 1
                        print(f"{words}, allocation {at}: status {status}, {len(out)} bytes, {notes[:80]!r}: {source[:60]!r}")
                number += 64
    print(f"{asked} asks, {refused} allocations refused, {done_without} of them done without, {bad} bad")
    return bad != 0


if __name__ == "__main__":
    sys.exit(main())
