#!/usr/bin/env python3
"""Refuses each allocation of some worked examples in turn, and says how each run ended.

    tools/refused_memory.py PROGRAM [ROW..]     PROGRAM is the proved program, as `rt run` leaves it at crates/ras/out/ras
    tools/refused_memory.py PROGRAM --from      refuses in each run an allocation and all that come after it

It is outside the gate, and takes some minutes. It needs `cc`: the program is run beside a small library whose `malloc`,
`calloc`, `realloc` and `aligned_alloc` count, and answer nothing where a count is reached. So the program is the one
that was proved, and is built once. (`rt try --fail-alloc N` refuses an allocation too, and looks for bad accesses
besides, but it builds the whole program for each N.)

A run is right where its status is 9, nothing is printed, and the note is the one on memory; or where its status, its text
and its note are those of the run in which nothing is refused. Any other run is told, and the status is then 1.
"""

import collections
import os
import subprocess
import sys
import tempfile

from worked_rows import LINES, ROWS

LIBRARY = r"""
#define _GNU_SOURCE
#include <errno.h>
#include <stddef.h>
#include <stdint.h>
#include <stdlib.h>
#include <sys/mman.h>
#include <unistd.h>
extern void *__libc_malloc(size_t);
extern void *__libc_calloc(size_t, size_t);
extern void *__libc_realloc(void *, size_t);
extern void *__libc_memalign(size_t, size_t);
static uint64_t here, first, last, *calls = &here;
static int is_on;
__attribute__((constructor)) static void begin(void) {
    const char *from = getenv("REFUSE_FROM"), *to = getenv("REFUSE_TO");
    first = from ? strtoull(from, 0, 10) : 0;
    last = to ? strtoull(to, 0, 10) : 0;
    if (getenv("REFUSE_COUNT")) {
        void *told = mmap(0, 8, PROT_READ | PROT_WRITE, MAP_SHARED, 9, 0);
        if (told == MAP_FAILED) _exit(99);
        calls = told;
    }
    is_on = 1;
}
static int refused(void) {
    if (!is_on) return 0;
    ++*calls;
    if (*calls < first || *calls > last) return 0;
    errno = ENOMEM;
    return 1;
}
void *malloc(size_t n) { return refused() ? 0 : __libc_malloc(n); }
void *calloc(size_t k, size_t n) { return refused() ? 0 : __libc_calloc(k, n); }
void *realloc(void *p, size_t n) { return refused() ? 0 : __libc_realloc(p, n); }
void *aligned_alloc(size_t a, size_t n) { return refused() ? 0 : __libc_memalign(a, n); }
int posix_memalign(void **p, size_t a, size_t n) {
    if (refused()) return ENOMEM;
    *p = __libc_memalign(a, n);
    return *p ? 0 : ENOMEM;
}
"""

NO_MEMORY = (9, b"", b"ras: no memory\n")
MOST = 2**63


def build(folder):
    """Compiles the library that refuses, and gives its path."""
    source, library = f"{folder}/refuse.c", f"{folder}/refuse.so"
    with open(source, "w") as file:
        file.write(LIBRARY)
    subprocess.run(["cc", "-O1", "-shared", "-fPIC", "-o", library, source], check=True)
    return library


class Runs:
    """Runs of one line of words in one folder."""

    def __init__(self, program, line, folder, library):
        self.words, self.folder, self.library = [program, *line], folder, library

    def ended(self, first, last, **further):
        """The status, the text and the note of a run in which the allocations of these numbers are refused."""
        env = {"LD_PRELOAD": self.library, "REFUSE_FROM": str(first), "REFUSE_TO": str(last), **further}
        ran = subprocess.run(self.words, cwd=self.folder, env=env, stdin=subprocess.DEVNULL,
                             capture_output=True, timeout=60, pass_fds=[9])
        return ran.returncode, ran.stdout, ran.stderr

    def count(self):
        """How many allocations a run asks for, and how it ends."""
        with tempfile.TemporaryFile() as file:
            file.truncate(8)
            os.dup2(file.fileno(), 9)
            try:
                whole = self.ended(0, 0, REFUSE_COUNT="1")
            finally:
                silent = os.open(os.devnull, os.O_WRONLY)
                os.dup2(silent, 9)
                os.close(silent)
            file.seek(0)
            return int.from_bytes(file.read(8), "little"), whole


def tried(name, command, runs, wanted, is_from):
    """Refuses each allocation of a run in turn. Gives how many runs were right and how many not."""
    count, whole = runs.count()
    status, front = wanted
    if count == 0 or whole[0] != status or not whole[1].startswith(front.encode()) or whole[2]:
        sys.exit(f"{name}, {command}: with no refusal {count} allocations, {whole}")
    ends = collections.Counter()
    for number in range(1, count + 1):
        ended = runs.ended(number, MOST if is_from else number)
        kind = "memory" if ended == NO_MEMORY else "borne" if ended == whole else "wrong"
        ends[kind] += 1
        if kind == "wrong":
            print(f"WRONG: {name}, {command}, allocation {number}: {ended}")
    print(f"{name}, {command}: {count} allocations, status 9 {ends['memory']}, "
          f"its own status {ends['borne']}, wrong {ends['wrong']}", flush=True)
    return ends


def main():
    words = sys.argv[1:]
    is_from = "--from" in words
    words = [word for word in words if word != "--from"]
    if not words or not set(words[1:]) <= set(ROWS):
        sys.exit(__doc__)
    program, names = os.path.abspath(words[0]), words[1:] or list(ROWS)
    ends = collections.Counter()
    with tempfile.TemporaryDirectory() as folder:
        library = build(folder)
        for at, name in enumerate(names):
            files, commands = ROWS[name]
            place = f"{folder}/{at}"
            os.mkdir(place)
            for file, text in files.items():
                with open(f"{place}/{file}", "w") as out:
                    out.write(text)
            for command, wanted in commands.items():
                ends += tried(name, command, Runs(program, LINES[command], place, library), wanted, is_from)
    print(f"all: {sum(ends.values())} runs, status 9 {ends['memory']}, its own status {ends['borne']}, "
          f"wrong {ends['wrong']}")
    return 1 if ends["wrong"] else 0


if __name__ == "__main__":
    sys.exit(main())
