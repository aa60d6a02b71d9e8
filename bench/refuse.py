#!/usr/bin/env python3
"""Runs a program again and again, with its first allocation failing, then its second, and so on until none fails in a run:
refuse.py PROGRAM WORD... Each run before that has to write a first part of the whole output and to end with status 1 and the
line of O2. It needs a C compiler."""

import os
import pathlib
import subprocess
import sys
import tempfile

ALLOCATOR = r"""
#include <stdlib.h>
static long made, refused = -1;
static int refuse(void) {
    if (refused < 0) {
        const char *number = getenv("REFUSE");
        refused = number ? atol(number) : 0;
    }
    return ++made == refused;
}
extern void *__libc_malloc(size_t), *__libc_calloc(size_t, size_t), *__libc_realloc(void *, size_t);
extern void *__libc_memalign(size_t, size_t);
void *malloc(size_t size) { return refuse() ? 0 : __libc_malloc(size); }
void *calloc(size_t count, size_t size) { return refuse() ? 0 : __libc_calloc(count, size); }
void *realloc(void *old, size_t size) { return refuse() ? 0 : __libc_realloc(old, size); }
void *aligned_alloc(size_t align, size_t size) { return refuse() ? 0 : __libc_memalign(align, size); }
"""

# So many runs in a row in which no allocation fails are the end.
UNTOUCHED = 200


def run(words: list[str], library: pathlib.Path, number: int) -> tuple[int, bytes, bytes]:
    """Status, output and messages of a run in which the allocation of this number fails."""
    variables = dict(os.environ, LD_PRELOAD=str(library), REFUSE=str(number))
    done = subprocess.run(words, env=variables, capture_output=True, check=False)
    return done.returncode, done.stdout, done.stderr


def is_cut(whole: bytes, messages: bytes) -> bool:
    """Whether messages are a first part of the whole ones, and then the line of O2."""
    line = b"ERROR: O2: no memory\n"
    return messages.endswith(line) and whole.startswith(messages[: -len(line)])


def main(words: list[str]) -> int:
    with tempfile.TemporaryDirectory() as folder:
        source = pathlib.Path(folder) / "refuse.c"
        library = pathlib.Path(folder) / "refuse.so"
        source.write_text(ALLOCATOR)
        subprocess.run(["cc", "-O2", "-shared", "-fPIC", "-o", library, source], check=True)
        whole = run(words, library, 0)
        failed = number = untouched = 0
        while untouched < UNTOUCHED:
            number += 1
            status, output, messages = found = run(words, library, number)
            if found == whole:
                untouched += 1
                continue
            untouched = 0
            failed += 1
            if status != 1 or not whole[1].startswith(output) or not is_cut(whole[2], messages):
                print(f"allocation {number}: status {status}, {messages!r}")
                return 1
    print(f"{failed} allocations failed")
    return 0


if __name__ == "__main__":
    sys.exit(main(sys.argv[1:]))
