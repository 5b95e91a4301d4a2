#!/usr/bin/env python3
"""Refuses each allocation of a run in turn, and tests how the run then ends.

    python3 bench/allocations.py [PROGRAM [CLIENTS [SEED]]]

PROGRAM is `crates/ts_cli/out/ts_cli` if none is given, which `./hemshale build` makes; CLIENTS is 2 and SEED, the number
of the script, 0. For both words, `replay` and `run`, the script is that of `bench/soak.py` with so many clients, four
steps for each, and awaits of version 0 alone: where the edit that makes a version is refused its memory, whoever awaits
that version on a thread takes its 10,000,000 looks, seconds a run. A small library, which this script compiles with `cc`
and which the program loads before others, counts the calls of `malloc`, `calloc` and `realloc` and refuses the one of a
number. Tried are the numbers from 0 until a run ends before its number comes. Each run has to end

- with status 0 and a lawful print, as `bench/soak.py` tests it, in which a step may be answered `memory`, or
- with status 4 and nothing printed

and a refusal must be met in some run in either way. It ends with status 1 at the first run that ends otherwise.
"""
import os
import random
import subprocess
import sys
import tempfile

sys.dont_write_bytecode = True
sys.path.insert(0, os.path.dirname(os.path.abspath(__file__)))
import soak  # noqa: E402

STEPS = 4
REFUSING = r"""
#define _GNU_SOURCE
#include <dlfcn.h>
#include <errno.h>
#include <fcntl.h>
#include <stdatomic.h>
#include <stdlib.h>
#include <unistd.h>

static atomic_long calls;
static long refused = -1;
static void *(*real_malloc)(size_t);
static void *(*real_calloc)(size_t, size_t);
static void *(*real_realloc)(void *, size_t);
/* What dlsym asks for before the real calls are known. */
static char room[4096];
static size_t used;

static void *early(size_t size) {
    size_t at = used;
    used += (size + 15) & ~(size_t)15;
    return used <= sizeof room ? room + at : NULL;
}

__attribute__((constructor)) static void begin(void) {
    const char *number = getenv("REFUSED");
    real_malloc = dlsym(RTLD_NEXT, "malloc");
    real_calloc = dlsym(RTLD_NEXT, "calloc");
    real_realloc = dlsym(RTLD_NEXT, "realloc");
    atomic_store(&calls, 0);
    if (number) refused = atol(number);
}

/* The program ends without calling destructors, so it is told here that the call came. */
static void tell(void) {
    const char *path = getenv("REFUSED_TOLD");
    int file = path ? open(path, O_WRONLY | O_CREAT | O_TRUNC, 0600) : -1;
    if (file < 0 || write(file, "1", 1) != 1) _exit(99);
    close(file);
}

static int is_refused(void) {
    if (refused < 0 || atomic_fetch_add(&calls, 1) != refused) return 0;
    tell();
    errno = ENOMEM;
    return 1;
}

void *malloc(size_t size) {
    if (!real_malloc) return early(size);
    return is_refused() ? NULL : real_malloc(size);
}

void *calloc(size_t count, size_t size) {
    if (!real_calloc) return early(count * size);
    return is_refused() ? NULL : real_calloc(count, size);
}

void *realloc(void *old, size_t size) {
    if (!real_realloc) return early(size);
    return is_refused() ? NULL : real_realloc(old, size);
}
"""


def compiled(folder):
    """The library that refuses."""
    with open(f"{folder}/refusing.c", "w") as out:
        out.write(REFUSING)
    library = f"{folder}/refusing.so"
    subprocess.run(["cc", "-O1", "-shared", "-fPIC", "-o", library, f"{folder}/refusing.c", "-ldl"], check=True)
    return library


def refused(words, library, folder, number):
    """How the run ends whose allocation of this number is refused, and whether it came to that number."""
    told = f"{folder}/told"
    with open(told, "w"):
        pass
    given = {**os.environ, "LD_PRELOAD": library, "REFUSED": str(number), "REFUSED_TOLD": told}
    done = subprocess.run(words, capture_output=True, env=given, timeout=600)
    with open(told) as said:
        return done, said.read() == "1"


def tried(program, word, clients, seed):
    """The numbers of runs that ended with either status, by refused allocations."""
    soak.CLIENTS, soak.STEPS, soak.AWAITED = clients, STEPS, 1
    chance = random.Random(seed)
    texts, steps, lines = soak.script(chance, is_long=False)
    ended = {0: 0, 4: 0}
    memory = 0
    with tempfile.TemporaryDirectory() as folder:
        library = compiled(folder)
        with open(f"{folder}/grammar", "w", encoding="utf-8") as out:
            out.write(soak.json.dumps(soak.GRAMMAR))
        with open(f"{folder}/script", "w", encoding="utf-8") as out:
            out.write(lines)
        outcomes = soak.Outcomes(program, folder)
        words = [program, word, f"{folder}/grammar", f"{folder}/script"]
        if word == "replay":
            words.append(",".join(str(chance.randrange(clients)) for _ in range(clients * soak.STEPS)))
        number = 0
        while True:
            done, came = refused(words, library, folder, number)
            if done.returncode not in ended or (done.returncode == 4 and done.stdout):
                sys.exit(f"{word}, allocation {number}: status {done.returncode}, {done.stdout[:200]}")
            if done.returncode == 0:
                try:
                    memory += soak.test(done.stdout, texts, steps, outcomes).get("memory", 0)
                except soak.Wrong as fault:
                    sys.exit(f"{word}, allocation {number}: {fault}")
            if not came:
                return number, ended, memory
            ended[done.returncode] += 1
            number += 1


def main():
    program = os.path.abspath(sys.argv[1]) if len(sys.argv) > 1 else f"{soak.TOP}/crates/ts_cli/out/ts_cli"
    clients = int(sys.argv[2]) if len(sys.argv) > 2 else 2
    seed = int(sys.argv[3]) if len(sys.argv) > 3 else 0
    for word in ("replay", "run"):
        count, ended, memory = tried(program, word, clients, seed)
        if not ended[4] or not memory:
            sys.exit(f"{word}: no refusal was met in one of both ways: {ended}, {memory} answers of memory")
        print(
            f"{word}: {count} allocations refused in turn: {ended[4]} runs ended with status 4, {ended[0]} with a lawful "
            f"print, in which {memory} steps were answered memory",
            flush=True,
        )


if __name__ == "__main__":
    main()
