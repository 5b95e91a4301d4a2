#!/usr/bin/env python3
"""What a whole parse takes: the first one of a process, and each one after it.

    python3 bench/whole.py [ROUNDS [PROGRAM]]

Builds the small program of `bench/examined.py`. PROGRAM is `crates/ts_cli/out/ts_cli` if none is given, which
`./hemshale build` makes: it compiles the grammars. The texts are those of `bench/parse.py`. Each is parsed once in one
process and five times in another, in turn, in so many rounds, ten if none is given; each tree but the first is let go
before the text is parsed again. A fresh process waits for each page of memory that it takes for its first tree. Later
trees lie in memory that was let go.

Printed are processor times, the least of all rounds and the median, and bytes of text a second by the least: those of a
process that parses the text once and lets the tree go, less those of the empty text, which are the tables; and a fourth
of what four parses more take, with letting their trees go.
"""
import statistics
import subprocess
import sys
import tempfile

sys.dont_write_bytecode = True
import parse
from built import TOP, built, copied, run, spent, trusting
from examined import BELOW, NAME, PROGRAM

MORE = 4
SIZES = [10_000, 100_000, 1_000_000]
TEXTS = [("nested JSON", "json", parse.nested), ("flat list", "json", parse.flat), ("C-like text", "clike", parse.settled)]


def seconds(program, *words):
    """The processor time of the program."""
    start = spent()
    run(program, *words)
    return (spent() - start) / 1e6


def told(times, size):
    least = min(times)
    return f"{least * 1e3:.2f} ms (median {statistics.median(times) * 1e3:.2f}), {size / least / 1e6:.1f} MB/s"


def main():
    rounds = int(sys.argv[1]) if len(sys.argv) > 1 else 10
    compiler = sys.argv[2] if len(sys.argv) > 2 else f"{TOP}/crates/ts_cli/out/ts_cli"
    with tempfile.TemporaryDirectory() as folder:
        program = built(trusting(copied(folder, NAME, BELOW, PROGRAM)))
        open(f"{folder}/nothing", "w").close()
        for name, of, make in TEXTS:
            with open(f"{folder}/language", "wb") as out:
                subprocess.run([compiler, "compile", f"{TOP}/examples/{of}.json"], check=True, stdout=out)
            for size in SIZES:
                with open(f"{folder}/text", "w", encoding="utf-8") as out:
                    size = out.write(make(size).rstrip())

                def parsed(more, text="text"):
                    return seconds(program, str(more), "whole", "0", f"{folder}/language", f"{folder}/{text}")

                tables = min(parsed(0, "nothing") for _ in range(3))
                first, later = [], []
                for _ in range(rounds):
                    once = parsed(0)
                    first.append(once - tables)
                    later.append((parsed(MORE) - once) / MORE)
                print(f"{name}, {size:,} bytes: first {told(first, size)}; each later {told(later, size)}", flush=True)


if __name__ == "__main__":
    main()
