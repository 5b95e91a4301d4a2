#!/usr/bin/env python3
"""Times of the built program: parsing texts of several sizes, and printing their trees.

    python3 bench/parse.py [PROGRAM]

PROGRAM is `crates/ts_cli/out/ts_cli` if none is given, which `./hemshale build` makes. Texts of 10 KB to 1 MB are
written by this script: nested JSON (records in lists in records), a flat list of numbers, a C-like text and a Lisp, by
the grammars of `examples/`. Each is parsed three times and the least is taken.

Printed are seconds of processor time less those of the empty text, which are the tables; bytes of text a second; the
visible nodes and the most memory for each, less that of the empty text; and the bytes of the line.
"""
import os
import subprocess
import sys
import tempfile

sys.dont_write_bytecode = True
from memory import most, under_time

TOP = os.path.dirname(os.path.dirname(os.path.abspath(__file__)))
SIZES = [10_000, 100_000, 1_000_000]
ROUNDS = 3


def filled(size, piece, before, between, after):
    """Pieces by their numbers until there are so many bytes, with these texts around and between them."""
    pieces, total = [], len(before) + len(after)
    while total < size:
        pieces.append(piece(len(pieces)))
        total += len(pieces[-1]) + len(between)
    return before + between.join(pieces) + after


def nested(size):
    def record(k):
        return (
            '{"id": %d, "name": "item %d", "tags": ["a", "b", ["c", {"d": [%d, -%d]}]], "ok": true, "none": null}'
            % (k, k, k, k)
        )

    return filled(size, record, "[", ",\n", "]")


def flat(size):
    return filled(size, lambda k: str(k * 7919 % 100_000), "[", ",", "]")


def clike(size):
    with open(f"{TOP}/examples/clike.txt") as text:
        unit = text.read()
    return unit * max(1, size // len(unit))


def settled(size):
    """A C-like text in which one move stays on each token."""
    with open(f"{TOP}/examples/clike.txt") as text:
        unit = text.read().replace("  number * q;\n", "")
    return unit * max(1, size // len(unit))


def lisp(size):
    with open(f"{TOP}/examples/lisp.txt") as text:
        unit = text.read()
    return unit * max(1, size // len(unit))


TEXTS = [("nested", "json", nested), ("flat", "json", flat), ("clike", "clike", clike), ("lisp", "lisp", lisp)]


def measured(program, grammar, text, report):
    """The least seconds of processor time, the most memory in bytes, and what was printed."""
    best = None
    for _ in range(ROUNDS):
        words = under_time(report, [program, "parse", grammar, text])
        with subprocess.Popen(words, stdout=subprocess.PIPE) as child:
            line = child.stdout.read()
            _, status, used = os.wait4(child.pid, 0)
        if status:
            sys.exit(f"status {status >> 8}: {line[:200]}")
        seconds = used.ru_utime + used.ru_stime
        best = min(best, seconds) if best is not None else seconds
    return best, most(report), line


def main():
    program = sys.argv[1] if len(sys.argv) > 1 else f"{TOP}/crates/ts_cli/out/ts_cli"
    with tempfile.TemporaryDirectory() as folder:
        path, report = f"{folder}/text", f"{folder}/most"
        for name, grammar, make in TEXTS:
            rules = f"{TOP}/examples/{grammar}.json"
            with open(path, "w") as out:
                out.write("")
            none, room, _ = measured(program, rules, path, report)
            print(f"{name}: {none:.3f} s and {room >> 20} MiB for the tables of {grammar}.json", flush=True)
            for size in SIZES:
                text = make(size)
                with open(path, "w") as out:
                    out.write(text)
                seconds, memory, line = measured(program, rules, path, report)
                spent = max(seconds - none, 1e-6)
                nodes = line.count(b"],[") + 1
                tree = line.startswith(b'{"nodes"')
                each = (memory - room) / nodes if tree else 0
                print(
                    f"  {len(text):>9} bytes: {spent:7.3f} s, {len(text) / spent / 1e6:6.2f} MB/s,"
                    f" {nodes if tree else 0} nodes, {each:5.0f} bytes a node, line of {len(line)} bytes"
                    f"{'' if tree else ': ' + line[:60].decode()}",
                    flush=True,
                )


if __name__ == "__main__":
    main()
