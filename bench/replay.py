#!/usr/bin/env python3
"""Times of the built program: replays of long scripts.

    python3 bench/replay.py [PROGRAM]

PROGRAM is `crates/ts_cli/out/ts_cli` if none is given, which `./hemshale build` makes. Printed are the seconds of
processor time and the most memory of: 100,000 edits of a small text by one client; the same number of looks; 100,000
steps of sixteen clients in turn; and a script of 16 MiB, most of it the new text of edits that are out of range, so that
reading it is nearly all that is done.
"""
import json
import os
import subprocess
import sys
import tempfile

sys.dont_write_bytecode = True
from memory import most, under_time

TOP = os.path.dirname(os.path.dirname(os.path.abspath(__file__)))
STEPS = 100_000
SCRIPT_BYTES = 16 * 1024 * 1024


def line(**members):
    return json.dumps(members, separators=(",", ":")) + "\n"


def edit(client, start, end, new):
    return line(client=client, op="edit", document=0, start=start, end=end, new=new)


def edits():
    """An `a` behind the text, and out again."""
    return "".join(edit(0, 2, 2, "a") if k % 2 == 0 else edit(0, 2, 3, "") for k in range(STEPS))


def looks():
    return line(client=0, op="look", document=0) * STEPS


def in_turn():
    """Each client looks and then changes what it saw."""
    return "".join(
        line(client=k // 2 % 16, op="look", document=0) if k % 2 == 0 else edit(k // 2 % 16, 0, 1, "a")
        for k in range(STEPS)
    )


def long_lines():
    """Lines of some 100 KB."""
    one = edit(0, 9, 9, "a" * 100_000)
    return one * (SCRIPT_BYTES // len(one) - 1)


SCRIPTS = [
    ("100,000 edits", edits, ""),
    ("100,000 looks", looks, ""),
    ("100,000 steps of sixteen clients", in_turn, ",".join(str(k // 2 % 16) for k in range(STEPS // 4))),
    ("a script of 16 MiB", long_lines, ""),
]


def main():
    program = sys.argv[1] if len(sys.argv) > 1 else f"{TOP}/crates/ts_cli/out/ts_cli"
    grammar = f"{TOP}/examples/ab.json"
    with tempfile.TemporaryDirectory() as folder:
        path, report = f"{folder}/script", f"{folder}/most"
        for name, make, order in SCRIPTS:
            script = line(op="open", text="ab") + make()
            with open(path, "w") as out:
                out.write(script)
            words = under_time(report, [program, "replay", grammar, path, order])
            with subprocess.Popen(words, stdout=subprocess.PIPE) as child:
                printed = child.stdout.read()
                _, status, used = os.wait4(child.pid, 0)
            seconds = used.ru_utime + used.ru_stime
            print(
                f"{name}: {seconds:.2f} s, {most(report) >> 20} MiB, {len(script) / seconds / 1e6:.1f} MB/s of script, "
                f"{printed.count(b'published')} published, {len(printed):,} bytes printed, status {status >> 8}",
                flush=True,
            )


if __name__ == "__main__":
    main()
