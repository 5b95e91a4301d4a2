#!/usr/bin/env python3
"""What texts cost that can be read in several ways.

    python3 bench/readings.py [PROGRAM]

Builds the small program of `bench/examined.py`, which reads a language file, parses a text and lets the tree go.
PROGRAM is `crates/ts_cli/out/ts_cli` if none is given, which `./hemshale build` makes: it compiles the grammars. Times
are seconds of processor time, the least of three runs, less those of the empty text. Printed are

- for sums of 40, 100 and 200 operands, which the grammar brackets in all ways: the time, and the power of the operands
  by which it has grown since the sum before
- for C-like texts of 1 MB, a statement a line: the time without a choice of moves, and how many times as long it takes
  with a declared conflict in each statement, which is settled by the token after the next, or not before its end, where
  both readings come out and the better one is kept
"""
import json
import math
import subprocess
import sys
import tempfile

sys.dont_write_bytecode = True
from built import TOP, built, copied, trusting
from examined import BELOW, NAME, PROGRAM, least

OPERANDS = [40, 100, 200]
SIZE = 1_000_000
ROOM = 1e-6
STATEMENTS = [
    ("settled by the token after the next", "number + q + r;", "number * q + r;"),
    ("two readings to the end of the statement", "number + q;", "number * q;"),
]


def sums():
    """A grammar of sums, whose operands are letters."""
    name = {"type": "SYMBOL", "name": "_sum"}
    bracketed = {"type": "SEQ", "members": [name, {"type": "STRING", "value": "+"}, name]}
    operand = {"type": "SYMBOL", "name": "operand"}
    rules = {
        "sums": name,
        "_sum": {"type": "CHOICE", "members": [bracketed, operand]},
        "operand": {"type": "PATTERN", "value": "[a-z]"},
    }
    return {"name": "sums", "rules": rules, "conflicts": [["_sum"]]}


def lines(statement):
    """A C-like text of one function, a statement a line."""
    line = f"  {statement}\n"
    return "int main() {\n" + line * (SIZE // len(line)) + "}\n"


class Timed:
    """The program by one grammar: how long a text takes."""

    def __init__(self, program, compiler, folder, grammar):
        self.program, self.folder = program, folder
        with open(f"{folder}/language", "wb") as out:
            subprocess.run([compiler, "compile", grammar], check=True, stdout=out)
        self.none = self.whole("")

    def whole(self, text):
        with open(f"{self.folder}/text", "w", encoding="utf-8") as out:
            out.write(text)
        return least(self.program, "0", "parsed", "0", f"{self.folder}/language", f"{self.folder}/text") / 1e6

    def seconds(self, text):
        return max(self.whole(text) - self.none, ROOM)


def tell_sums(program, compiler, folder):
    with open(f"{folder}/grammar", "w", encoding="utf-8") as out:
        json.dump(sums(), out)
    timed = Timed(program, compiler, folder, f"{folder}/grammar")
    before = None
    for count in OPERANDS:
        seconds = timed.seconds("+".join("a" * count))
        grown = ""
        if before:
            power = math.log(seconds / before[1]) / math.log(count / before[0])
            grown = f", the power {power:.1f} of the operands"
        print(f"{count} operands: {seconds:.2f} s{grown}", flush=True)
        before = count, seconds


def tell_statements(program, compiler, folder):
    timed = Timed(program, compiler, folder, f"{TOP}/examples/clike.json")
    for name, plain, choice in STATEMENTS:
        without, with_one = timed.seconds(lines(plain)), timed.seconds(lines(choice))
        print(
            f"`{choice}`, {name}: {with_one:.2f} s, `{plain}`: {without:.2f} s, {with_one / without:.2f} times",
            flush=True,
        )


def main():
    compiler = sys.argv[1] if len(sys.argv) > 1 else f"{TOP}/crates/ts_cli/out/ts_cli"
    with tempfile.TemporaryDirectory() as folder:
        program = built(trusting(copied(folder, NAME, BELOW, PROGRAM)))
        tell_sums(program, compiler, folder)
        tell_statements(program, compiler, folder)


if __name__ == "__main__":
    main()
