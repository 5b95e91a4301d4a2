#!/usr/bin/env python3
"""Times of the built program: what one edit of a long text costs beside parsing the whole text.

    python3 bench/edits.py [PROGRAM]

PROGRAM is `crates/ts_cli/out/ts_cli` if none is given, which `./hemshale build` makes. The texts are those of
`bench/parse.py`: nested JSON and a flat list of 10 KB and 1 MB, and C-like texts and a Lisp of 200 KB. A script opens
the text, puts a byte behind it that no token begins with, and then puts one digit after another in the place of others:
in the middle of the text, or at places all over it. So each version is stuck behind its last token, and its line is
short: what is timed is the new text, the marks, and the parse up to that place, in which all that stood in the first
version's tree may be taken over. Printed are the microseconds of a whole parse of the text, of an edit, and how many
times as fast an edit is: processor time, the least of three runs, less that of a script without the edits, or of an
empty text for the whole parse. The line of a whole parse is printed too, so its time is an upper bound of parsing.
There are few edits of a short text, since a tree is dropped once edits took much out of its text.
"""
import json
import os
import subprocess
import sys
import tempfile

sys.dont_write_bytecode = True
import parse

TOP = parse.TOP


def line(**members):
    return json.dumps(members, separators=(",", ":")) + "\n"


def digits_of(text):
    """The places of digits behind a digit, so that each other digit can stand there."""
    return [at for at in range(1, len(text)) if text[at].isdigit() and text[at - 1].isdigit()]


def middle(text, count):
    """The same place in the middle of a text, so many times."""
    places = digits_of(text)
    return [places[len(places) // 2]] * count


def all_over(text, count):
    """So many places all over a text."""
    places = digits_of(text)
    return [places[k * 7919 % len(places)] for k in range(count)]


CASES = [
    ("nested JSON, 10 KB, in the middle", "json", parse.nested, 10_000, middle, 100),
    ("nested JSON, 1 MB, in the middle", "json", parse.nested, 1_000_000, middle, 1_000),
    ("flat list, 10 KB, in the middle", "json", parse.flat, 10_000, middle, 100),
    ("flat list, 1 MB, in the middle", "json", parse.flat, 1_000_000, middle, 1_000),
    ("C-like text, 200 KB, all over", "clike", parse.settled, 200_000, all_over, 1_000),
    ("C-like text with choices, 200 KB, all over", "clike", parse.clike, 200_000, all_over, 1_000),
    ("Lisp, 200 KB, all over", "lisp", parse.lisp, 200_000, all_over, 1_000),
]


def spent(words):
    """The processor time of a run in microseconds, the least of three, and what it prints."""
    found = []
    for _ in range(3):
        with subprocess.Popen(words, stdout=subprocess.PIPE) as child:
            printed = child.stdout.read()
            _, _, used = os.wait4(child.pid, 0)
        found.append((used.ru_utime + used.ru_stime) * 1e6)
    return min(found), printed


def main():
    program = sys.argv[1] if len(sys.argv) > 1 else f"{TOP}/crates/ts_cli/out/ts_cli"
    with tempfile.TemporaryDirectory() as folder:

        def replayed(grammar, text, places):
            with open(f"{folder}/text", "w", encoding="utf-8") as out:
                out.write(text)
            with open(f"{folder}/script", "w", encoding="utf-8") as out:
                out.write(line(op="open", path=f"{folder}/text"))
                out.write(line(client=0, op="edit", document=0, start=len(text), end=len(text), new="\u00a7"))
                for k, at in enumerate(places):
                    out.write(line(client=0, op="edit", document=0, start=at, end=at + 1, new=str(k % 10)))
            return spent([program, "replay", grammar, f"{folder}/script", ""])

        def parsed(grammar, text):
            with open(f"{folder}/text", "w", encoding="utf-8") as out:
                out.write(text)
            return spent([program, "parse", grammar, f"{folder}/text"])[0]

        for name, of, make, size, places, count in CASES:
            grammar = f"{TOP}/examples/{of}.json"
            text = make(size).rstrip()
            none, _ = replayed(grammar, text, [])
            all_edits, printed = replayed(grammar, text, places(text, count))
            edit = (all_edits - none) / count
            whole = parsed(grammar, text) - parsed(grammar, "")
            told = printed.count(b'"outcome":"stuck"')
            print(
                f"{name}: whole {whole:,.0f} us, an edit {edit:,.0f} us, {whole / edit:.1f} times"
                f" ({count} edits, {told} versions stuck)",
                flush=True,
            )


if __name__ == "__main__":
    main()
