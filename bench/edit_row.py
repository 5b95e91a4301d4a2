#!/usr/bin/env python3
"""Writes a row of `ts_acceptance`: a hundred edits of an array of numbers, and what their replay prints.

    python3 bench/edit_row.py [SEED COUNT [PROGRAM]]

SEED is 5 and COUNT 1 if none is given. The array has COUNT numbers: at place k, from 0, stands (SEED + 7k) mod 1000.
One client then makes edits 0 to 99, each of the version that it holds: edit i puts (SEED + 11i) mod 1000 in place of
the number at (SEED + 13i) mod COUNT. The lines that are wanted come from the reading of JSON below, by the rules of
docs/FORMATS.md, and from no run of the program. Printed is the row, as a line; where PROGRAM is given, it runs instead,
and whether it prints these lines is said.
"""
import json
import os
import re
import subprocess
import sys
import tempfile

TOP = os.path.dirname(os.path.dirname(os.path.abspath(__file__)))
ROWS = f"{TOP}/crates/ts_acceptance/data/replay.json"
# The row whose grammar of JSON this one has too.
GRAMMAR_ROW = "two parts of one edit"
EDITS = 100


class Reading:
    """Reads a JSON text of ASCII characters by that grammar, and notes its visible nodes in preorder."""

    NAMED = re.compile(r"(?P<number>-?\d+)|(?P<true>true)|(?P<false>false)|(?P<null>null)")
    CONTENT = re.compile(r'[^"\\\n]+')

    def __init__(self, text):
        self.text, self.at, self.nodes = text, 0, []

    def pass_blanks(self):
        while self.at < len(self.text) and self.text[self.at] in " \t\r\n\v\f":
            self.at += 1

    def opened(self, depth, kind, named, fields=()):
        """A node that begins here. Its end is noted when it is known."""
        line_start = self.text.rfind("\n", 0, self.at) + 1
        row = self.text.count("\n", 0, self.at)
        node = [depth, kind, named, list(fields), self.at, self.at, row, self.at - line_start]
        self.nodes.append(node)
        return node

    def close(self, node):
        node[5] = self.at

    def sign(self, depth, text):
        """An anonymous token, behind blanks."""
        self.pass_blanks()
        assert self.text.startswith(text, self.at)
        node = self.opened(depth, text, False)
        self.at += len(text)
        self.close(node)

    def stands(self, text):
        """Whether this stands next, behind blanks."""
        self.pass_blanks()
        return self.text.startswith(text, self.at)

    def value(self, depth, fields=()):
        self.pass_blanks()
        first = self.text[self.at]
        if first == "{":
            self.listed(depth, "object", fields, "{", "}", self.pair)
        elif first == "[":
            self.listed(depth, "array", fields, "[", "]", self.value)
        elif first == '"':
            self.string(depth, fields)
        else:
            token = self.NAMED.match(self.text, self.at)
            node = self.opened(depth, token.lastgroup, True, fields)
            self.at = token.end()
            self.close(node)

    def listed(self, depth, kind, fields, before, after, item):
        node = self.opened(depth, kind, True, fields)
        self.sign(depth + 1, before)
        if not self.stands(after):
            item(depth + 1)
            while self.stands(","):
                self.sign(depth + 1, ",")
                item(depth + 1)
        self.sign(depth + 1, after)
        self.close(node)

    def pair(self, depth):
        self.pass_blanks()
        node = self.opened(depth, "pair", True)
        self.string(depth + 1, ("key",))
        self.sign(depth + 1, ":")
        self.value(depth + 1, ("value",))
        self.close(node)

    def string(self, depth, fields):
        self.pass_blanks()
        node = self.opened(depth, "string", True, fields)
        self.sign(depth + 1, '"')
        content = self.CONTENT.match(self.text, self.at)
        if content:
            inner = self.opened(depth + 1, "string_content", True)
            self.at = content.end()
            self.close(inner)
        self.sign(depth + 1, '"')
        self.close(node)

    def document(self):
        """The nodes of the whole text, which has one value at least."""
        self.pass_blanks()
        node = self.opened(0, "document", True)
        while self.at < len(self.text):
            self.value(1)
            self.close(node)
            self.pass_blanks()
        return self.nodes


def line(**members):
    return json.dumps(members, separators=(",", ":"), sort_keys=True) + "\n"


def text_of(numbers):
    return "[" + ",".join(str(number) for number in numbers) + "]"


def edits(seed, count):
    """The text, and each edit: its range, what it puts there, and the text that it makes."""
    numbers = [(seed + 7 * place) % 1000 for place in range(count)]
    first = text_of(numbers)
    made = []
    for number in range(EDITS):
        place = (seed + 13 * number) % count
        new = (seed + 11 * number) % 1000
        # The bracket, and the numbers before it with a comma behind each.
        start = 1 + sum(len(str(other)) + 1 for other in numbers[:place])
        end = start + len(str(numbers[place]))
        numbers[place] = new
        made.append((start, end, str(new), text_of(numbers)))
    return first, made


def printed(first, made):
    """The lines of the versions, and those of the replies."""
    versions = line(document=0, nodes=Reading(first).document(), outcome="tree", version=0)
    replies = ""
    for step, (_, _, _, text) in enumerate(made):
        told = {"client": 0, "step": step, "turn": step, "version": step + 1}
        versions += line(document=0, nodes=Reading(text).document(), outcome="tree", **told)
        replies += line(reply="published", **told)
    return versions + replies


def row(seed, count):
    with open(ROWS, encoding="utf-8") as file:
        grammar = next(row["files"]["g"] for row in json.load(file) if row["name"] == GRAMMAR_ROW)
    first, made = edits(seed, count)
    if (seed, count) == (5, 1):
        assert made[-1][3] == "[94]" and len(Reading(made[-1][3]).document()) == 5
    script = line(op="open", text=first)
    for start, end, new, _ in made:
        script += line(client=0, op="edit", document=0, start=start, end=end, new=new)
    return {
        "name": f"a hundred edits of {count} numbers" if count > 1 else "a hundred edits of one number",
        "words": ["replay", "g", "sc", ""],
        "files": {"g": grammar, "sc": script},
        "status": 0,
        "output": printed(first, made),
    }


def compare(made, program):
    """Runs the program on the row's files, and says whether it prints what is wanted."""
    with tempfile.TemporaryDirectory() as folder:
        for path, text in made["files"].items():
            with open(f"{folder}/{path}", "w", encoding="utf-8") as file:
                file.write(text)
        done = subprocess.run([program, *made["words"]], cwd=folder, capture_output=True, text=True)
    if (done.returncode, done.stdout) == (made["status"], made["output"]):
        print(f"the same {len(done.stdout):,} bytes")
        return
    wanted, given = made["output"].splitlines(), done.stdout.splitlines()
    print(f"differs: status {done.returncode}, {len(given)} lines of {len(wanted)}")
    for number, (one, other) in enumerate(zip(wanted, given)):
        if one != other:
            sys.exit(f"line {number}:\n{one}\n{other}")
    sys.exit(1)


def main():
    seed, count = (int(word) for word in sys.argv[1:3]) if len(sys.argv) > 2 else (5, 1)
    made = row(seed, count)
    if len(sys.argv) > 3:
        compare(made, os.path.abspath(sys.argv[3]))
    else:
        print(json.dumps(made, ensure_ascii=False))


if __name__ == "__main__":
    main()
