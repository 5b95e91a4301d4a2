#!/usr/bin/env python3
"""Edits against whole parses: each version of a document has the line of its whole text.

    python3 bench/reuse.py [VERSIONS [SEED [PROGRAM]]]

PROGRAM is `crates/ts_cli/out/ts_cli` if none is given, which `./hemshale build` makes. By the grammars of JSON, of the
C-like language and of the Lisp in `examples/`, and by one with a declared conflict, short texts are edited at random: a
piece goes, another comes, or both, in one place or in two at once; most edits are taken back by the next. The program
replays the edits, one version after another; then each version's text is parsed alone, by `parse`, which knows of no
edits. Both must tell the same outcome. VERSIONS is 10,000 in all if none is given. Printed are how many versions were a
tree, stuck or deep, and each that differs; it ends with 1 if one does.
"""
import json
import os
import random
import subprocess
import sys
import tempfile

TOP = os.path.dirname(os.path.dirname(os.path.abspath(__file__)))
EDITS = 40


def sym(name):
    return {"type": "SYMBOL", "name": name}


def text(value):
    return {"type": "STRING", "value": value}


def seq(*members):
    return {"type": "SEQ", "members": list(members)}


# A name and a star may begin a declaration or a product.
CONFLICT = {
    "name": "conflict",
    "rules": {
        "list": {"type": "REPEAT", "content": sym("item")},
        "item": {"type": "CHOICE", "members": [sym("declared"), sym("product")]},
        "declared": seq(sym("type"), text("*"), sym("name"), text(";")),
        "product": seq(sym("value"), text("*"), sym("value"), text(";")),
        "type": sym("name"),
        "value": sym("name"),
        "name": {"type": "PATTERN", "value": "[a-z]+"},
    },
    "extras": [{"type": "PATTERN", "value": "\\s"}],
    "conflicts": [["type", "value"]],
}

CASES = {
    "json": (
        '{"a": [1, 22, {"b": "c", "d": [true, false, null]}], "e": -3}',
        ["1", "22", "-7", '"x"', "[", "]", "{", "}", ",", ":", " ", "true", '"k": 5', "[1, 2]", "{}", '"', "\n"],
    ),
    "clike": (
        "int f(int a) {\n  int b = a + 1;\n  while (b < 10) { b = b * 2; }\n  return g(b, a);\n}\n",
        ["a", "b", "1", "+", "*", "(", ")", "{", "}", ";", ",", " ", "if", "else", "return", "x = 1;", "// c\n", "=", "=="],
    ),
    "lisp": (
        "(define (f x) (if (< x 2) x (+ (f (- x 1)) '(a b))))\n",
        ["(", ")", "x", "12", "'", " ", '"s"', "(g x)", ";", "\n", ",", ",@", "`", "#t"],
    ),
    "conflict": ("a * b;\nc * d;\n", ["a", "b", "*", ";", " ", "a * b;", "\n"]),
}


def piece_of(source, pieces):
    return source.choice(pieces) if source.random() < 0.8 else ""


def parts_of(source, now, pieces):
    """One part of an edit or two, apart and in order, as places of characters."""
    places = sorted(source.sample(range(len(now) + 1), min(len(now) + 1, source.choice([2, 2, 2, 4]))))
    if len(places) % 2 == 1:
        places.append(places[-1])
    found = []
    for start, end in zip(places[::2], places[1::2]):
        end = min(end, start + source.choice([0, 0, 1, 1, 2, 5]))
        if not found or found[-1][1] < start:
            found.append((start, end, piece_of(source, pieces)))
    return found


def edited(now, parts):
    done, at = [], 0
    for start, end, new in parts:
        done += [now[at:start], new]
        at = end
    return "".join(done) + now[at:]


def undone(now, parts):
    """The parts that take an edit of a text back."""
    found, shift = [], 0
    for start, end, new in parts:
        found.append((start + shift, start + shift + len(new), now[start:end]))
        shift += len(new) - (end - start)
    return found


def line(**members):
    return json.dumps(members, separators=(",", ":")) + "\n"


def edit_line(parts):
    changes = [{"start": start, "end": end, "new": new} for start, end, new in parts]
    if len(changes) == 1:
        return line(client=0, op="edit", document=0, **changes[0])
    return line(client=0, op="edit", document=0, parts=changes)


def outcome(said):
    return {key: said[key] for key in ("outcome", "nodes", "place") if key in said}


def main():
    versions = int(sys.argv[1]) if len(sys.argv) > 1 else 10_000
    source = random.Random(int(sys.argv[2]) if len(sys.argv) > 2 else 1)
    program = sys.argv[3] if len(sys.argv) > 3 else f"{TOP}/crates/ts_cli/out/ts_cli"
    counts, wrong, done = {}, 0, 0
    with tempfile.TemporaryDirectory() as folder:
        grammars = {name: f"{TOP}/examples/{name}.json" for name in CASES}
        grammars["conflict"] = f"{folder}/conflict.json"
        with open(grammars["conflict"], "w") as out:
            json.dump(CONFLICT, out)
        while done < versions:
            name = source.choice(sorted(CASES))
            first, pieces = CASES[name]
            texts, steps = [first], []
            undo = None
            for _ in range(EDITS):
                parts = undo if undo and source.random() < 0.7 else parts_of(source, texts[-1], pieces)
                undo = undone(texts[-1], parts) if parts is not undo else None
                texts.append(edited(texts[-1], parts))
                steps.append(edit_line(parts))
            with open(f"{folder}/script", "w") as out:
                out.write(line(op="open", text=first) + "".join(steps))
            words = [program, "replay", grammars[name], f"{folder}/script", ""]
            replayed = subprocess.run(words, stdout=subprocess.PIPE, check=True).stdout.decode()
            lines = [json.loads(it) for it in replayed.splitlines()]
            told = [it for it in lines if "outcome" in it and "reply" not in it]
            if len(told) != len(texts):
                sys.exit(f"{name}: {len(told)} versions of {len(texts)}: {lines[-1]}")
            for said, now in zip(told, texts):
                with open(f"{folder}/text", "w") as out:
                    out.write(now)
                words = [program, "parse", grammars[name], f"{folder}/text"]
                alone = json.loads(subprocess.run(words, stdout=subprocess.PIPE, check=True).stdout.decode())
                counts[said["outcome"]] = counts.get(said["outcome"], 0) + 1
                done += 1
                if outcome(said) != outcome(alone):
                    wrong += 1
                    print(f"{name}: {now!r} is {outcome(said)} after edits, and {outcome(alone)} alone", flush=True)
    print(f"{done} versions: {counts}, {wrong} differ")
    sys.exit(1 if wrong else 0)


if __name__ == "__main__":
    main()
