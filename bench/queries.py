#!/usr/bin/env python3
"""Times of the built program: queries over large trees.

    python3 bench/queries.py [PROGRAM [SECONDS]]

PROGRAM is `crates/ts_cli/out/ts_cli` if none is given, which `./hemshale build` makes. What takes longer than SECONDS
by the clock (300 if none are given) or more than 4 GiB of memory is stopped, and that is said. Each query is asked in
steps of its own in a replay of one document, which no step edits. The first step that asks queries of a version makes
its visible tree, which is kept until a step looks. So a "first" step here is one behind a look, and a "later" one is
behind one that asked the same. The time of either is the processor time of a replay with nine such steps less that of
one with one, by eight, and of each the quickest of three counts, so that tables, parsing and the printed tree do not
count. The printed matches do in both, and the visible tree in first steps alone. The four queries of calls are asked
together in one step, too, and one of two patterns whose matches come in turns. The inputs, which this script writes:

- a C-like text of 1 MiB, with one function of 65,000 calls: some 1,100,000 visible nodes
- up to 10,000 siblings of two kinds: all of one, and four of one and one of the other in turn
- up to 100,000 siblings, ten of one kind and all others of another
- arrays in arrays, 250 deep: 100,000 visible nodes
"""
import json
import os
import signal
import subprocess
import sys
import tempfile
import time

sys.dont_write_bytecode = True
from memory import most, started, under_time

TOP = os.path.dirname(os.path.dirname(os.path.abspath(__file__)))
TEXT_BYTES = 1_048_576
FEW, MANY = 1, 9
ROUNDS = 3
MOST_MEMORY = 4 << 30
SIBLINGS = {
    "name": "siblings",
    "rules": {
        "s": {
            "type": "REPEAT",
            "content": {
                "type": "CHOICE",
                "members": [{"type": "SYMBOL", "name": "x"}, {"type": "SYMBOL", "name": "y"}],
            },
        },
        "x": {"type": "STRING", "value": "a"},
        "y": {"type": "STRING", "value": "z"},
    },
}
CALL_QUERIES = [
    "(call function: (identifier) @f)",
    "(function name: (identifier) @name)",
    '((call function: (identifier) @f) (#match? @f "^g"))',
    "(expression_statement (call (arguments . (identifier) @first)) @c)",
]
TURNS_QUERY = '((call function: (identifier) @f) (#match? @f "^g")) (arguments) @a'
SIBLING_QUERY = "(s (x)* @a (x) @b (y)? @c)"
BRANCH_QUERY = "(s [(x) @a (y)] [(x) @b (y)])"
NESTED_QUERY = "(_ (_ (_) @c))"


def calls():
    """Calls of six arguments: seventeen visible nodes in sixteen bytes."""
    before, one, after = "int main() {", "f(a,a,a,a,a,a);\n", "}"
    return before + one * ((TEXT_BYTES - len(before) - len(after)) // len(one)) + after


def nested(nodes, deep=250):
    """Arrays in arrays, with three visible nodes a level."""
    return "[" + ",".join("[" * deep + "]" * deep for _ in range(nodes // (3 * deep))) + "]"


def line(**members):
    return json.dumps(members, separators=(",", ":")) + "\n"


class Stopped(Exception):
    """The program took too long, or too much memory."""


def resident(child):
    """The bytes of memory that it has now."""
    try:
        with open(f"/proc/{started(child)}/statm") as file:
            return int(file.read().split()[1]) * os.sysconf("SC_PAGE_SIZE")
    except (FileNotFoundError, IndexError):
        return 0


def ended(child, seconds):
    """The status and what was used, once it has ended in time and memory."""
    start = time.monotonic()
    while True:
        pid, status, used = os.wait4(child.pid, os.WNOHANG)
        if pid:
            child.returncode = status
            return status, used
        late = time.monotonic() - start > seconds
        if late or resident(child) > MOST_MEMORY:
            os.kill(started(child), signal.SIGKILL)
            child.wait()
            raise Stopped(f"more than {seconds} s" if late else f"more than {MOST_MEMORY >> 30} GiB")
        time.sleep(0.05)


def replayed(program, grammar, folder, queries, steps, seconds):
    """The seconds of processor time, the most memory in MiB and what was printed of these steps with the queries."""
    script = line(op="open", path=f"{folder}/text") + "".join(line(op="load", source=query) for query in queries)
    script += steps
    with open(f"{folder}/script", "w") as out:
        out.write(script)
    with open(f"{folder}/printed", "wb") as printed:
        words = [program, "replay", grammar, f"{folder}/script", ""]
        child = subprocess.Popen(under_time(f"{folder}/most", words), stdout=printed)
        status, used = ended(child, seconds)
    with open(f"{folder}/printed", "rb") as printed:
        lines = printed.read().splitlines()
    if status:
        sys.exit(f"status {status >> 8}: {lines[-1:]}")
    return used.ru_utime + used.ru_stime, most(f"{folder}/most") >> 20, lines


def quickest(*what):
    """The quickest of some replays."""
    return min((replayed(*what) for _ in range(ROUNDS)), key=lambda it: it[0])


def matches_in(printed):
    """How many matches the last line tells."""
    reply = json.loads(printed[-1])
    if "results" not in reply:
        return reply["reply"]
    return " and ".join(many if isinstance(many, str) else f"{len(many):,}" for many in reply["results"]) + " matches"


def measure(program, name, grammar, text, queries, seconds):
    with tempfile.TemporaryDirectory() as folder:
        path = grammar
        if isinstance(grammar, dict):
            path = f"{folder}/grammar"
            with open(path, "w") as out:
                json.dump(grammar, out)
        with open(f"{folder}/text", "w") as out:
            out.write(text)
        for asked in queries:
            query = line(client=0, op="query", document=0, queries=list(range(len(asked))))
            look = line(client=0, op="look", document=0)
            try:
                few = quickest(program, path, folder, asked, query * FEW, seconds)
                kept = quickest(program, path, folder, asked, query * MANY, seconds)
                anew = quickest(program, path, folder, asked, (look + query) * MANY, seconds)
            except Stopped as why:
                print(f"{name}, {asked}: {why}", flush=True)
                continue
            nodes = few[2][0].count(b"],[") + 1
            first, later = ((many[0] - few[0]) / (MANY - FEW) for many in (anew, kept))
            print(
                f"{name}, {nodes:,} nodes, {asked}: {first:.3f} s a first step, {later:.3f} s a later one,"
                f" {matches_in(few[2])} ({few[0]:.2f} s and {few[1]} MiB with one step)",
                flush=True,
            )


def main():
    program = sys.argv[1] if len(sys.argv) > 1 else f"{TOP}/crates/ts_cli/out/ts_cli"
    seconds = int(sys.argv[2]) if len(sys.argv) > 2 else 300
    alone = [[query] for query in CALL_QUERIES]
    measure(program, "calls", f"{TOP}/examples/clike.json", calls(), [*alone, CALL_QUERIES, [TURNS_QUERY]], seconds)
    for siblings in (100, 1_000, 10_000):
        measure(program, "one kind", SIBLINGS, "a" * siblings, [[SIBLING_QUERY]], seconds)
        measure(program, "two kinds", SIBLINGS, "aaaaz" * (siblings // 5), [[SIBLING_QUERY]], seconds)
    for siblings in (1_000, 10_000, 100_000):
        measure(program, "ten of a kind", SIBLINGS, ("z" * (siblings // 10 - 1) + "a") * 10, [[BRANCH_QUERY]], seconds)
    measure(program, "nested", f"{TOP}/examples/json.json", nested(100_000), [[NESTED_QUERY]], seconds)


if __name__ == "__main__":
    main()
