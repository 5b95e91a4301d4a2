#!/usr/bin/env python3
"""Runs scripts of sixteen clients again and again, and tests that what is printed is lawful.

    python3 bench/soak.py [PROGRAM [RUNS [WORD [SEED]]]]

PROGRAM is `crates/ts_cli/out/ts_cli` if none is given, which `./hemshale build` makes; RUNS is 200, WORD `run` or
`replay`, which is then in an order by chance, and SEED the number of the first script. A script has three documents and
steps of every kind, by chance. In every tenth script one text is so long that queries of its tree are asked on several
threads; and there one step waits for a version that never comes, and one edit makes a text too large. What is printed
is tested by the rules of docs/FORMATS.md and by no run of the program, but that the outcome of a text has to be that of
the word `parse`:

- the lines are those of all first versions, of all published edits and of all steps, in their order
- the edits in the journals are the steps answered `published`, each once; versions count from 1 and turns rise
- each version has the text that its edit makes, and the outcome of that text
- each reply is right by the version that its client holds and by its turn, and no client ever holds an older version
- turns are apart, those of a client rise, and there are as many as the replies took

It ends with status 1 and the script's number at the first line that is wrong. The step that waits for a version that
never comes yields ten million times: with two of four processors free 200 scripts took a minute and a half, in two runs
at once, and beside provers on all four not one of these steps had ended after two minutes.
"""
import json
import os
import random
import subprocess
import sys
import tempfile

sys.dont_write_bytecode = True
TOP = os.path.dirname(os.path.dirname(os.path.abspath(__file__)))
CLIENTS, DOCUMENTS, STEPS = 16, 3, 12
MOST_LOOKS = 10_000_000
# Awaited are versions below this one. The first step of each client makes version 1 come.
AWAITED = 2
# No document comes to this version.
NEVER = CLIENTS * STEPS + 1
# One script of so many has a long text, with this piece, and the steps that take long.
LONG, LONG_PIECE = 10, "ab(c)" * 6_000
MOST_BYTES = 1_048_576
GRAMMAR = {
    "name": "soak",
    "rules": {
        "s": {
            "type": "REPEAT",
            "content": {
                "type": "CHOICE",
                "members": [{"type": "SYMBOL", "name": "list"}, {"type": "SYMBOL", "name": "x"}],
            },
        },
        "list": {
            "type": "SEQ",
            "members": [
                {"type": "STRING", "value": "("},
                {"type": "REPEAT", "content": {"type": "SYMBOL", "name": "x"}},
                {"type": "STRING", "value": ")"},
            ],
        },
        "x": {"type": "PATTERN", "value": "[a-zé]"},
    },
}
# Each query, with the nodes that it captures, one a match.
QUERIES = [
    ("(x) @c", lambda node: node[1] == "x"),
    ("(list) @c", lambda node: node[1] == "list"),
    ('")" @c', lambda node: node[1] == ")"),
]
TURNED = ("published", "newer", "look", "await", "late")
LIKELY = ("edit", "edit", "edit", "look", "look", "query", "query", "tree", "await")


class Wrong(Exception):
    pass


def must(holds, *why):
    if not holds:
        raise Wrong(" ".join(str(one) for one in why))


def line(**members):
    return json.dumps(members, separators=(",", ":"), ensure_ascii=False) + "\n"


# ---- scripts


def piece(chance):
    return "".join(chance.choice(["a", "b", "(c)", "()", "é", ""]) for _ in range(chance.randrange(4)))


def part(chance, start, reach):
    end = start + chance.randrange(3)
    return {"start": start, "end": end, "new": piece(chance) if chance.random() < 0.95 else ")"}, end + 1 + reach


def edit(chance):
    start = chance.randrange(12)
    if chance.random() < 0.7:
        return part(chance, start, 0)[0]
    parts = []
    for _ in range(chance.randrange(1, 4)):
        one, start = part(chance, start, chance.randrange(3))
        parts.append(one)
    return {"parts": parts}


def step(chance, client, first):
    """A step; the first of each client is an edit, so that what is awaited comes."""
    document = client % DOCUMENTS if first else chance.randrange(DOCUMENTS)
    made = {"client": client, "op": "edit" if first else chance.choice(LIKELY), "document": document}
    if first:
        made.update(start=0, end=0, new="a")
    elif made["op"] == "edit":
        made.update(edit(chance))
    elif made["op"] == "query":
        made["queries"] = [chance.randrange(len(QUERIES)) for _ in range(chance.randrange(1, 4))]
    elif made["op"] == "await":
        made["version"] = chance.randrange(AWAITED)
    return made


def script(chance, is_long):
    """The texts of the documents, the steps by client, and the script's lines."""
    texts = [piece(chance) + "aé(b)" + piece(chance) for _ in range(DOCUMENTS)]
    steps = [[step(chance, client, k == 0) for k in range(STEPS)] for client in range(CLIENTS)]
    if is_long:
        texts[0] += LONG_PIECE
        steps[chance.randrange(CLIENTS)][-1] = {"op": "await", "document": 1, "version": NEVER}
        large = {"op": "edit", "document": 0, "start": 0, "end": 0, "new": "a" * MOST_BYTES}
        steps[chance.randrange(CLIENTS)][-2] = large
        for client, own in enumerate(steps):
            own[:] = [{**one, "client": client} for one in own]
    lines = [line(op="open", text=text) for text in texts] + [line(op="load", source=q) for q, _ in QUERIES]
    ahead = [0] * CLIENTS
    while any(at < STEPS for at in ahead):
        client = chance.choice([client for client in range(CLIENTS) if ahead[client] < STEPS])
        lines.append(line(**steps[client][ahead[client]]))
        ahead[client] += 1
    return texts, steps, "".join(lines)


# ---- what is lawful


def parts_of(edit_step):
    return edit_step.get("parts") or [{name: edit_step[name] for name in ("start", "end", "new")}]


def in_range(text, edit_step):
    behind = -1
    for one in parts_of(edit_step):
        if not behind < one["start"] <= one["end"] <= len(text):
            return False
        for place in (one["start"], one["end"]):
            if place < len(text) and text[place] & 0xC0 == 0x80:
                return False
        behind = one["end"]
    return True


def changed(text, edit_step):
    made, at = b"", 0
    for one in parts_of(edit_step):
        made += text[at : one["start"]] + one["new"].encode()
        at = one["end"]
    return made + text[at:]


class Outcomes:
    """What the program's `parse` prints of a text."""

    def __init__(self, program, folder):
        self.program, self.folder, self.known = program, folder, {}

    def of(self, text):
        if text not in self.known:
            with open(f"{self.folder}/text", "wb") as out:
                out.write(text)
            words = [self.program, "parse", f"{self.folder}/grammar", f"{self.folder}/text"]
            self.known[text] = json.loads(subprocess.run(words, capture_output=True, check=True).stdout)
        return self.known[text]


def told(members, names):
    return {name: value for name, value in members.items() if name not in names}


def read_lines(printed, texts, steps):
    """The first versions, the journals and the replies, by their places; the lines' order is tested."""
    lines = [json.loads(one) for one in printed.decode().splitlines()]
    must(printed.endswith(b"\n"), "the last line has no end")
    for one, raw in zip(lines, printed.decode().splitlines()):
        must(line(**dict(sorted(one.items()))) == raw + "\n", "not compact, or members out of order:", raw)
    firsts, rest = lines[: len(texts)], lines[len(texts) :]
    replies = rest[len(rest) - sum(len(own) for own in steps) :]
    entries = rest[: len(rest) - len(replies)]
    must([one["document"] for one in firsts] == list(range(len(texts))), "first versions")
    answered = [(one["client"], one["step"]) for one in replies]
    must(answered == [(client, k) for client, own in enumerate(steps) for k in range(len(own))], "replies")
    journals = [[one for one in entries if one["document"] == d] for d in range(len(texts))]
    must(entries == [one for journal in journals for one in journal], "journals out of order")
    return firsts, journals, replies


def versions_of(texts, steps, firsts, journals, outcomes):
    """The versions of each document, as text and outcome."""
    versions = []
    for document, first in enumerate(firsts):
        text = texts[document].encode()
        must(first == {**outcomes.of(text), "document": document, "version": 0}, "first version", first)
        own, turn = [(text, outcomes.of(text))], -1
        for number, entry in enumerate(journals[document], 1):
            asked = steps[entry["client"]][entry["step"]]
            must(asked["op"] == "edit" and asked["document"] == document, "no such edit", entry)
            must(turn < entry["turn"] < 2**62, "turns do not rise", entry)
            must(in_range(text, asked), "published out of range", entry)
            text, turn = changed(text, asked), entry["turn"]
            rest = told(entry, ("client", "document", "step", "turn", "version"))
            must(entry["version"] == number and rest == outcomes.of(text), "version", entry, "of", text)
            own.append((text, outcomes.of(text)))
        versions.append(own)
    return versions


def below(journal, turn):
    return sum(1 for entry in journal if entry["turn"] < turn)


def judge_edit(asked, reply, held, text, journal):
    """The version that the client then holds."""
    if reply["reply"] == "range":
        must(not in_range(text, asked) and set(reply) == {"client", "reply", "step", "version"}, "range")
        return held
    must(in_range(text, asked), "in range")
    size = len(changed(text, asked))
    if reply["reply"] == "size":
        must(reply["size"] == size > MOST_BYTES, "size")
        must(set(reply) == {"client", "reply", "size", "step", "version"}, "members")
        return held
    must(size <= MOST_BYTES, "too large")
    if reply["reply"] == "published":
        must(below(journal, reply["turn"]) == held, "published over another number of edits")
        entry = journal[held]
        must(all(entry[name] == reply[name] for name in ("turn", "client", "step")), "entry")
        return held + 1
    must(reply["reply"] == "newer" and below(journal, reply["turn"]) > held, "newer")
    return below(journal, reply["turn"])


def results_of(asked, outcome):
    results = []
    for number in asked["queries"]:
        nodes = [node for node in outcome["nodes"] if QUERIES[number][1](node)]
        results.append([[0, [["c", node[4], node[5]]]] for node in nodes])
    return results


def judge(asked, reply, held, version, journal):
    """The version that the client holds behind the step."""
    text, outcome = version
    word = reply["reply"]
    if word == "memory":
        return held
    if asked["op"] == "edit":
        return judge_edit(asked, reply, held, text, journal)
    rest = told(reply, ("client", "reply", "step", "version"))
    if asked["op"] == "tree":
        must(word == "tree" and rest == outcome, "tree")
        return held
    if asked["op"] == "query":
        tree = outcome["outcome"] == "tree"
        wanted = {"results": results_of(asked, outcome)} if tree else outcome
        must(word == ("results" if tree else "none") and rest == wanted, "results", wanted)
        return held
    shown = below(journal, reply["turn"])
    must(set(rest) == {"turn"}, "members")
    if asked["op"] == "look":
        must(word == "look", "look")
    else:
        must(word == ("await" if shown >= asked["version"] else "late"), "await")
    return shown


def judge_turns(replies, steps, documents):
    """No turn is taken twice, those of a client rise, and all that were taken have room below each."""
    for document in range(documents):
        own, last = [], {}
        for reply in replies:
            asked = steps[reply["client"]][reply["step"]]
            if asked["document"] != document or reply["reply"] not in TURNED:
                continue
            taken = MOST_LOOKS if reply["reply"] == "late" else 1
            before = last.get(reply["client"], -1)
            must(before + taken <= reply["turn"] < 2**62, "turn", reply)
            last[reply["client"]] = reply["turn"]
            own.append((reply["turn"], taken))
        own.sort()
        total = 0
        for number, (turn, taken) in enumerate(own):
            must(number == 0 or own[number - 1][0] < turn, "one turn twice:", turn)
            total += taken
            must(total <= turn + 1, "too many turns up to", turn)


def test(printed, texts, steps, outcomes):
    """The words of the replies, counted."""
    firsts, journals, replies = read_lines(printed, texts, steps)
    versions = versions_of(texts, steps, firsts, journals, outcomes)
    held = [[0] * len(texts) for _ in steps]
    words, published = {}, set()
    for reply in replies:
        client, asked = reply["client"], steps[reply["client"]][reply["step"]]
        document = asked["document"]
        before = held[client][document]
        try:
            now = judge(asked, reply, before, versions[document][before], journals[document])
        except (Wrong, KeyError, IndexError) as fault:
            raise Wrong(f"{fault}: {reply} to {asked}, held {before}") from fault
        must(before <= now == reply["version"], "held version", reply, "to", asked)
        held[client][document] = now
        words[reply["reply"]] = words.get(reply["reply"], 0) + 1
        if reply["reply"] == "published":
            published.add((document, client, reply["step"]))
    entries = [(d, entry["client"], entry["step"]) for d, journal in enumerate(journals) for entry in journal]
    must(len(entries) == len(set(entries)) and set(entries) == published, "an edit without its reply")
    judge_turns(replies, steps, len(texts))
    return words


def main():
    program = os.path.abspath(sys.argv[1]) if len(sys.argv) > 1 else f"{TOP}/crates/ts_cli/out/ts_cli"
    runs = int(sys.argv[2]) if len(sys.argv) > 2 else 200
    word = sys.argv[3] if len(sys.argv) > 3 else "run"
    seed = int(sys.argv[4]) if len(sys.argv) > 4 else 0
    total = {}
    with tempfile.TemporaryDirectory() as folder:
        with open(f"{folder}/grammar", "w", encoding="utf-8") as out:
            json.dump(GRAMMAR, out)
        outcomes = Outcomes(program, folder)
        for number in range(seed, seed + runs):
            chance = random.Random(number)
            texts, steps, lines = script(chance, number % LONG == 0)
            with open(f"{folder}/script", "w", encoding="utf-8") as out:
                out.write(lines)
            words = [program, word, f"{folder}/grammar", f"{folder}/script"]
            if word == "replay":
                words.append(",".join(str(chance.randrange(CLIENTS)) for _ in range(CLIENTS * STEPS)))
            done = subprocess.run(words, capture_output=True)
            if done.returncode:
                sys.exit(f"script {number}: status {done.returncode}, {done.stdout[:200]}")
            try:
                for reply, count in test(done.stdout, texts, steps, outcomes).items():
                    total[reply] = total.get(reply, 0) + count
            except Wrong as fault:
                sys.exit(f"script {number}: {fault}")
    counts = ", ".join(f"{count} {reply}" for reply, count in sorted(total.items()))
    print(f"{runs} scripts by {word}, all lawful: {counts}")


if __name__ == "__main__":
    main()
