#!/usr/bin/env python3
"""Random ambiguous grammars against a plain search that lists all trees of a text.

    python3 bench/ambiguous.py [CASES [SEED [PROGRAM]]]

PROGRAM is `crates/ts_cli/out/ts_cli` if none is given, which `./hemshale build` makes. A grammar has up to six rules,
some of them hidden, over tokens of one byte; some alternatives have a dynamic value. What is in conflict is declared:
the program is asked again with the rules that it names, until it names none. Grammars that it refuses for another
cause, and those with a rule that no text has, are passed over. Each grammar is asked for texts of up to twelve tokens:
some that its rules make, some of these with one token changed, and some of any tokens.

The search knows nothing of tables: it lists each tree of each rule over each part of the text. Of all trees of the
whole text that of the greatest sum of dynamic values counts, and among these the one of the least code. Where there is
none, the text is stuck at the end of its longest beginning with which a text of the grammar begins. A text of more than
20,000 trees is passed over. The program's line has to be that of the search. Printed are how many cases came out as a
tree of several, as an only one, and stuck, the most trees of one, and each case that differs; it ends with 1 if one
does. CASES is 10,000 if none is given.
"""
import itertools
import json
import os
import random
import subprocess
import sys
import tempfile

TOP = os.path.dirname(os.path.dirname(os.path.abspath(__file__)))
TOKENS = "abc+"
MOST_TOKENS = 12
MOST_TREES = 20_000
MOST_ASKED = 40
TEXTS = 12


class TooMany(Exception):
    """A text has more trees than are listed."""


class Grammar:
    """Rules by their names, each a list of alternatives: a dynamic value, and names of rules and tokens."""

    def __init__(self, rules, conflicts=()):
        self.rules = rules
        self.conflicts = list(conflicts)
        seen = [step for alternatives in rules.values() for _, steps in alternatives for step in steps]
        tokens = dict.fromkeys(step for step in seen if step not in rules)
        self.numbers = {name: number for number, name in enumerate([None, *tokens, *rules])}
        self.tokens = list(tokens)
        firsts = itertools.accumulate((len(alternatives) for alternatives in rules.values()), initial=0)
        self.firsts = dict(zip(rules, firsts))

    def file(self):
        """The grammar file."""

        def step(name):
            return {"type": "SYMBOL", "name": name} if name in self.rules else {"type": "STRING", "value": name}

        def alternative(value, steps):
            members = [step(name) for name in steps]
            content = members[0] if len(members) == 1 else {"type": "SEQ", "members": members}
            return {"type": "PREC_DYNAMIC", "value": value, "content": content} if value else content

        rules = {
            name: {"type": "CHOICE", "members": [alternative(*one) for one in alternatives]}
            for name, alternatives in self.rules.items()
        }
        return json.dumps({"name": "g", "rules": rules, "extras": [], "conflicts": self.conflicts})

    def are_productive(self):
        """Whether each rule has a text."""
        found = set(self.tokens)
        while True:
            more = {
                name
                for name, alternatives in self.rules.items()
                if any(all(step in found for step in steps) for _, steps in alternatives)
            }
            if more <= found:
                return len(more) == len(self.rules)
            found |= more


def random_grammar(chance):
    names = ["s"] + [chance.choice(["", "_"]) + f"r{k}" for k in range(chance.randint(0, 5))]

    def step():
        return chance.choice(names) if chance.random() < 0.6 else chance.choice(TOKENS)

    def steps():
        return tuple(step() for _ in range(chance.choice([1, 1, 2, 2, 2, 3, 3, 4])))

    rules = {}
    for name in names:
        alternatives = {}
        # Two at least: a rule that is one token as a whole would name it.
        count = chance.randint(2, 4)
        while len(alternatives) < count:
            alternatives.setdefault(steps(), chance.choice([0, 0, 0, 0, 1, -1, 2]))
        rules[name] = [(value, one) for one, value in alternatives.items()]
    return Grammar(rules)


def random_text(grammar, chance):
    """A text that the start rule makes, or None where it grows too long."""
    steps, text = ["s"], ""
    for _ in range(200):
        if not steps:
            return text
        step = steps.pop(0)
        if step in grammar.rules:
            steps = [*chance.choice(grammar.rules[step])[1], *steps]
        else:
            text += step
        if len(text) + len(steps) > MOST_TOKENS:
            return None
    return None


def changed(text, chance):
    """The text with another token in one place, or one more, or one less."""
    place = chance.randint(0, len(text))
    new = chance.choice(["", chance.choice(TOKENS)])
    return (text[:place] + new + text[place + chance.randint(0, 1) :])[:MOST_TOKENS]


def texts_of(grammar, chance):
    made = [text for text in (random_text(grammar, chance) for _ in range(60)) if text is not None]
    longest = sorted(dict.fromkeys(made), key=len)[-TEXTS // 2 :]
    broken = [changed(text, chance) for text in longest[: TEXTS // 3]]
    any_text = "".join(chance.choice(TOKENS) for _ in range(chance.randint(0, MOST_TOKENS)))
    return list(dict.fromkeys([*longest, *broken, any_text]))


class Search:
    """All trees over the parts of one text. A tree is its value, its code, and its children with the part."""

    def __init__(self, grammar, text):
        self.grammar, self.text, self.known, self.count = grammar, text, {}, 0

    def of(self, name, start, end):
        """The trees of a rule or a token from one place to another."""
        if name not in self.grammar.rules:
            fits = self.text[start:end] == name
            return [(0, (self.grammar.numbers[name], 0, 0, 1, 0), (name, start, end, ()))] if fits else []
        key = name, start, end
        if key not in self.known:
            self.known[key] = list(self.rule_trees(name, start, end))
            self.count += len(self.known[key])
            if self.count > MOST_TREES:
                raise TooMany
        return self.known[key]

    def rule_trees(self, name, start, end):
        first = self.grammar.firsts[name]
        for number, (value, steps) in enumerate(self.grammar.rules[name]):
            for children in self.rows(steps, start, end):
                total = value + sum(child[0] for child in children)
                code = (self.grammar.numbers[name], first + number, 0, end - start, len(children))
                code += tuple(itertools.chain.from_iterable(child[1] for child in children))
                yield total, code, (name, start, end, tuple(child[2] for child in children))

    def rows(self, steps, start, end):
        """The trees of these steps one after another. Each step takes a byte at least."""
        if len(steps) == 1:
            return [(tree,) for tree in self.of(steps[0], start, end)]
        found = []
        for middle in range(start + 1, end - len(steps) + 2):
            firsts = self.of(steps[0], start, middle)
            if firsts:
                found += itertools.product(firsts, self.rows(steps[1:], middle, end))
        return [(tree, *rest) for tree, rest in found]

    def begins(self, name, start, end):
        """Whether a text of a rule or a token begins with this part.

        Either some steps of a rule are passed whole and the next begins with what is left, or the first step begins
        with all of it. That asks the same of another name, so names are asked one after another.
        """
        asked, waiting = set(), [name]
        while waiting:
            name = waiting.pop()
            if start == end or self.text[start:end] == name:
                return True
            if name in asked or name not in self.grammar.rules:
                continue
            asked.add(name)
            for _, steps in self.grammar.rules[name]:
                waiting.append(steps[0])
                if self.goes_on(steps, start, end):
                    return True
        return False

    def goes_on(self, steps, start, end):
        """Whether the first of these steps is passed whole, and the others begin with what is left."""
        for middle in range(start + 1, end + 1):
            if self.of(steps[0], start, middle) and (middle == end or self.begin(steps[1:], middle, end)):
                return True
        return False

    def begin(self, steps, start, end):
        """Whether these steps, one after another, begin with this part."""
        return bool(steps) and (self.begins(steps[0], start, end) or self.goes_on(steps, start, end))


def shown(tree, grammar):
    """The visible nodes in preorder, as they are printed."""
    nodes = []

    def add(node, level):
        name, start, end, children = node
        visible = not name.startswith("_") or not nodes
        if visible:
            nodes.append([level, name, name in grammar.rules, [], start, end, 0, start])
        for child in children:
            add(child, level + visible)

    add(tree, 0)
    return nodes


def expected(grammar, text):
    """What the text comes to, and of how many trees."""
    search = Search(grammar, text)
    trees = search.of("s", 0, len(text)) if text else []
    if trees:
        best = min(trees, key=lambda tree: (-tree[0], tree[1]))
        return {"nodes": shown(best[2], grammar), "outcome": "tree"}, len(trees)
    place = max(place for place in range(len(text) + 1) if search.begins("s", 0, place))
    return {"outcome": "stuck", "place": place}, 0


def write(path, text):
    with open(path, "w") as out:
        out.write(text)


def parsed(program, folder, text):
    """The line and the status of the program."""
    write(f"{folder}/text", text)
    done = subprocess.run([program, "parse", f"{folder}/grammar", f"{folder}/text"], stdout=subprocess.PIPE)
    return json.loads(done.stdout), done.returncode


def declared(program, folder, grammar):
    """Whether the grammar is taken, with what is in conflict declared."""
    for _ in range(MOST_ASKED):
        write(f"{folder}/grammar", grammar.file())
        line, status = parsed(program, folder, "")
        if status == 0:
            return True
        if line.get("fault") != "conflict":
            return False
        grammar.conflicts.append(line["rules"])
    return False


def main():
    cases = int(sys.argv[1]) if len(sys.argv) > 1 else 10_000
    chance = random.Random(int(sys.argv[2]) if len(sys.argv) > 2 else 1)
    program = sys.argv[3] if len(sys.argv) > 3 else f"{TOP}/crates/ts_cli/out/ts_cli"
    counts = {"several": 0, "one": 0, "stuck": 0}
    most = differ = grammars = passed_over = 0
    with tempfile.TemporaryDirectory() as folder:
        while sum(counts.values()) < cases:
            grammar = random_grammar(chance)
            if not grammar.are_productive() or not declared(program, folder, grammar):
                continue
            grammars += 1
            for text in texts_of(grammar, chance):
                try:
                    line, trees = expected(grammar, text)
                except TooMany:
                    passed_over += 1
                    continue
                told, _ = parsed(program, folder, text)
                counts["several" if trees > 1 else "one" if trees else "stuck"] += 1
                most = max(most, trees)
                if told != line:
                    differ += 1
                    print(f"{grammar.file()}\n  {text!r}: {told}\n  {line}", flush=True)
    print(
        f"{sum(counts.values()):,} cases of {grammars:,} grammars: {counts['several']:,} of several trees, {most:,} at "
        f"most, {counts['one']:,} of one, {counts['stuck']:,} stuck; {passed_over:,} passed over; {differ} differ"
    )
    sys.exit(differ > 0)


if __name__ == "__main__":
    main()
