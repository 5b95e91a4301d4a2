#!/usr/bin/env python3
"""Writes a grammar file of so many rules, 524 bytes a rule, so that 2,000 rules are 1 MiB.

    python3 bench/grammar.py [RULES] [FILE]

RULES is 2,000 and FILE /tmp/bench-grammar.json if none is given. `bench/flatten.py` measures how long such files take.
"""
import json
import sys

# The bytes of a file of 2,000 rules.
BYTES = 1 << 20


def string(value):
    return {"type": "STRING", "value": value}


def symbol(number, rules):
    return {"type": "SYMBOL", "name": f"r{number % rules}"}


def field(name, content):
    return {"type": "FIELD", "name": name, "content": content}


def choice(*members):
    return {"type": "CHOICE", "members": list(members)}


def sequence(*members):
    return {"type": "SEQ", "members": list(members)}


def statement(number, rules):
    """A rule with words of its own and two repetitions, one of which is its own too."""
    return sequence(
        string(f"w{number}"),
        field(f"field_{number % 50}", choice(symbol(number + 1, rules), string("end"))),
        choice({"type": "REPEAT1", "content": sequence(string(","), string(f"i{number % 100}"))}, {"type": "BLANK"}),
        {"type": "REPEAT", "content": {"type": "PATTERN", "value": f"[a-z]+{number}"}},
        string(";"),
    )


def grammar(rules):
    return {
        "name": "bench",
        "rules": {f"r{number}": statement(number, rules) for number in range(rules)},
        "extras": [{"type": "PATTERN", "value": "\\s"}],
        "conflicts": [],
        "precedences": [],
        "externals": [],
        "inline": [],
        "supertypes": [],
    }


def wide(tokens):
    """A file of one rule, a choice of so many tokens."""
    return json.dumps({"name": "wide", "rules": {"s": choice(*[string(f"t{k}") for k in range(tokens)])}})


def joined(parts, branches):
    """A file of one rule, a sequence of so many choices, each of so many tokens of its own."""
    choices = [choice(*[string(f"t{p}_{k}") for k in range(branches)]) for p in range(parts)]
    return json.dumps({"name": "joined", "rules": {"s": sequence(*choices)}})


def text(rules):
    """The file. Blanks at its end bring it to its size, some percent of it."""
    bare = json.dumps(grammar(rules))
    return bare + " " * (BYTES * rules // 2000 - len(bare))


def main():
    rules = int(sys.argv[1]) if len(sys.argv) > 1 else 2000
    path = sys.argv[2] if len(sys.argv) > 2 else "/tmp/bench-grammar.json"
    with open(path, "w", encoding="utf-8") as file:
        file.write(text(rules))
    print(f"{path}: {len(text(rules).encode()):,} bytes, {rules:,} rules")


if __name__ == "__main__":
    main()
