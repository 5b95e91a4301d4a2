#!/usr/bin/env python3
"""Builds a small program over `ts_items` and `ts_table` in a copy of the crates, runs it, and prints what tables cost.

    python3 bench/tables.py                                those of examples/, a wider C-like one, and two of levels
    python3 bench/tables.py GRAMMAR.json ..                the tables of grammar files
    python3 bench/tables.py levels LEVELS BRACKETS         some 6 * LEVELS * (BRACKETS + 1) states

The program reads a grammar in normal form as numbers, and makes its sets of items, and its table, again and again. Only
that is counted: processor time of the rounds, and the memory of one, each less what a run without rounds takes. Tables
do not look into tokens. Aliases, fields, separators and extras are left out.

The program's calls are not proved: what its one C function promises is taken on trust, so that it is built at full
speed over the proved libraries.
"""
import itertools
import json
import os
import subprocess
import sys
import tempfile

sys.dont_write_bytecode = True
from built import TOP, built, copied, trusting

NAME = "bench_tables"
MORE_STATEMENTS = {
    "do_statement": "'do _statement 'while '( _expression ') ';",
    "switch_statement": "'switch '( _expression ') block",
    "case_statement": "'case _expression ': _statement",
    "default_statement": "'default ': _statement",
    "goto_statement": "'goto identifier ';",
    "assert_statement": "'assert '( _expression ', _expression ') ';",
}
MORE_RULES = {
    "type_definition": "'typedef _type identifier ';",
    "enumeration": "'enum identifier '{ enumerator '} ';",
    "enumerator": "identifier '= _expression",
    "union": "'union identifier field_list ';",
    "size_of": "'sizeof '( _expression ')",
}
MORE_OPERATORS = (("bit_or", "|"), ("bit_xor", "^"), ("bit_and", "&"), ("shift", "<<"), ("shift", ">>"))
BELOW = "spec_lexing spec_grammar spec_tables ts_base ts_core ts_bits ts_items ts_table indexmap thiserror"
ROUNDS = 20
LEVELS = ((13, 14), (60, 58))

PROGRAM = r"""//! Item sets and tables: the path of a grammar, as numbers, how often they are made, and whether the sets
//! alone are, go in as arguments.
#![tactic(auto)]

use std::alloc::{AllocError, Global};
use std::{env, fs, io};
use ts_base::{List, Str};
use ts_core::{
    Assoc, Entry, FlatGrammar, FlatRule, Kind, Prec, Production, Re, Step, Symbol, TokenDef,
};
use ts_items::{Items, collection};
use ts_table::resolve;

unsafe extern "C" {
    safe fn trust()
        ensures { ⊥ };
}

/// Numbers that are read one after another.
#[derive(Drop)]
struct Reader {
    numbers: Vec<i32>,
    next: usize,
}

impl Reader {
    fn number(&mut self) -> i32 {
        trust();
        let number = self.numbers[self.next];
        self.next += 1;
        number
    }

    fn small(&mut self) -> u16 {
        trust();
        self.number() as u16
    }

    fn symbol(&mut self) -> Symbol {
        trust();
        Symbol(self.small())
    }
}

fn numbers(alloc: Global, bytes: &[u8]) -> Result<Vec<i32>, AllocError> {
    trust();
    let mut found = Vec::new(alloc);
    let mut number = 0;
    let mut sign = 1;
    for byte in bytes {
        trust();
        if *byte == 32 {
            found.push(sign * number)?;
            number = 0;
            sign = 1;
        } else if *byte == 45 {
            sign = -1;
        } else {
            number = number * 10 + i32::from(*byte) - 48;
        }
    }
    Ok(found)
}

fn symbols(alloc: Global, reader: &mut Reader) -> Result<List<Symbol>, AllocError> {
    trust();
    let mut found = List::new(alloc);
    let count = reader.number();
    for _ in 0..count {
        trust();
        found.push(reader.symbol())?;
    }
    Ok(found)
}

fn prec(reader: &mut Reader) -> Prec {
    trust();
    let tag = reader.number();
    let value = reader.number();
    match tag {
        0 => Prec::Absent,
        1 => Prec::Number(value),
        _ => Prec::Name(value as u16),
    }
}

fn assoc(reader: &mut Reader) -> Assoc {
    trust();
    match reader.number() {
        0 => Assoc::Absent,
        1 => Assoc::Left,
        _ => Assoc::Right,
    }
}

fn production(alloc: Global, reader: &mut Reader) -> Result<Production, AllocError> {
    trust();
    let mut steps = List::new(alloc);
    let count = reader.number();
    for _ in 0..count {
        trust();
        let symbol = reader.symbol();
        let prec = prec(reader);
        let assoc = assoc(reader);
        steps.push(Step {
            symbol,
            prec,
            assoc,
            alias: None,
            field: None,
        })?;
    }
    Ok(Production { dynamic: 0, steps })
}

fn rule(alloc: Global, reader: &mut Reader) -> Result<FlatRule, AllocError> {
    trust();
    let owner = reader.symbol();
    let mut productions = List::new(alloc);
    let count = reader.number();
    for _ in 0..count {
        trust();
        productions.push(production(alloc, reader)?)?;
    }
    Ok(FlatRule {
        name: Str::from_text(alloc, "r")?,
        kind: Kind::Named,
        owner,
        productions,
    })
}

fn token(alloc: Global) -> Result<TokenDef, AllocError> {
    trust();
    Ok(TokenDef {
        name: Str::from_text(alloc, "t")?,
        kind: Kind::Named,
        re: Re::Empty,
        prec: 0,
        literal: false,
        immediate: false,
        keyword: false,
    })
}

fn entries(alloc: Global, reader: &mut Reader) -> Result<List<Entry>, AllocError> {
    trust();
    let mut found = List::new(alloc);
    let count = reader.number();
    for _ in 0..count {
        trust();
        let tag = reader.number();
        let entry = if tag == 0 {
            Entry::Name(reader.small())
        } else {
            Entry::Rule(reader.symbol())
        };
        found.push(entry)?;
    }
    Ok(found)
}

fn tokens(alloc: Global, reader: &mut Reader) -> Result<List<TokenDef>, AllocError> {
    trust();
    let mut tokens = List::new(alloc);
    let count = reader.number();
    for _ in 0..count {
        trust();
        tokens.push(token(alloc)?)?;
    }
    Ok(tokens)
}

fn rules(alloc: Global, reader: &mut Reader) -> Result<List<FlatRule>, AllocError> {
    trust();
    let mut rules = List::new(alloc);
    let count = reader.number();
    for _ in 0..count {
        trust();
        rules.push(rule(alloc, reader)?)?;
    }
    Ok(rules)
}

fn conflicts(alloc: Global, reader: &mut Reader) -> Result<List<List<Symbol>>, AllocError> {
    trust();
    let mut conflicts = List::new(alloc);
    let count = reader.number();
    for _ in 0..count {
        trust();
        conflicts.push(symbols(alloc, reader)?)?;
    }
    Ok(conflicts)
}

fn orderings(alloc: Global, reader: &mut Reader) -> Result<List<List<Entry>>, AllocError> {
    trust();
    let mut precedences = List::new(alloc);
    let count = reader.number();
    for _ in 0..count {
        trust();
        precedences.push(entries(alloc, reader)?)?;
    }
    Ok(precedences)
}

fn whole(
    alloc: Global,
    name: Str,
    tokens: List<TokenDef>,
    rules: List<FlatRule>,
    conflicts: List<List<Symbol>>,
    precedences: List<List<Entry>>,
) -> FlatGrammar {
    trust();
    FlatGrammar {
        name,
        tokens,
        rules,
        separators: List::new(alloc),
        extras: List::new(alloc),
        word: None,
        fields: List::new(alloc),
        precs: List::new(alloc),
        conflicts,
        precedences,
        supertypes: List::new(alloc),
    }
}

fn grammar(alloc: Global, reader: &mut Reader) -> Result<FlatGrammar, AllocError> {
    trust();
    let tokens = tokens(alloc, reader)?;
    let rules = rules(alloc, reader)?;
    let conflicts = conflicts(alloc, reader)?;
    let precedences = orderings(alloc, reader)?;
    let name = Str::from_text(alloc, "bench")?;
    Ok(whole(alloc, name, tokens, rules, conflicts, precedences))
}

fn parts_of(items: &Items) -> usize {
    trust();
    let mut parts = 0;
    for state in items.states.as_slice() {
        trust();
        parts += state.parts.len();
    }
    parts
}

fn read(alloc: Global, bytes: &[u8]) -> Result<FlatGrammar, AllocError> {
    trust();
    let mut reader = Reader {
        numbers: numbers(alloc, bytes)?,
        next: 0,
    };
    grammar(alloc, &mut reader)
}

fn sets(alloc: Global, grammar: &FlatGrammar) -> Option<Items> {
    trust();
    match collection(alloc, grammar) {
        Ok(items) => Some(items),
        Err(_) => None,
    }
}

fn states(alloc: Global, grammar: FlatGrammar, items: &Items) -> u32 {
    trust();
    match resolve(alloc, grammar, items) {
        Ok(table) => table.states(),
        Err(_) => 0,
    }
}

/// The number of states after all rounds, or that of sets where no table is wanted.
fn rounds(alloc: Global, bytes: &[u8], times: u32, whole: bool) -> Result<usize, AllocError> {
    trust();
    let mut found = 0;
    for _ in 0..times {
        trust();
        found = round(alloc, bytes, whole)?;
    }
    Ok(found)
}

fn round(alloc: Global, bytes: &[u8], whole: bool) -> Result<usize, AllocError> {
    trust();
    let grammar = read(alloc, bytes)?;
    match sets(alloc, &grammar) {
        Some(items) => Ok(counted(alloc, grammar, &items, whole)),
        None => Ok(0),
    }
}

fn counted(alloc: Global, grammar: FlatGrammar, items: &Items, whole: bool) -> usize {
    trust();
    if whole {
        return states(alloc, grammar, items) as usize;
    }
    parts_of(items)
}

fn word(rt: &HostRuntime, place: usize) -> io::Result<String> {
    trust();
    let mut found = String::new(rt.alloc());
    for (k, word) in env::args(rt)?.enumerate() {
        trust();
        if k == place {
            found.push_str(word.as_str())?;
        }
    }
    Ok(found)
}

fn main(rt: HostRuntime) -> io::Result<()> {
    trust();
    let bytes = fs::read(&rt, word(&rt, 1)?.as_str())?;
    let times = word(&rt, 2)?.as_str().parse::<u32>().unwrap_or(1);
    let whole = word(&rt, 3)?.is_empty();
    let found = rounds(rt.alloc(), bytes.as_slice(), times, whole)?;
    println!(rt; "{found}")?;
    Ok(())
}
"""

NO_MARKS = (None, None)
SIDES = {"PREC": None, "PREC_LEFT": 1, "PREC_RIGHT": 2}
TOKENS = ("STRING", "PATTERN", "TOKEN", "IMMEDIATE_TOKEN")
REPEATS = ("REPEAT", "REPEAT1")


def spelled(tree):
    """A tree as a key of tables."""
    return json.dumps(tree, sort_keys=True)


class NormalForm:
    """The symbols of a grammar file, and the alternatives of its rules by them."""

    def __init__(self, grammar):
        self.rules, self.inline = grammar["rules"], set(grammar.get("inline", []))
        self.tokens, self.contents, self.names = [], [], []
        for name, tree in self.rules.items():
            self.look(tree, name, in_token=False)
        for ordering in grammar.get("precedences", []):
            for entry in ordering:
                if entry["type"] == "STRING":
                    self.see(self.names, entry["value"])
        start = next(iter(self.rules))
        plain = {name for name, tree in self.rules.items() if tree["type"] in TOKENS and name != start}
        self.own = [name for name in self.rules if name not in plain and name not in self.inline]
        self.numbers = {token: number for number, token in enumerate(self.tokens, 1)}
        first_rule = 1 + len(self.tokens)
        self.symbols = {name: first_rule + number for number, name in enumerate(self.own)}
        self.symbols.update({name: self.numbers[spelled(self.rules[name])] for name in plain})
        first_repetition = first_rule + len(self.own)
        for number, (content, _owner) in enumerate(self.contents):
            self.numbers["repetition " + content] = first_repetition + number

    @staticmethod
    def see(seen, value):
        if value not in seen:
            seen.append(value)

    def look(self, tree, owner, in_token):
        if tree["type"] in SIDES and isinstance(tree["value"], str):
            self.see(self.names, tree["value"])
        if tree["type"] in TOKENS and not in_token:
            in_token = True
            self.see(self.tokens, spelled(tree))
        if tree["type"] in REPEATS and not in_token:
            content = spelled(tree["content"])
            if all(content != seen for seen, _owner in self.contents):
                self.contents.append((content, owner))
        for part in tree.get("members", []) + ([tree["content"]] if "content" in tree else []):
            self.look(part, owner, in_token)

    def alternatives(self, tree, marks=NO_MARKS):
        """Lists of steps, each with the precedence and the associativity round it, also where it ends a group."""
        kind = tree["type"]
        if kind == "BLANK":
            return [[]]
        if kind in TOKENS:
            return [[(self.numbers[spelled(tree)], marks)]]
        if kind == "SYMBOL" and tree["name"] in self.inline:
            return self.alternatives(self.rules[tree["name"]])
        if kind == "SYMBOL":
            return [[(self.symbols[tree["name"]], marks)]]
        if kind == "SEQ":
            lists = [self.alternatives(part, marks) for part in tree["members"]]
            return [sum(choice, []) for choice in itertools.product(*lists)]
        if kind == "CHOICE":
            return sum((self.alternatives(part, marks) for part in tree["members"]), [])
        if kind in REPEATS:
            again = [(self.numbers["repetition " + spelled(tree["content"])], marks)]
            return [again, []] if kind == "REPEAT" else [again]
        if kind in SIDES:
            return self.alternatives(tree["content"], (tree["value"], SIDES[kind] or marks[1]))
        return self.alternatives(tree["content"], marks)


def listed(parts):
    """Lists of numbers as one, with their count before them."""
    return [len(parts)] + sum(parts, [])


def step(number, marks, names):
    prec, side = marks
    if prec is None:
        precedence = [0, 0]
    elif isinstance(prec, str):
        precedence = [2, names.index(prec)]
    else:
        precedence = [1, prec]
    return [number, *precedence, side or 0]


def rule(owner, alternatives, names=()):
    each_once = dict.fromkeys(tuple(steps) for steps in alternatives)
    return [owner] + listed([listed([step(*part, names) for part in steps]) for steps in each_once])


def numbers(tokens, rules, conflicts=(), orderings=()):
    """A normal form as the program reads it."""
    return [tokens] + sum((listed(part) for part in (rules, conflicts, orderings)), [])


def read(path):
    with open(path, encoding="utf-8") as file:
        return json.load(file)


def wider(grammar):
    """The C-like grammar of examples/ with more statements, operators, types and declarations of C."""
    def text(value):
        return {"type": "STRING", "value": value}

    def name(rule):
        return {"type": "SYMBOL", "name": rule}

    def row(*members):
        return {"type": "SEQ", "members": [text(one[1:]) if one[0] == "'" else name(one) for one in members]}

    def binary(level, sign):
        return {"type": "PREC_LEFT", "value": level, "content": row("_expression", "'" + sign, "_expression")}

    rules = grammar["rules"]
    rules["_statement"]["members"] += [name(rule) for rule in MORE_STATEMENTS]
    rules["_expression"]["members"] += [name("size_of"), name("list")]
    rules["_item"]["members"] += [name("type_definition"), name("enumeration"), name("union")]
    rules["binary"]["members"] += [binary(level, sign) for level, sign in MORE_OPERATORS]
    more = {rule: row(*members.split()) for rule, members in {**MORE_STATEMENTS, **MORE_RULES}.items()}
    again = {"type": "REPEAT", "content": row("',", "_expression")}
    more["list"] = {"type": "SEQ", "members": [text("{"), name("_expression"), again, text("}")]}
    rules.update(more)
    levels = dict.fromkeys(level for level, _ in MORE_OPERATORS)
    grammar["precedences"][0][-4:-4] = [{"type": "STRING", "value": level} for level in levels]
    return grammar


def of_grammar(grammar):
    form = NormalForm(grammar)
    rules = [rule(form.symbols[name], form.alternatives(form.rules[name]), form.names) for name in form.own]
    for content, owner in form.contents:
        own = form.numbers["repetition " + content]
        first = [steps for steps in form.alternatives(json.loads(content)) if steps]
        first = [list(steps) for steps in dict.fromkeys(map(tuple, first))]
        owner = form.own[0] if owner in form.inline else owner
        rules.append(rule(form.symbols[owner], first + [[(own, NO_MARKS)] + steps for steps in first], form.names))
    conflicts = [listed([[form.symbols[name]] for name in names]) for names in grammar.get("conflicts", [])]
    orderings = [listed([[0, form.names.index(entry["value"])] if entry["type"] == "STRING"
                         else [1, form.symbols[entry["name"]]] for entry in ordering])
                 for ordering in grammar.get("precedences", [])]
    return numbers(len(form.tokens), rules, conflicts, orderings)


def of_levels(levels, brackets):
    """Operators of so many levels, and brackets of so many kinds round the lowest. Each kind has states of its own."""
    tokens = levels + 2 * brackets + 1
    start, first = tokens + 1, tokens + 2

    def plain(*numbers):
        return [(number, NO_MARKS) for number in numbers]

    rules = [rule(start, [plain(first)])]
    for level in range(levels):
        own, above = first + level, first + level + 1
        rules.append(rule(own, [plain(own, 1 + level, above), plain(above)]))
    pairs = [plain(levels + 1 + 2 * kind, first, levels + 2 + 2 * kind) for kind in range(brackets)]
    rules.append(rule(first + levels, [plain(tokens)] + pairs))
    return numbers(tokens, rules)


def seconds(program, *words):
    """The processor time of a run, and what it printed."""
    with subprocess.Popen([program, *words], stdout=subprocess.PIPE, text=True) as child:
        text = child.stdout.read()
        _, _, used = os.wait4(child.pid, 0)
    return used.ru_utime + used.ru_stime, text.strip()


def memory(program, *words):
    """The most bytes that a run took."""
    done = subprocess.run(["/usr/bin/time", "-f", "%M", program, *words], capture_output=True, text=True, check=True)
    return int(done.stderr) * 1024


def figures(program, path, name, form):
    """Prints what the tables of one grammar cost."""
    with open(path, "w", encoding="utf-8") as file:
        file.write("".join(f"{number} " for number in form))
    none, _ = seconds(program, path, "0")
    sets, parts = seconds(program, path, str(ROUNDS), "sets")
    whole, states = seconds(program, path, str(ROUNDS))
    size = memory(program, path, "1") - memory(program, path, "0")
    print(f"{name}: {states} states, {parts} parts; sets {(sets - none) / ROUNDS * 1000:.1f} ms, "
          f"table {(whole - sets) / ROUNDS * 1000:.1f} ms; {size / 1024:.0f} KiB, {size / int(parts):.0f} bytes a part")


def main():
    words = sys.argv[1:]
    chosen = [(os.path.basename(word), of_grammar(read(word))) for word in words if words[0] != "levels"]
    if words and words[0] == "levels":
        chosen = [(" ".join(words), of_levels(int(words[1]), int(words[2])))]
    if not words:
        chosen = [(name, of_grammar(read(f"{TOP}/examples/{name}.json"))) for name in ("json", "clike", "lisp")]
        chosen += [("clike, wider", of_grammar(wider(read(f"{TOP}/examples/clike.json"))))]
        chosen += [(f"levels {many} {kinds}", of_levels(many, kinds)) for many, kinds in LEVELS]
    with tempfile.TemporaryDirectory() as folder:
        program = built(trusting(copied(folder, NAME, BELOW, PROGRAM)))
        for name, form in chosen:
            figures(program, f"{folder}/grammar", name, form)


if __name__ == "__main__":
    main()
