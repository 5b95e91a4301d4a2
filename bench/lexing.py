#!/usr/bin/env python3
"""Speed of lexing: bytes of text a second by tables and from node to node, and the cost by the number of tokens.

    python3 bench/lexing.py [ROUNDS [PROGRAM]]

Builds a small proved program over `ts_lexer` in a copy of the crates. PROGRAM is `crates/ts_cli/out/ts_cli` if none is
given, which `./hemshale build` makes: it compiles the grammars. For each grammar of `examples/` a grammar is made that
takes any run of its tokens, with the same separators and the same word token, so that nothing but lexing is measured:
each token is lexed among all of them. The texts are those of `bench/parse.py` with 1 MB. A second grammar has one token
more, which no text here has and whose automaton has too many sets for tables: the same tokens are then found from node
to node. ROUNDS is 20 if none is given. Times are processor time: of three runs with the rounds the least, less the
least of three without any, which make the lexer alone.
"""
import json
import subprocess
import sys
import tempfile

sys.dont_write_bytecode = True
import parse
from built import TOP, built, copied, round_time

NAME = "bench_lexing"
SIZE = 1_000_000
BELOW = (
    "ts_io ts_base ts_core ts_text spec_lexing spec_grammar spec_tables ts_fit ts_langfile ts_bits ts_items ts_table "
    "ts_automata ts_lexer indexmap thiserror"
)

PROGRAM = r"""//! Lexes a text some times. Its words are the number of rounds, a language file and a text; it prints
//! how many tokens a round found, and where they end.
#![tactic(auto)]
ghost use Rattle.std.specs.Prelude.{◌≤◌, length};
ghost use Rattle.ts_lexer.specs.Lexers.{IsLexerOf};

use std::alloc::{AllocError, Global};
use std::rt::{Env, Files};
use std::{env, io};
use ts_io::{Folder, Found, OsFolder};
use ts_items::collection;
use ts_langfile::read;
use ts_lexer::{Lexed, Lexer, Tokens};
use ts_table::{Table, resolve};
use ts_text::Text;

/// The most bytes that a file has: 64 MiB.
const MOST_BYTES: u64 = 67_108_864;

/// What a round found: how many tokens, and where they end.
#[derive(Clone, Copy, Default)]
struct Tally {
    tokens: u32,
    end: u32,
}

/// What stands at a place, in the state before anything was read.
fn sees(table: &Table, lexer: &mut Lexer, text: &Text, place: u32) -> Lexed
    requires made { IsLexerOf lexer.old table.now }
    requires within { place ≤ length text.now }
    ensures made { IsLexerOf lexer.new table.now }
{
    table.stands();
    lexer.lex(text, place, 0)
}

/// Lexes the text once.
fn lexed(table: &Table, lexer: &mut Lexer, text: &Text) -> Tally
    requires made { IsLexerOf lexer.old table.now }
    ensures made { IsLexerOf lexer.new table.now }
{
    let length = text.len();
    let mut tally = Tally::default();
    for _ in 0..length {
        let place = tally.end.min(length);
        let Lexed::Token { pad, size, .. } = sees(table, lexer, text, place) else {
            return tally;
        };
        tally.tokens = tally.tokens.saturating_add(1);
        tally.end = place.saturating_add(pad).saturating_add(size);
        if tally.end >= length {
            return tally;
        }
    }
    tally
}

/// Lexes the text so many times.
fn rounds(table: &Table, lexer: &mut Lexer, text: &Text, count: u32) -> Tally
    requires made { IsLexerOf lexer.old table.now }
{
    let mut tally = Tally::default();
    for _ in 0..count {
        tally = lexed(table, lexer, text);
    }
    tally
}

/// The table of a language file.
fn table_in(alloc: Global, bytes: &[u8]) -> Result<Option<Table>, AllocError> {
    if bytes.len() > MOST_BYTES as usize {
        return Ok(None);
    }
    let Ok(grammar) = read(alloc, bytes) else {
        return Ok(None);
    };
    let Ok(items) = collection(alloc, &grammar) else {
        return Ok(None);
    };
    Ok(resolve(alloc, grammar, &items).ok())
}

/// The tally of a language file and a text.
fn tally_of(
    alloc: Global,
    grammar: &[u8],
    text: &[u8],
    count: u32,
) -> Result<Option<Tally>, AllocError> {
    let Some(table) = table_in(alloc, grammar)? else {
        return Ok(None);
    };
    let automaton = ts_automata::build(alloc, table.grammar())?;
    let mut lexer = Lexer::new(alloc, automaton, &table)?;
    let Ok(text) = Text::from_bytes(alloc, text) else {
        return Ok(None);
    };
    Ok(Some(rounds(&table, &mut lexer, &text, count)))
}

/// The bytes of a file, and none where it cannot be read.
fn bytes_of<R: AllocGlobal + Files>(rt: &R, path: &str) -> Vec<u8> {
    let mut folder = OsFolder::new(rt);
    match folder.read(rt.alloc(), path, MOST_BYTES) {
        Ok(Found::Bytes(bytes)) => bytes,
        _ => Vec::new(rt.alloc()),
    }
}

fn main(rt: HostRuntime) -> io::Result<()> {
    let mut words = env::args(&rt)?.skip(1);
    let (Some(count), Some(grammar), Some(text)) = (words.next(), words.next(), words.next()) else {
        return Ok(());
    };
    let grammar = bytes_of(&rt, grammar.as_str());
    let text = bytes_of(&rt, text.as_str());
    let count = count.as_str().parse::<u32>().unwrap_or(0);
    if let Ok(Some(tally)) = tally_of(rt.alloc(), grammar.as_slice(), text.as_slice(), count) {
        println!(rt; "{} {}", tally.tokens, tally.end)?;
    }
    Ok(())
}
"""

# What the program's loops keep, by function.
KEPT = """use Rattle.std.proofs.Common.{◌≡◌}
use Rattle.ts_lexer.specs.Lexers.{IsLexerOf}
use Rattle.bench_lexing.proofs.%s.Given as goal

abbrev pub invariant-loop : goal.invariant-loop
invariant-loop l = IsLexerOf l.lexer l.table
"""
PROOFS = {f"{name}/Invariants.antt": KEPT % name for name in ("lexed", "rounds")}

# The token whose automaton has too many sets. It begins with a character that no text here has.
MANY_SETS = {"type": "PATTERN", "value": "\u00a7(a|b)*a(a|b){20}"}


def tokens_in(rule, found):
    """The tokens of a rule tree, each once."""
    if rule["type"] in ("STRING", "PATTERN", "TOKEN", "IMMEDIATE_TOKEN"):
        if rule not in found:
            found.append(rule)
        return
    for part in [rule["content"]] if "content" in rule else rule.get("members", []):
        tokens_in(part, found)


def names_token(rule):
    """Whether a rule is one token, so that its name is the token's."""
    while rule["type"].startswith("PREC"):
        rule = rule["content"]
    return rule["type"] in ("PATTERN", "TOKEN", "IMMEDIATE_TOKEN")


def tokens_alone(grammar, more=()):
    """The grammar of all runs of a grammar's tokens."""
    named = {name: rule for name, rule in grammar["rules"].items() if names_token(rule)}
    extras = [extra["name"] for extra in grammar["extras"] if extra["type"] == "SYMBOL"]
    found = []
    for name, rule in grammar["rules"].items():
        if name not in named:
            tokens_in(rule, found)
    members = [{"type": "SYMBOL", "name": name} for name in named if name not in extras] + found + list(more)
    document = {"type": "REPEAT1", "content": {"type": "CHOICE", "members": members}}
    rules = {"every_token": document, **named}
    kept = {key: grammar[key] for key in ("word", "extras") if grammar.get(key)}
    return {"name": "tokens", "rules": rules, **kept}


def of_words(count):
    """A grammar of so many tokens: an identifier and keywords."""
    words = [{"type": "STRING", "value": f"word{k}"} for k in range(count - 1)]
    identifier = {"type": "SYMBOL", "name": "identifier"}
    rules = {
        "every_token": {"type": "REPEAT1", "content": {"type": "CHOICE", "members": [identifier, *words]}},
        "identifier": {"type": "PATTERN", "value": "[a-z_][a-z_0-9]*"},
    }
    return {"name": "words", "rules": rules, "word": "identifier", "extras": [{"type": "PATTERN", "value": "\\s"}]}


def main():
    rounds = int(sys.argv[1]) if len(sys.argv) > 1 else 20
    compiler = sys.argv[2] if len(sys.argv) > 2 else f"{TOP}/crates/ts_cli/out/ts_cli"
    with tempfile.TemporaryDirectory() as folder:
        program = built(copied(folder, NAME, BELOW, PROGRAM, PROOFS))

        def measured(name, grammar, text, rounds):
            for file, said in (("grammar", json.dumps(grammar)), ("text", text)):
                with open(f"{folder}/{file}", "w", encoding="utf-8") as out:
                    out.write(said)
            with open(f"{folder}/language", "wb") as out:
                subprocess.run([compiler, "compile", f"{folder}/grammar"], check=True, stdout=out)
            printed, micros = round_time(program, rounds, f"{folder}/language", f"{folder}/text")
            count, place = [int(word) for word in printed.split()]
            if place != len(text.encode()):
                print(f"{name}: stopped at {place} of {len(text)} bytes")
            print(f"{name}: {count:,} tokens, {len(text) / micros:.2f} MB/s, {1000 * micros / count:.0f} ns a token")

        for name, of, make in parse.TEXTS:
            with open(f"{TOP}/examples/{of}.json", encoding="utf-8") as file:
                grammar = json.load(file)
            text = make(SIZE).rstrip()
            measured(f"{name}, tables", tokens_alone(grammar), text, rounds)
            measured(f"{name}, nodes", tokens_alone(grammar, [MANY_SETS]), text, rounds)
        words = " ".join(f"word{k * 7919 % 1000}" for k in range(SIZE // 8))
        for count in (4, 40, 400):
            measured(f"{count} tokens, tables", of_words(count), words, rounds)


if __name__ == "__main__":
    main()
