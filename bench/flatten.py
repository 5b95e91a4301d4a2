#!/usr/bin/env python3
"""Times of reading a grammar file, of its normal form and of its tables, beside Python's json.loads, and of patterns.

    python3 bench/flatten.py [ROUNDS]

Builds a small proved program over `ts_front` in a copy of the crates and runs it on the files of `bench/grammar.py`
with 250, 500, 1,000 and 2,000 rules, on wide ones, and on patterns with large sets or counts. Each part is measured
with those before it, and told less them: the JSON value, the grammar, its normal form. The tables, which take time by
states and symbols together, are measured with 62, 125 and 250 rules. ROUNDS is 10 if none is given. What is short is
made more often. Times are processor time of the rounds, less that of a run without any.
"""
import sys
import tempfile

sys.dont_write_bytecode = True
import grammar
from built import built, copied, loads, round_time

NAME = "bench_flatten"
BELOW = (
    "ts_io ts_base ts_core ts_text spec_lexing spec_grammar spec_tables ts_ojson ts_grammar_json ts_pattern ts_rules "
    "ts_fit ts_numbering ts_entries ts_productions ts_automata ts_tokens ts_flat ts_form ts_normalise ts_langfile "
    "ts_bits ts_items ts_table spec_output ts_front serde_json indexmap thiserror"
)

PROGRAM = r"""//! Makes a part of what a grammar file comes to, some times. Its words are the part, the number of
//! rounds and the file, which is a pattern alone for the parts that read one; it prints what the last
//! round made, as a number.
#![tactic(auto)]
ghost use Rattle.std.specs.Prelude.{◌<◌, ◌^◌, length};

use std::alloc::Global;
use std::rt::{Env, Files};
use std::{env, io, str};
use ts_front::{read_grammar, table_in};
use ts_io::{Folder, Found, OsFolder};

/// The most bytes that a file has: 4 MiB.
const MOST_BYTES: usize = 4_194_304;

/// What is made of a file.
#[derive(Clone, Copy)]
enum Part {
    Json,
    Grammar,
    Form,
    Table,
    Pattern { ignore_case: bool },
}

/// The part that a word names.
fn part_of(word: &str) -> Part {
    match word {
        "json" => Part::Json,
        "grammar" => Part::Grammar,
        "form" => Part::Form,
        "table" => Part::Table,
        _ => Part::Pattern {
            ignore_case: word == "ignoring",
        },
    }
}

/// How many rules the grammar of a file has, and 0 where it has none.
fn rules_in(alloc: Global, bytes: &[u8]) -> usize
    requires { length bytes.now < 2 ^ 32 }
{
    let Ok(value) = ts_ojson::read(alloc, bytes) else {
        return 0;
    };
    match ts_grammar_json::grammar(alloc, &value) {
        Ok(grammar) => grammar.rules.len(),
        Err(_) => 0,
    }
}

/// 1 where the file is a pattern that is read, else 0.
fn patterns_in(alloc: Global, bytes: &[u8], ignore_case: bool) -> usize
    requires { length bytes.now < 2 ^ 32 }
{
    match str::from_utf8(bytes) {
        Ok(source) => usize::from(ts_pattern::pattern(alloc, source, ignore_case).is_ok()),
        Err(_) => 0,
    }
}

/// What the part comes to: 1 for a value, or how many rules there are; 0 where it is refused.
fn made(alloc: Global, bytes: &[u8], part: Part) -> usize
    requires { length bytes.now < 2 ^ 32 }
{
    match part {
        Part::Json => usize::from(ts_ojson::read(alloc, bytes).is_ok()),
        Part::Grammar => rules_in(alloc, bytes),
        Part::Form => match read_grammar(alloc, bytes) {
            Ok(form) => form.rules.len(),
            Err(_) => 0,
        },
        Part::Table => match table_in(alloc, bytes) {
            Ok(table) => table.grammar().rules.len(),
            Err(_) => 0,
        },
        Part::Pattern { ignore_case } => patterns_in(alloc, bytes, ignore_case),
    }
}

/// Makes the part so many times.
fn rounds(alloc: Global, bytes: &[u8], part: Part, count: u32) -> usize {
    let mut last = 0;
    for _ in 0..count {
        if bytes.len() <= MOST_BYTES {
            last = made(alloc, bytes, part);
        }
    }
    last
}

/// The bytes of a file, and none where it cannot be read.
fn bytes_of<R: AllocGlobal + Files>(rt: &R, path: &str) -> Vec<u8> {
    let mut folder = OsFolder::new(rt);
    match folder.read(rt.alloc(), path, MOST_BYTES as u64) {
        Ok(Found::Bytes(bytes)) => bytes,
        _ => Vec::new(rt.alloc()),
    }
}

fn main(rt: HostRuntime) -> io::Result<()> {
    let mut words = env::args(&rt)?.skip(1);
    let (Some(count), Some(part), Some(path)) = (words.next(), words.next(), words.next()) else {
        return Ok(());
    };
    let count = count.as_str().parse::<u32>().unwrap_or(0);
    let bytes = bytes_of(&rt, path.as_str());
    let last = rounds(rt.alloc(), bytes.as_slice(), part_of(part.as_str()), count);
    println!(rt; "{last}")?;
    Ok(())
}
"""

PATTERNS = (("ignoring", "[a-z]"), ("pattern", r"\p{L}"), ("pattern", r"\P{L}"), ("pattern", ".{0,8192}"))
MORE_PATTERNS = (("pattern", ".{0,8193}"), ("pattern", "((a{100}){100}){100}"), ("ignoring", r"[\p{L}\d_]{1,64}"))


def main():
    rounds = int(sys.argv[1]) if len(sys.argv) > 1 else 10
    with tempfile.TemporaryDirectory() as folder:
        program = built(copied(folder, NAME, BELOW, PROGRAM))

        def done(part, text, rounds=rounds):
            """What the program prints, and the processor time of a round in microseconds."""
            path = f"{folder}/input"
            with open(path, "w", encoding="utf-8") as file:
                file.write(text)
            printed, micros = round_time(program, rounds, part, path)
            return int(printed), micros

        def measured(name, text, rounds=rounds):
            json_read = done("json", text, rounds)[1]
            read = done("grammar", text, rounds)[1]
            count, form = done("form", text, rounds)
            python = loads(text, rounds)
            print(
                f"{name}, {len(text):,} bytes: JSON {json_read:.0f} us, grammar {read - json_read:.0f} us, "
                f"normal form {form - read:.0f} us, in all {form:.0f} us; json.loads {python:.0f} us, "
                f"{form / python:.2f} times; {count or 'refused: no'} rules and repetitions"
            )

        for rules in (250, 500, 1000, 2000):
            measured(f"{rules} rules", grammar.text(rules))
        for rules in (62, 125, 250):
            text = grammar.text(rules)
            form = done("form", text)[1]
            print(f"{rules} rules: tables {(done('table', text)[1] - form) / 1000:.0f} ms")
        for tokens in (2000, 4000, 8000, 16000):
            measured(f"a choice of {tokens} tokens", grammar.wide(tokens))
        for branches in (31, 63, 127, 255):
            measured(f"{branches * branches} alternatives", grammar.joined(2, branches), 10 * rounds)
        measured("a sequence of forty choices of two", grammar.joined(40, 2), 100 * rounds)
        for part, source in PATTERNS + MORE_PATTERNS:
            right, micros = done(part, source, 200 * rounds)
            print(f"{part} {source}: {micros:.0f} us, {'read' if right else 'refused'}")


if __name__ == "__main__":
    main()
