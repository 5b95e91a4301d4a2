#!/usr/bin/env python3
"""What an edit costs in a program that keeps one version: its time, and bytes that are lexed for it.

    python3 bench/examined.py [EDITS [PROGRAM]]

Builds a small program over `ts_glr`, `ts_marks` and `ts_offer` in a copy of the crates, which proves nothing of its
own. PROGRAM is `crates/ts_cli/out/ts_cli` if none is given, which `./hemshale build` makes: it compiles the grammars.
The texts are those of `bench/parse.py`. Each of EDITS edits, 4,000 if none is given, puts a digit in the place of
another: in the middle of the text, or at places all over it; a fortieth of them where the text has choices. The tree is
marked and the new text parsed with what the tree offers; the old text and tree are then let go.

Printed for each text are the processor time of a whole parse, that of an edit, and what of it the text with the edit
in it takes: the least of three runs, less that of a run without edits, which tells little beside so many edits. And in
bytes an edit: what the lexer examined; and what was needed, which is what was examined for each leaf that lies in
nothing that was offered, and for the first leaf of each node that was. All that was offered counts as kept. Several
stacks may lex one place, and the end of the text is lexed too. Printed too is how many elements were offered an edit.
"""
import subprocess
import sys
import tempfile

sys.dont_write_bytecode = True
import parse
from built import TOP, built, copied, run, spent, trusting

NAME = "bench_examined"
BELOW = (
    "ts_io ts_base ts_core ts_text spec_lexing spec_grammar spec_tables spec_trees spec_runs spec_forced ts_langfile "
    "ts_items ts_table ts_automata ts_lexer ts_node ts_marks ts_offer ts_glr indexmap thiserror"
)

PROGRAM = r"""//! Edits a text some times. Its words are the number of edits, how much of each is done, how many
//! digits lie between two of them, a language file and a text; it prints what was examined and what
//! was needed, in bytes, and how many elements were offered.
#![tactic(auto)]
ghost use Rattle.std.specs.Prelude.{ℕ, None};

use std::alloc::{AllocError, Global};
use std::rt::{Env, Files};
use std::{env, io};
use ts_base::List;
use ts_core::Symbol;
use ts_glr::{Outcome, parse_with};
use ts_io::{Folder, Found, OsFolder};
use ts_items::collection;
use ts_langfile::read;
use ts_lexer::Lexer;
use ts_marks::mark;
use ts_node::Node;
use ts_offer::{Elements, Nothing, Offers, Old};
use ts_table::{Table, resolve};
use ts_text::{Edit, Part, Text, apply};

unsafe extern "C" {
    // Nothing of this program is to be proved, so this promises what nothing can keep.
    safe fn trust()
        ensures { ⊥ };
}

/// A node that was offered: where it begins and ends, and what was examined for its first leaf; or
/// elements that were, of which no leaf is lexed.
#[derive(Clone, Copy)]
struct Kept {
    place: u32,
    end: u32,
    first: u32,
}

/// Offers from an old tree, which notes what it offers.
#[derive(Drop)]
struct Noting<'t> {
    old: Old<'t>,
    kept: Vec<Kept>,
    elements: u64,
}

/// What was examined for the first leaf of a node.
fn first_extent(node: &Node) -> u32 {
    trust();
    let mut first = node;
    while first.children() > 0 {
        first = first.child(0);
    }
    first.extent()
}

/// Notes a node that is offered.
fn note(kept: &mut Vec<Kept>, place: u32, node: &Node) {
    trust();
    let end = place + node.pad() + node.size();
    let first = first_extent(node);
    let _ = kept.push(Kept { place, end, first });
}

/// Notes elements that are offered.
fn note_elements(kept: &mut Vec<Kept>, place: u32, elements: Elements<'_>) {
    trust();
    let node = elements.node;
    let end = place + node.offset(elements.to) - node.offset(elements.from);
    let _ = kept.push(Kept { place, end, first: 0 });
}

impl<'t> Offers<'t> for Noting<'t> {
    ghost least = { λ noting. 0 };

    ghost tree = { λ noting. None };

    ghost gives = { λ noting place state node. Unit {0} };

    ghost lends = { λ noting place state symbol elements. Unit {0} };

    fn at(&mut self, place: u32, state: u16) -> Option<&'t Node> {
        trust();
        let found = self.old.at(place, state);
        if let Some(node) = found {
            note(&mut self.kept, place, node);
        }
        found
    }

    fn elements_at(&mut self, place: u32, state: u16, symbol: Symbol) -> Option<Elements<'t>> {
        trust();
        let found = self.old.elements_at(place, state, symbol);
        if let Some(elements) = found {
            note_elements(&mut self.kept, place, elements);
            self.elements += u64::from(elements.to - elements.from);
        }
        found
    }
}

/// What was examined and what was needed, in bytes, and how many elements were offered.
#[derive(Clone, Copy, Default)]
struct Tally {
    examined: u64,
    needed: u64,
    elements: u64,
}

/// The first kept node, from one on, that ends behind a place.
fn first_behind(kept: &[Kept], from: usize, place: u32) -> usize {
    trust();
    for next in from..kept.len() {
        if kept[next].end > place {
            return next;
        }
    }
    kept.len()
}

/// What the leaves of a tree that lie in no kept node need, and the first leaf of each kept node.
fn needed(alloc: Global, root: &Node, kept: &[Kept]) -> Result<u64, AllocError> {
    trust();
    let mut sum: u64 = 0;
    let mut next: usize = 0;
    let mut open: Vec<(&Node, u32)> = Vec::new(alloc);
    open.push((root, 0))?;
    for _ in 0..=root.nodes() {
        let Some((node, place)) = open.pop() else {
            break;
        };
        next = first_behind(kept, next, place);
        if next < kept.len() && kept[next].place <= place {
            continue;
        }
        if node.children() == 0 {
            sum += u64::from(node.extent());
        } else {
            put_children(&mut open, node, place)?;
        }
    }
    for one in kept {
        sum += u64::from(one.first);
    }
    Ok(sum)
}

/// Puts the children of a node on a stack, the last one first.
fn put_children<'a>(
    open: &mut Vec<(&'a Node, u32)>,
    node: &'a Node,
    place: u32,
) -> Result<(), AllocError> {
    trust();
    let mut end = place + node.pad() + node.size();
    let count = node.children();
    for k in 0..count {
        let child = node.child(count - 1 - k);
        end -= child.pad() + child.size();
        open.push((child, end))?;
    }
    Ok(())
}

/// The places of digits behind a digit.
fn digits(alloc: Global, text: &Text) -> Result<Vec<u32>, AllocError> {
    trust();
    let mut found = Vec::new(alloc);
    for at in 1..text.len() {
        if text.byte(at).is_ascii_digit() && text.byte(at - 1).is_ascii_digit() {
            found.push(at)?;
        }
    }
    Ok(found)
}

/// The edit that puts a digit at a place.
fn edit_at(alloc: Global, place: u32, number: u32) -> Result<Option<Edit>, AllocError> {
    trust();
    let digit = [b'1' + (number % 9) as u8];
    let Ok(new) = Text::from_bytes(alloc, &digit) else {
        return Ok(None);
    };
    let mut parts = List::new(alloc);
    parts.push(Part { start: place, end: place + 1, new })?;
    Ok(Some(Edit { parts }))
}

/// The tree of a text, where it has one.
fn tree_in(outcome: Outcome) -> Option<Node> {
    trust();
    match outcome {
        Outcome::Accepted(root) => Some(root),
        _ => None,
    }
}

/// How much of an edit is done.
#[derive(Clone, Copy, PartialEq)]
enum Work {
    /// The text is parsed whole again, and nothing of its tree is offered.
    Whole,
    /// The text with the edit in it is made.
    Copied,
    /// It is parsed too, with what its marked tree offers.
    Parsed,
    /// What is offered and examined is noted too.
    Noted,
}

/// An edited tree, and what was offered and examined for it.
#[derive(Drop)]
struct Reparsed {
    root: Option<Node>,
    tally: Tally,
}

/// The tree of a text that came by an edit of a text with a tree.
fn parsed(
    alloc: Global,
    table: &Table,
    lexer: &mut Lexer,
    after: &Text,
    marked: &Node,
) -> Result<Reparsed, AllocError> {
    trust();
    let mut offers = Old::new(alloc, marked)?;
    let outcome = parse_with(alloc, table, lexer, after, &mut offers)?;
    Ok(Reparsed {
        root: tree_in(outcome),
        tally: Tally::default(),
    })
}

/// The same, with notes.
fn noted(
    alloc: Global,
    table: &Table,
    lexer: &mut Lexer,
    after: &Text,
    marked: &Node,
) -> Result<Reparsed, AllocError> {
    trust();
    let mut offers = Noting {
        old: Old::new(alloc, marked)?,
        kept: Vec::new(alloc),
        elements: 0,
    };
    let before = lexer.examined();
    let root = tree_in(parse_with(alloc, table, lexer, after, &mut offers)?);
    let needed = match &root {
        Some(root) => needed(alloc, root, offers.kept.as_slice())?,
        None => 0,
    };
    let tally = Tally {
        examined: lexer.examined() - before,
        needed,
        elements: offers.elements,
    };
    Ok(Reparsed { root, tally })
}

/// Edits the text so many times.
fn edited(
    alloc: Global,
    table: &Table,
    text: Text,
    count: u32,
    work: Work,
    step: u32,
) -> Result<Tally, AllocError> {
    trust();
    let automaton = ts_automata::build(alloc, table.grammar())?;
    let mut lexer = Lexer::new(alloc, automaton, table)?;
    let places = digits(alloc, &text)?;
    let mut tally = Tally::default();
    let mut text = text;
    let Some(mut tree) = tree_in(parse_with(alloc, table, &mut lexer, &text, &mut Nothing)?) else {
        return Ok(tally);
    };
    if work == Work::Whole {
        for _ in 0..count {
            let _again = tree_in(parse_with(alloc, table, &mut lexer, &text, &mut Nothing)?);
        }
        return Ok(tally);
    }
    for number in 0..count {
        let at = (places.len() / 2 + (number as usize) * (step as usize)) % places.len();
        let Some(edit) = edit_at(alloc, places[at], number)? else {
            return Ok(tally);
        };
        let Ok(after) = apply(alloc, &text, &edit) else {
            return Ok(tally);
        };
        if work != Work::Copied {
            let marked = mark(alloc, &tree, &edit)?;
            let Reparsed { root, tally: one } = if work == Work::Parsed {
                parsed(alloc, table, &mut lexer, &after, &marked)?
            } else {
                noted(alloc, table, &mut lexer, &after, &marked)?
            };
            let Some(root) = root else {
                return Ok(tally);
            };
            tally.examined += one.examined;
            tally.needed += one.needed;
            tally.elements += one.elements;
            tree = root;
        }
        text = after;
    }
    Ok(tally)
}

/// The table of a language file.
fn table_in(alloc: Global, bytes: &[u8]) -> Result<Option<Table>, AllocError> {
    trust();
    let Ok(grammar) = read(alloc, bytes) else {
        return Ok(None);
    };
    let Ok(items) = collection(alloc, &grammar) else {
        return Ok(None);
    };
    Ok(resolve(alloc, grammar, &items).ok())
}

/// The tally of a language file and a text.
fn tally_of(
    alloc: Global,
    grammar: &[u8],
    text: &[u8],
    count: u32,
    work: Work,
    step: u32,
) -> Result<Tally, AllocError> {
    trust();
    let Some(table) = table_in(alloc, grammar)? else {
        return Ok(Tally::default());
    };
    let Ok(text) = Text::from_bytes(alloc, text) else {
        return Ok(Tally::default());
    };
    edited(alloc, &table, text, count, work, step)
}

/// The bytes of a file, and none where it cannot be read.
fn bytes_of<R: AllocGlobal + Files>(rt: &R, path: &str) -> Vec<u8> {
    trust();
    let mut folder = OsFolder::new(rt);
    match folder.read(rt.alloc(), path, 67_108_864) {
        Ok(Found::Bytes(bytes)) => bytes,
        _ => Vec::new(rt.alloc()),
    }
}

fn main(rt: HostRuntime) -> io::Result<()> {
    trust();
    let mut words = env::args(&rt)?.skip(1);
    let (Some(count), Some(work), Some(step), Some(grammar), Some(text)) = (
        words.next(),
        words.next(),
        words.next(),
        words.next(),
        words.next(),
    ) else {
        return Ok(());
    };
    let work = match work.as_str() {
        "whole" => Work::Whole,
        "copied" => Work::Copied,
        "parsed" => Work::Parsed,
        _ => Work::Noted,
    };
    let grammar = bytes_of(&rt, grammar.as_str());
    let text = bytes_of(&rt, text.as_str());
    let count = count.as_str().parse::<u32>().unwrap_or(0);
    let step = step.as_str().parse::<u32>().unwrap_or(0);
    let (grammar, text) = (grammar.as_slice(), text.as_slice());
    if let Ok(tally) = tally_of(rt.alloc(), grammar, text, count, work, step) {
        println!(rt; "{} {} {}", tally.examined, tally.needed, tally.elements)?;
    }
    Ok(())
}
"""


# Name, grammar, text, bytes, digits between two edits, and how many times fewer edits are made.
CASES = [
    ("nested JSON, 10 KB", "json", parse.nested, 10_000, 0, 1),
    ("nested JSON, 1 MB", "json", parse.nested, 1_000_000, 0, 1),
    ("flat list, 10 KB", "json", parse.flat, 10_000, 0, 1),
    ("flat list, 1 MB", "json", parse.flat, 1_000_000, 0, 1),
    ("nested JSON, 200 KB", "json", parse.nested, 200_000, 7919, 1),
    ("flat list, 200 KB", "json", parse.flat, 200_000, 7919, 1),
    ("C-like text, 200 KB", "clike", parse.settled, 200_000, 7919, 1),
    ("C-like text with choices, 200 KB", "clike", parse.clike, 200_000, 7919, 40),
    ("Lisp, 200 KB", "lisp", parse.lisp, 200_000, 7919, 1),
]


def least(program, *words):
    """The processor time of the program, in microseconds: the least of three runs."""
    found = []
    for _ in range(3):
        start = spent()
        run(program, *words)
        found.append(spent() - start)
    return min(found)


def main():
    most = int(sys.argv[1]) if len(sys.argv) > 1 else 4_000
    compiler = sys.argv[2] if len(sys.argv) > 2 else f"{TOP}/crates/ts_cli/out/ts_cli"
    with tempfile.TemporaryDirectory() as folder:
        program = built(trusting(copied(folder, NAME, BELOW, PROGRAM)))
        for name, of, make, size, step, fewer in CASES:
            edits = max(1, most // fewer)
            with open(f"{folder}/text", "w", encoding="utf-8") as out:
                out.write(make(size).rstrip())
            open(f"{folder}/nothing", "w").close()
            with open(f"{folder}/language", "wb") as out:
                subprocess.run([compiler, "compile", f"{TOP}/examples/{of}.json"], check=True, stdout=out)

            def words(count, work, text="text"):
                return [str(count), work, str(step), f"{folder}/language", f"{folder}/{text}"]

            none = least(program, *words(0, "parsed"))
            whole = none - least(program, *words(0, "parsed", "nothing"))
            made = (least(program, *words(edits, "copied")) - none) / edits
            edit = (least(program, *words(edits, "parsed")) - none) / edits
            printed, _, _ = run(program, *words(edits, "noted"))
            examined, needed, elements = [int(word) / edits for word in printed.split()]
            print(
                f"{name}, {'all over' if step else 'in the middle'}: whole {whole:,.0f} us, an edit {edit:,.1f} us, "
                f"{made:,.1f} of them the text, {whole / edit:,.0f} times; {examined:,.1f} bytes lexed an edit, "
                f"{needed:,.1f} needed, {elements:,.1f} elements offered",
                flush=True,
            )


if __name__ == "__main__":
    main()
