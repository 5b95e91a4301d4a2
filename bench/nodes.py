#!/usr/bin/env python3
"""Reckons the memory of the parse tree of a JSON text with `ts_node`, and runs a program that builds such trees.

    python3 bench/nodes.py [RECORDS]

The text is an array of records of five members each, as
`{"id": 1042, "name": "some item", "tags": ["a", "b"], "price": 1.50, "ok": true}`; 12,700 of them (as many as if no
number is given) are 1 MiB. Its tree has the shape that the usual grammar of JSON gives: a hidden node for each value, a
string of three tokens, a repetition for what follows the first member or item.

The bytes are reckoned from the layout of the structs and the chunks of the allocator. The program then

- builds that tree and drops it, and tells what memory the process takes for each node, by the difference between half
  as many records and all,
- walks it with a cursor, and compares it with an equal one,
- builds the deepest trees with as many tokens as a text of 1 MiB has room for, and drops them, and tells the least
  stack with which that goes well: one with all tokens in the deepest repetition, one with 500 repetitions and nodes of
  a rule by turns in one another, and one with 999 repetitions in one another. The inner node of each stands where the
  tree of the run is highest, and the runs of the last two are copied where they are lengthened, since such trees are
  higher than those that are lengthened in place,
- lengthens repetitions that have another owner by one token, and changes one of their children, where repetitions of
  1,000 and of 1,000,000 tokens lie in as much memory.
"""
import sys
import tempfile

sys.dont_write_bytecode = True
from built import built, copied, run, trusting

NAME = "bench_nodes"
BELOW = "ts_base ts_core ts_text spec_grammar spec_trees ts_node ts_order ts_cursor"

# Bytes of each struct; its fields lie in their order, an enum has a tag of its own.
NODE = 24
SUMMARY = 40
SHORT_SUMMARY = 24
LIST = 24
REPETITION = 48
RUN = 144
ELEMENT = 20
# The count of owners of what is shared.
OWNERS = 8
# The most elements and children together in a leaf of a run.
LEAF = 128
# The most bytes of a text.
TEXT = 2**20

PROGRAM = r"""//! Memory and times of nodes: what is to be done and how many records go in as arguments.
#![tactic(auto)]

use std::alloc::{AllocError, Global};
use std::time::Instant;
use std::{env, io};
use ts_base::{List, Str};
use ts_core::{Assoc, FlatGrammar, FlatRule, Kind, Prec, Production, Re, Step, Symbol, TokenDef};
use ts_cursor::Cursor;
use ts_node::{Node, Productions, reduce, remake};
use ts_order::better;

unsafe extern "C" {
    safe fn trust()
        ensures { ⊥ };
}

fn token(alloc: Global, name: &str) -> Result<TokenDef, AllocError> {
    trust();
    Ok(TokenDef {
        name: Str::from_text(alloc, name)?,
        kind: Kind::Named,
        re: Re::Empty,
        prec: 0,
        literal: false,
        immediate: false,
        keyword: false,
    })
}

/// A production of symbols, each two digits.
fn production(alloc: Global, symbols: &str) -> Result<Production, AllocError> {
    trust();
    let mut steps = List::new(alloc);
    for word in symbols.split(' ') {
        let Ok(symbol) = word.parse::<u16>() else {
            continue;
        };
        steps.push(Step {
            symbol: Symbol(symbol),
            prec: Prec::Absent,
            assoc: Assoc::Absent,
            alias: None,
            field: None,
        })?;
    }
    Ok(Production { dynamic: 0, steps })
}

/// A rule by its name, its owner and its productions, parted by bars. A name `_` is hidden.
fn rule(alloc: Global, name: &str, owner: u16, rows: &str) -> Result<FlatRule, AllocError> {
    trust();
    let mut productions = List::new(alloc);
    for row in rows.split('|') {
        productions.push(production(alloc, row)?)?;
    }
    let kind = if name == "_" { Kind::Hidden } else { Kind::Named };
    Ok(FlatRule {
        name: Str::from_text(alloc, name)?,
        kind,
        owner: Symbol(owner),
        productions,
    })
}

fn rules(alloc: Global) -> Result<List<FlatRule>, AllocError> {
    trust();
    let mut rules = List::new(alloc);
    rules.push(rule(alloc, "document", 11, "12")?)?;
    rules.push(rule(alloc, "_", 12, "13|15|16|9|10")?)?;
    rules.push(rule(alloc, "object", 13, "1 2|1 14 2|1 14 17 2")?)?;
    rules.push(rule(alloc, "pair", 14, "16 5 12")?)?;
    rules.push(rule(alloc, "array", 15, "3 4|3 12 4|3 12 18 4")?)?;
    rules.push(rule(alloc, "string", 16, "7 7|7 8 7")?)?;
    rules.push(rule(alloc, "_", 13, "6 14|17 6 14")?)?;
    rules.push(rule(alloc, "_", 15, "6 12|18 6 12")?)?;
    rules.push(rule(alloc, "_", 11, "9|19 9")?)?;
    Ok(rules)
}

/// The rules, and behind them one of a repetition whose elements are words, and rules like it in
/// brackets; then repetitions whose elements are words, and the next of the repetitions in brackets.
fn nesting_rules(alloc: Global) -> Result<List<FlatRule>, AllocError> {
    trust();
    let mut rules = rules(alloc)?;
    rules.push(rule(alloc, "nest", 20, "21")?)?;
    rules.push(rule(alloc, "_", 20, "9|3 20 4|21 9|21 3 20 4")?)?;
    for k in 0..REPETITIONS {
        let (own, mut next) = (22 + k, 23 + k);
        if k + 1 == REPETITIONS {
            next = 19;
        }
        let rows = format!(in alloc; "9|3 {next} 4|{own} 9|{own} 3 {next} 4")?;
        rules.push(rule(alloc, "_", 11, rows.as_str())?)?;
    }
    Ok(rules)
}

fn grammar(alloc: Global, rules: List<FlatRule>) -> Result<FlatGrammar, AllocError> {
    trust();
    let mut tokens = List::new(alloc);
    for name in "{ } [ ] : , \" content number word".split(' ') {
        tokens.push(token(alloc, name)?)?;
    }
    Ok(FlatGrammar {
        name: Str::from_text(alloc, "json")?,
        tokens,
        rules,
        separators: List::new(alloc),
        extras: List::new(alloc),
        word: None,
        fields: List::new(alloc),
        precs: List::new(alloc),
        conflicts: List::new(alloc),
        precedences: List::new(alloc),
        supertypes: List::new(alloc),
    })
}

/// How many repetitions have one another among their elements; the last one has only words.
const REPETITIONS: u16 = 998;

/// So many words before a node in brackets, and so many after it.
#[derive(Clone, Copy)]
struct Words {
    before: u32,
    after: u32,
}

/// What builds nodes: the productions and the allocator.
#[derive(Drop)]
struct Maker {
    productions: Productions,
}

fn leaf(token: u16, pad: u32, size: u32) -> Node {
    trust();
    Node::leaf(Symbol(token), pad, size, pad + size + 1, None)
}

impl Maker {
    /// The node of a production over these children.
    fn node(&self, alloc: Global, number: u32, children: List<Node>) -> Result<Node, AllocError> {
        trust();
        let mut extent = 1u32;
        for child in children.as_slice() {
            extent += child.pad() + child.size();
        }
        let mut children = children.into_vec();
        reduce(alloc, &self.productions, number, &mut children, extent + 1, None)
    }

    fn one(&self, alloc: Global, number: u32, child: Node) -> Result<Node, AllocError> {
        trust();
        let mut children = List::with_capacity(alloc, 1)?;
        children.push(child)?;
        self.node(alloc, number, children)
    }

    fn two(&self, alloc: Global, number: u32, a: Node, b: Node) -> Result<Node, AllocError> {
        trust();
        let mut children = List::with_capacity(alloc, 2)?;
        children.push(a)?;
        children.push(b)?;
        self.node(alloc, number, children)
    }

    fn three(
        &self,
        alloc: Global,
        number: u32,
        a: Node,
        b: Node,
        c: Node,
    ) -> Result<Node, AllocError> {
        trust();
        let mut children = List::with_capacity(alloc, 3)?;
        children.push(a)?;
        children.push(b)?;
        children.push(c)?;
        self.node(alloc, number, children)
    }

    fn four(
        &self,
        alloc: Global,
        number: u32,
        a: Node,
        b: Node,
        c: Node,
        d: Node,
    ) -> Result<Node, AllocError> {
        trust();
        let mut children = List::with_capacity(alloc, 4)?;
        children.push(a)?;
        children.push(b)?;
        children.push(c)?;
        children.push(d)?;
        self.node(alloc, number, children)
    }

    fn string(&self, alloc: Global, pad: u32, size: u32) -> Result<Node, AllocError> {
        trust();
        self.three(alloc, 14, leaf(7, pad, 1), leaf(8, 0, size), leaf(7, 0, 1))
    }

    fn string_value(&self, alloc: Global, pad: u32, size: u32) -> Result<Node, AllocError> {
        trust();
        let string = self.string(alloc, pad, size)?;
        self.one(alloc, 3, string)
    }

    /// A member with a key of this size.
    fn pair(&self, alloc: Global, pad: u32, key: u32, value: Node) -> Result<Node, AllocError> {
        trust();
        let key = self.string(alloc, pad, key)?;
        self.three(alloc, 9, key, leaf(5, 0, 1), value)
    }

    /// One more member: the first of a repetition where there is none yet.
    fn member(&self, alloc: Global, run: Option<Node>, pair: Node) -> Result<Node, AllocError> {
        trust();
        match run {
            None => self.two(alloc, 15, leaf(6, 0, 1), pair),
            Some(run) => self.three(alloc, 16, run, leaf(6, 0, 1), pair),
        }
    }

    /// The value `["a", "b"]`.
    fn tags(&self, alloc: Global) -> Result<Node, AllocError> {
        trust();
        let first = self.string_value(alloc, 0, 1)?;
        let second = self.string_value(alloc, 1, 1)?;
        let run = self.two(alloc, 17, leaf(6, 0, 1), second)?;
        let array = self.four(alloc, 12, leaf(3, 1, 1), first, run, leaf(4, 0, 1))?;
        self.one(alloc, 2, array)
    }

    /// The members after the first.
    fn members(&self, alloc: Global) -> Result<Node, AllocError> {
        trust();
        let name = self.string_value(alloc, 1, 9)?;
        let run = self.member(alloc, None, self.pair(alloc, 1, 4, name)?)?;
        let tags = self.tags(alloc)?;
        let run = self.member(alloc, Some(run), self.pair(alloc, 1, 4, tags)?)?;
        let price = self.one(alloc, 4, leaf(9, 1, 4))?;
        let run = self.member(alloc, Some(run), self.pair(alloc, 1, 5, price)?)?;
        let ok = self.one(alloc, 5, leaf(10, 1, 4))?;
        self.member(alloc, Some(run), self.pair(alloc, 1, 2, ok)?)
    }

    /// A record, as a value.
    fn record(&self, alloc: Global) -> Result<Node, AllocError> {
        trust();
        let id = self.one(alloc, 4, leaf(9, 1, 4))?;
        let first = self.pair(alloc, 0, 2, id)?;
        let members = self.members(alloc)?;
        let object = self.four(alloc, 8, leaf(1, 1, 1), first, members, leaf(2, 0, 1))?;
        self.one(alloc, 1, object)
    }

    /// So many records after the first.
    fn records(&self, alloc: Global, count: u32) -> Result<Node, AllocError> {
        trust();
        let mut run = self.two(alloc, 17, leaf(6, 0, 1), self.record(alloc)?)?;
        for _ in 1..count {
            run = self.three(alloc, 18, run, leaf(6, 0, 1), self.record(alloc)?)?;
        }
        Ok(run)
    }

    /// The whole tree.
    fn document(&self, alloc: Global, count: u32) -> Result<Node, AllocError> {
        trust();
        let first = self.record(alloc)?;
        let records = self.records(alloc, count)?;
        let array = self.four(alloc, 12, leaf(3, 0, 1), first, records, leaf(4, 0, 1))?;
        let value = self.one(alloc, 2, array)?;
        self.one(alloc, 0, value)
    }

    /// A repetition of so many tokens of one byte.
    fn tokens(&self, alloc: Global, count: u32) -> Result<Node, AllocError> {
        trust();
        let mut run = self.one(alloc, 19, leaf(9, 0, 1))?;
        for _ in 1..count {
            run = self.two(alloc, 20, run, leaf(9, 0, 1))?;
        }
        Ok(run)
    }

    /// A node of depth 1,000: 499 arrays, each with its value's node, the deepest over so many
    /// tokens.
    fn deep(&self, alloc: Global, count: u32) -> Result<Node, AllocError> {
        trust();
        let mut value = self.tokens(alloc, count)?;
        for _ in 0..499u32 {
            let array = self.three(alloc, 11, leaf(3, 0, 1), value, leaf(4, 0, 1))?;
            value = self.one(alloc, 2, array)?;
        }
        Ok(value)
    }

    /// A repetition with one more word, by the production of this number. The repetition so far has
    /// another owner, so that its last leaf is copied and not lengthened in place.
    fn word(&self, alloc: Global, number: u32, run: Node) -> Result<Node, AllocError> {
        trust();
        let owner = run.try_clone()?;
        let longer = self.two(alloc, number, run, leaf(9, 0, 1))?;
        drop(owner);
        Ok(longer)
    }

    /// A repetition of words and a node in brackets, where the repetition's productions begin with
    /// this number.
    fn around(&self, alloc: Global, number: u32, inner: Node, words: Words) -> Result<Node, AllocError> {
        trust();
        let (open, close) = (leaf(3, 0, 1), leaf(4, 0, 1));
        let mut run = if words.before == 0 {
            self.three(alloc, number + 1, open, inner, close)?
        } else {
            let mut first = self.one(alloc, number, leaf(9, 0, 1))?;
            for _ in 1..words.before {
                first = self.word(alloc, number + 2, first)?;
            }
            let owner = first.try_clone()?;
            let run = self.four(alloc, number + 3, first, open, inner, close)?;
            drop(owner);
            run
        };
        for _ in 0..words.after {
            run = self.word(alloc, number + 2, run)?;
        }
        Ok(run)
    }

    /// A node of depth 1,000: nodes of a rule, each over a repetition with the next such node among
    /// these words.
    fn nested(&self, alloc: Global, words: Words) -> Result<Node, AllocError> {
        trust();
        let mut value = self.tokens(alloc, 1)?;
        for _ in 0..499u32 {
            let inner = self.one(alloc, 21, value)?;
            value = self.around(alloc, 22, inner, words)?;
        }
        Ok(value)
    }

    /// A node of depth 1,000: repetitions, each with the next one among its words. So many of the
    /// deepest have many words, and the others few.
    fn chain(&self, alloc: Global, deepest: u32, many: Words, few: Words) -> Result<Node, AllocError> {
        trust();
        let mut value = self.tokens(alloc, 1)?;
        for k in 0..REPETITIONS {
            let number = 26 + 4 * (REPETITIONS - 1 - k) as u32;
            let words = if (k as u32) < deepest { many } else { few };
            value = self.around(alloc, number, value, words)?;
        }
        Ok(value)
    }

    /// So many repetitions of so many tokens.
    fn several(&self, alloc: Global, lists: u32, count: u32) -> Result<Vec<Node>, AllocError> {
        trust();
        let mut all = Vec::new(alloc);
        for _ in 0..lists {
            all.push(self.tokens(alloc, count)?)?;
        }
        Ok(all)
    }

    /// Lengthens one repetition after the other by one token, and leaves them as they were.
    fn lengthen(&self, alloc: Global, all: &[Node], rounds: u32) -> Result<u32, AllocError> {
        trust();
        let mut k = 0usize;
        let mut sum = 0u32;
        for _ in 0..rounds {
            let longer = self.two(alloc, 20, all[k].try_clone()?, leaf(9, 0, 1))?;
            sum = sum.wrapping_add(longer.size());
            k = (k + 7_919) % all.len();
        }
        Ok(sum)
    }

    /// Moves one child after the other of the repetitions behind one more byte, and leaves them as
    /// they were.
    fn change(&self, alloc: Global, all: &[Node], count: u32, rounds: u32) -> Result<u32, AllocError> {
        trust();
        let mut k = 0usize;
        let mut at = 0u32;
        let mut sum = 0u32;
        for _ in 0..rounds {
            let moved = remake(alloc, &all[k], 0, all[k].size() + 1, &[(at, leaf(9, 1, 1))], &[])?;
            sum = sum.wrapping_add(moved.size());
            k = (k + 7_919) % all.len();
            at = at.wrapping_add(104_729) % count;
        }
        Ok(sum)
    }
}

fn micros(rt: &HostRuntime, start: &Instant) -> io::Result<u64> {
    trust();
    Ok(start.elapsed(rt)?.as_micros().min(1_000_000_000) as u64)
}

/// How many nodes a cursor passes on its way over all of them, in preorder.
fn walked(cursor: &mut Cursor) -> u32 {
    trust();
    let mut count = 1u32;
    for _ in 0..u32::MAX {
        let mut goes = cursor.first_child() || cursor.next_sibling();
        if !goes {
            for _ in 0..2_000u32 {
                if !cursor.parent() {
                    return count;
                }
                if cursor.next_sibling() {
                    goes = true;
                    break;
                }
            }
        }
        count += 1;
    }
    count
}

/// Builds the tree of so many records and drops it.
fn held(rt: &HostRuntime, maker: &Maker, count: u32) -> io::Result<()> {
    trust();
    let alloc = rt.alloc();
    let start = Instant::now(rt)?;
    let root = maker.document(alloc, count)?;
    let built = micros(rt, &start)?;
    let bytes = root.size();
    let start = Instant::now(rt)?;
    drop(root);
    let dropped = micros(rt, &start)?;
    println!(rt; "bytes {bytes} built {built} us, dropped {dropped} us")?;
    Ok(())
}

/// Builds the tree of so many records, and walks it with a cursor.
fn measured(rt: &HostRuntime, maker: &Maker, flat: &FlatGrammar, count: u32) -> io::Result<()> {
    trust();
    let alloc = rt.alloc();
    let root = maker.document(alloc, count)?;
    let start = Instant::now(rt)?;
    let mut cursor = Cursor::new(alloc, flat, &root)?;
    let made = micros(rt, &start)?;
    let start = Instant::now(rt)?;
    let visible = walked(&mut cursor);
    let walked = micros(rt, &start)?;
    println!(rt; "visible {visible}, cursor {made} us, its walk {walked} us")?;
    Ok(())
}

/// Compares two trees of so many records, which are equal, so that both are read whole.
fn compared(rt: &HostRuntime, maker: &Maker, count: u32) -> io::Result<()> {
    trust();
    let alloc = rt.alloc();
    let first = maker.document(alloc, count)?;
    let second = maker.document(alloc, count)?;
    let start = Instant::now(rt)?;
    let answer = better(&first, &second);
    let spent = micros(rt, &start)?;
    println!(rt; "compared in {spent} us, better: {answer}")?;
    Ok(())
}

/// Drops a tree.
fn dropped(rt: &HostRuntime, root: Node) -> io::Result<()> {
    trust();
    let (bytes, depth) = (root.size(), root.depth());
    let start = Instant::now(rt)?;
    drop(root);
    let dropped = micros(rt, &start)?;
    println!(rt; "bytes {bytes}, depth {depth}, dropped {dropped} us")?;
    Ok(())
}

/// Lengthens and changes repetitions that have a million elements together.
fn lengthened(rt: &HostRuntime, maker: &Maker, count: u32, rounds: u32) -> io::Result<()> {
    trust();
    let alloc = rt.alloc();
    let all = maker.several(alloc, 1_000_000 / count, count)?;
    let start = Instant::now(rt)?;
    let first = maker.lengthen(alloc, &all, rounds)?;
    let longer = micros(rt, &start)?;
    let start = Instant::now(rt)?;
    let second = maker.change(alloc, &all, count, rounds)?;
    let changed = micros(rt, &start)?;
    println!(rt; "{longer} {changed} {first} {second}")?;
    Ok(())
}

fn argument(rt: &HostRuntime, place: usize) -> io::Result<u32> {
    trust();
    for (k, word) in env::args(rt)?.enumerate() {
        if k == place {
            if let Ok(n) = word.as_str().parse::<u32>() {
                return Ok(n);
            }
        }
    }
    Ok(1)
}

fn main(rt: HostRuntime) -> io::Result<()> {
    trust();
    let alloc = rt.alloc();
    let todo = argument(&rt, 1)?;
    let count = argument(&rt, 2)?;
    let more = argument(&rt, 3)?;
    let words = Words { before: count, after: more };
    let rules = if todo < 4 || todo == 7 { rules(alloc)? } else { nesting_rules(alloc)? };
    let flat = grammar(alloc, rules)?;
    let maker = Maker {
        productions: Productions::new(alloc, &flat)?,
    };
    match todo {
        1 => held(&rt, &maker, count)?,
        2 => measured(&rt, &maker, &flat, count)?,
        3 => dropped(&rt, maker.deep(alloc, count)?)?,
        4 => dropped(&rt, maker.nested(alloc, words)?)?,
        5 => {
            let few = Words { before: argument(&rt, 4)?, after: argument(&rt, 5)? };
            dropped(&rt, maker.chain(alloc, argument(&rt, 6)?, words, few)?)?;
        }
        7 => compared(&rt, &maker, count)?,
        _ => lengthened(&rt, &maker, count, more)?,
    }
    Ok(())
}
"""


def chunk(size):
    """What the allocator takes for so many bytes."""
    return max(32, (size + 8 + 15) // 16 * 16)


def rule(children):
    """The bytes of a rule's node with so many children: one to four lie in its body, others in a list.

    Its numbers are small, so that it has the short form of its summary beside one to four children.
    """
    if 1 <= children <= 4:
        return chunk(OWNERS + SHORT_SUMMARY + NODE * children)
    return chunk(OWNERS + SUMMARY + LIST) + chunk(NODE * children)


def leaf_of(elements, children):
    """The bytes of a run of one leaf."""
    return chunk(OWNERS + RUN) + chunk(ELEMENT * elements) + chunk(NODE * children)


def repetition(elements, children):
    """The bytes of a repetition that fits one leaf: one element of one or two children lies in its body.

    Its numbers are small, so that it has the short form of its summary there. The first child lies behind the element,
    where a multiple of 8 bytes is full.
    """
    if elements == 1 and 1 <= children <= 2:
        return chunk(OWNERS + (SHORT_SUMMARY + ELEMENT + 7) // 8 * 8 + NODE * children)
    return chunk(OWNERS + REPETITION) + leaf_of(elements, children)


def reckoned():
    """The bytes of one record and of its place in the array's repetition, and its visible nodes."""
    string, pair, value = rule(3), rule(3), rule(1)
    tags = rule(4) + repetition(1, 2)
    members = rule(4) + repetition(4, 8)
    record = members + 5 * pair + 8 * string + 8 * value + tags
    many = LEAF // 3
    place = (leaf_of(many, 2 * many) + chunk(OWNERS + RUN)) / many
    tokens = 8 * 3 + 5 + 4 + 2 + 3 + 3 + 1
    return record + place, 1 + 5 + 8 + 1 + tokens


def words(height):
    """The fewest words before and after a node in brackets with so many levels above it in the run's tree."""
    if height == 1:
        return 0, 15
    if height == 2:
        return 15, LEAF // 2 - 1
    after = LEAF // 2 + 15
    return LEAF // 2 * 2 ** (height - 2) + 14 - after, after


def shapes():
    """The deepest trees with the bytes of a text of 1 MiB, and the words that make each."""
    yield "all words in the deepest repetition", ("3", str(TEXT - 998))
    nested = "500 repetitions, each over a node of a rule over the next", 499
    for name, count in (nested, ("999 repetitions in one another", 998)):
        height = max(h for h in range(1, 20) if count * (sum(words(h)) + 2) < TEXT)
        few, many = words(height), words(height + 1)
        deepest = (TEXT - count * (sum(few) + 2) - 1) // (sum(many) - sum(few))
        if count < 998:
            yield name, ("4", *map(str, few))
        else:
            yield name, ("5", *map(str, (*many, *few, deepest)))


def least_stack(program, words):
    """The least stack, in KiB, with which the program builds the tree and drops it, and what it tells."""
    low, high, told = 16, 8192, ""
    while high - low > 4:
        middle = (low + high) // 2
        text, _, status = run(program, *words, stack=middle * 1024)
        if status == 0:
            high, told = middle, text
        else:
            low = middle
    return high, told


def main():
    records = int(sys.argv[1]) if len(sys.argv) > 1 else 12_700
    size, visible = reckoned()
    print(f"reckoned: {size:.0f} bytes a record of {visible} visible nodes, {size / visible:.1f} bytes each")
    with tempfile.TemporaryDirectory() as folder:
        program = built(trusting(copied(folder, NAME, BELOW, PROGRAM)))
        _, less, _ = run(program, "1", str(records // 2))
        told, most, _ = run(program, "1", str(records))
        print(f"{told}; {(most - less) / (records - records // 2) / visible:.1f} bytes a visible node at the most")
        told, walked, _ = run(program, "2", str(records))
        print(f"{told}; {(walked - most) / records / visible:.1f} bytes of the cursor a visible node")
        print(run(program, "7", str(records))[0])
        for name, words in shapes():
            stack, told = least_stack(program, words)
            print(f"{name}: {stack} KiB of stack; {told}")
        rounds = 100_000
        for count in (1_000, 1_000_000):
            longer, changed, *_ = map(int, run(program, "6", str(count), str(rounds))[0].split())
            longer, changed = (1000 * time / rounds for time in (longer, changed))
            print(f"a repetition of {count}: lengthened in {longer:.0f} ns, a child changed in {changed:.0f} ns")


if __name__ == "__main__":
    main()
