#!/usr/bin/env python3
"""Builds a small program over `ts_seq` in a copy of the crates, runs it, and prints its times.

    python3 bench/seq.py [ROUNDS]

Each round (100,000 if no number is given) is one split and one join of the two parts. They are measured in three ways:

- taken in turn: as many lists as have a million items together, so that lists of 10, of 1,000 and of 1,000,000 all lie
  in as much memory. The parts are joined the other way round and take the list's place. This compares the calls.
- near: one list, split at random among 1,000 places in its middle, and left as it was. What a round reads stays in the
  processor's caches, whatever the length.
- alone: one list, split at random places, and turned round. A short list then lies in the caches, and a long one does
  not, so this compares the memory too.

The program also tells how long it takes to push all items and to read each by its place.
"""
import sys
import tempfile

sys.dont_write_bytecode = True
from built import built, copied, run, trusting

NAME = "bench_seq"
ALL = 1_000_000

PROGRAM = r"""//! Times of a sequence's calls: numbers of items, lists, places and rounds go in as arguments.
#![tactic(auto)]

use std::alloc::{AllocError, Global};
use std::time::Instant;
use std::{env, io};
use ts_base::Shared;
use ts_seq::Seq;

unsafe extern "C" {
    safe fn trust()
        ensures { ⊥ };
}

fn made(alloc: Global, count: u32) -> Result<Seq<u32>, AllocError> {
    trust();
    let mut seq: Seq<u32> = Seq::empty();
    for n in 0..count {
        seq = seq.push(alloc, Shared::new(alloc, n)?)?;
    }
    Ok(seq)
}

fn several(alloc: Global, lists: u32, count: u32) -> Result<Vec<Seq<u32>>, AllocError> {
    trust();
    let mut all = Vec::new(alloc);
    for _ in 0..lists {
        all.push(made(alloc, count)?)?;
    }
    Ok(all)
}

fn turned(alloc: Global, seq: &Seq<u32>, at: usize) -> Result<Seq<u32>, AllocError> {
    trust();
    let (low, high) = seq.split(alloc, at)?;
    high.join(alloc, &low)
}

/// Splits one list after the other at a random one of the places, and joins the parts.
fn turns(
    alloc: Global,
    all: &mut Vec<Seq<u32>>,
    first: usize,
    places: usize,
    rounds: u32,
    keep: bool,
) -> Result<(), AllocError> {
    trust();
    let mut random = 12_345usize;
    let mut k = 0usize;
    for _ in 0..rounds {
        random = random
            .wrapping_mul(6_364_136_223_846_793_005)
            .wrapping_add(1_442_695_040_888_963_407);
        let seq = turned(alloc, &all[k], first + (random >> 33) % places)?;
        if !keep {
            all[k] = seq;
        }
        k = (k + 7_919) % all.len();
    }
    Ok(())
}

fn summed(seq: &Seq<u32>) -> u64 {
    trust();
    let mut sum = 0u64;
    for k in 0..seq.len() {
        sum = sum.wrapping_add(u64::from(*seq.get(k).get()));
    }
    sum
}

fn number(rt: &HostRuntime, place: usize) -> io::Result<u32> {
    trust();
    for (k, word) in env::args(rt)?.enumerate() {
        if k == place {
            if let Ok(n) = word.as_str().parse::<u32>() {
                return Ok(n);
            }
        }
    }
    Ok(0)
}

fn main(rt: HostRuntime) -> io::Result<()> {
    trust();
    let alloc = rt.alloc();
    let count = number(&rt, 1)?;
    let lists = number(&rt, 2)?;
    let places = number(&rt, 3)?;
    let rounds = number(&rt, 4)?;
    let keep = number(&rt, 5)? == 1;
    let start = Instant::now(&rt)?;
    let mut all = several(alloc, lists, count)?;
    let pushed = start.elapsed(&rt)?.as_micros();
    let start = Instant::now(&rt)?;
    let first = (count - places) / 2;
    turns(alloc, &mut all, first as usize, places as usize, rounds, keep)?;
    let joined = start.elapsed(&rt)?.as_micros();
    let start = Instant::now(&rt)?;
    let sum = summed(&all[0]);
    let read = start.elapsed(&rt)?.as_micros();
    println!(rt; "{joined} {pushed} {read} {sum}")?;
    Ok(())
}
"""


def timed(program, count, lists, places, rounds, keep):
    """Nanoseconds of a split and a join, the least of five runs, and what a run says of pushes and reads."""
    words = [str(n) for n in (count, lists, places, rounds, keep)]
    runs = [[int(n) for n in run(program, *words)[0].split()] for _ in range(5)]
    joined, pushed, read, _ = min(runs)
    return 1000 * joined / rounds, 1000 * pushed / (count * lists), 1000 * read / count


def main():
    rounds = int(sys.argv[1]) if len(sys.argv) > 1 else 100_000
    with tempfile.TemporaryDirectory() as folder:
        program = built(trusting(copied(folder, NAME, "ts_base ts_seq", PROGRAM)))
        for way, counts in (("in turn", (10, 1_000, ALL)), ("near", (1_000, ALL)), ("alone", (10, 1_000, ALL))):
            times = []
            for count in counts:
                lists = ALL // count if way == "in turn" else 1
                places = min(count, 1_000) if way == "near" else count
                joined, pushed, read = timed(program, count, lists, places, rounds, 1 if way == "near" else 0)
                times.append(joined)
                print(f"{way}, {count} items: {joined:.0f} ns a split and a join, push {pushed:.0f}, get {read:.0f}")
            print(f"{way}: a million against a thousand: {times[-1] / times[-2]:.2f}")


if __name__ == "__main__":
    main()
