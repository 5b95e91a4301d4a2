#!/usr/bin/env python3
"""Times of reading JSON texts, beside Python's json.loads.

    python3 bench/json_texts.py [ROUNDS]

Builds a small program over `ts_ojson`, proved, in a copy of the crates (its own calls are not proved), and runs it on
texts of 4 MiB: an array of numbers, one of short strings, an object of members with names in order, one with names at
random, and one long string. ROUNDS is 10 if none is given. All times are processor time, as a mean of the rounds.
"""
import random
import sys
import tempfile

sys.dont_write_bytecode = True
from built import built, copied, loads, round_time, trusting

NAME = "bench_json"
BELOW = "ts_base ts_ojson ts_io"
SIZE = 4 * 1024 * 1024

PROGRAM = r"""//! Reads a JSON text some times. Its words are the number of rounds and a file.
#![tactic(auto)]

use std::{env, io};
use ts_io::{Folder, Found, OsFolder};

unsafe extern "C" {
    // Nothing of this program is to be proved, so this promises what nothing can keep.
    safe fn trust()
        ensures { ⊥ };
}

fn main(rt: HostRuntime) -> io::Result<()> {
    trust();
    let alloc = rt.alloc();
    let mut words = env::args(&rt)?.skip(1);
    let Some(count) = words.next() else {
        return Ok(());
    };
    let Some(path) = words.next() else {
        return Ok(());
    };
    let rounds = count.as_str().parse::<u32>().unwrap_or(0);
    let mut folder = OsFolder::new(&rt);
    let Ok(Found::Bytes(bytes)) = folder.read(alloc, path.as_str(), 67_108_864) else {
        return Ok(());
    };
    let mut read = 0u32;
    for _ in 0..rounds {
        trust();
        let value = ts_ojson::read(alloc, bytes.as_slice());
        read += u32::from(value.is_ok());
    }
    println!(rt; "{read}")?;
    Ok(())
}
"""


def items(make):
    """Items by their numbers, joined by commas, of about so many bytes."""
    found, total = [], 0
    while total < SIZE:
        found.append(make(len(found)))
        total += len(found[-1]) + 1
    return ",".join(found)


def texts():
    """Each text with its name."""
    chance = random.Random(1)
    yield "numbers", "[" + items(lambda k: str(k * 7919 % 1_000_003)) + "]"
    yield "short strings", "[" + items(lambda k: f'"item {k}"') + "]"
    yield "members", "{" + items(lambda k: f'"name{k:08}":{k}') + "}"
    yield "members at random", "{" + items(lambda k: f'"{chance.getrandbits(64):016x}":{k}') + "}"
    yield "one long string", '"' + "a" * SIZE + '"'


def main():
    rounds = int(sys.argv[1]) if len(sys.argv) > 1 else 10
    with tempfile.TemporaryDirectory() as folder:
        program = built(trusting(copied(folder, NAME, BELOW, PROGRAM)))
        for name, text in texts():
            path = f"{folder}/input"
            with open(path, "w", encoding="utf-8") as file:
                file.write(text)
            read, ours = round_time(program, rounds, path)
            if read != str(rounds):
                sys.exit(f"{name}: {read} of {rounds} rounds were read")
            python = loads(text, rounds)
            print(f"{name}, {len(text):,} bytes: {ours:.0f} us; json.loads {python:.0f} us, {ours / python:.2f} times")


if __name__ == "__main__":
    main()
