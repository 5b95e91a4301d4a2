#!/usr/bin/env python3
"""Times of the built program: clients on threads of their own (`run`) beside the same steps on one thread (`replay`).

    python3 bench/clients.py [PROGRAM]

PROGRAM is `crates/ts_cli/out/ts_cli` if none is given, which `./hemshale build` makes. Each case is run once to read
what is printed, and then to be timed: once, and those of queries in eight rounds, of which the quickest run of each
counts. Printed are, for both words, the seconds by the clock and of processor time, the most memory, and how many edits
were published, of:

- sixteen clients, each of which edits a JSON text of 100 KB of its own twenty times and asks a query after each edit
- sixteen clients that edit one text, a hundred times each, and look before each edit
- one client that asks 64 queries in one step, of a JSON text of 1 MB, and of the same without that step

and then how many times as long a replay takes: for the queries what the step takes, which is the difference of the last
two cases. What the machine itself gives at that time stands beside it: how many times as much four replays of the 64
queries do at once as one does alone, which is 4 where four processors are as quick together as one is alone.
"""
import json
import os
import subprocess
import sys
import tempfile
import time

sys.dont_write_bytecode = True
from memory import most, under_time

TOP = os.path.dirname(os.path.dirname(os.path.abspath(__file__)))
CLIENTS = 16
PROCESSORS = 4
ROUNDS = 8


def line(**members):
    return json.dumps(members, separators=(",", ":")) + "\n"


def numbers(size):
    """An array of three-digit numbers, of so many bytes."""
    return "[" + ",".join(str(100 + k * 7 % 900) for k in range((size - 1) // 4)) + "]"


def apart():
    """Each client changes numbers of its own document."""
    text, steps = numbers(100_000), ""
    script = line(op="open", text=text) * CLIENTS + line(op="load", source='((number) @n (#eq? @n "7"))')
    for k in range(20):
        start = 1 + 4 * (k * 997 % 24_000)
        for client in range(CLIENTS):
            own = {"client": client, "document": client}
            steps += line(op="edit", start=start, end=start + 3, new=f"{100 + k}", **own)
            steps += line(op="query", queries=[0], **own)
    return script + steps


def together():
    """All clients put numbers at the start of one document."""
    script = line(op="open", text="[0]")
    for _ in range(100):
        for client in range(CLIENTS):
            script += line(client=client, op="look", document=0)
            script += line(client=client, op="edit", document=0, start=1, end=1, new="1,")
    return script


def asking(asks):
    """One client asks all queries at once."""
    script = line(op="open", text=numbers(1_000_000))
    for k in range(64):
        script += line(op="load", source=f'((number) @n (#eq? @n "{k}"))')
    if asks:
        script += line(client=0, op="query", document=0, queries=list(range(64)))
    return script


def spent_by(words, report):
    """The seconds by the clock and of processor time, the most memory in MiB and the status of a run."""
    start = time.monotonic()
    with subprocess.Popen(under_time(report, words), stdout=subprocess.DEVNULL) as child:
        _, status, used = os.wait4(child.pid, 0)
        child.returncode = status
    return time.monotonic() - start, used.ru_utime + used.ru_stime, most(report) >> 20, status >> 8


def at_once(words):
    """The seconds by the clock that as many of these as PROCESSORS take at once."""
    start = time.monotonic()
    for child in [subprocess.Popen(words, stdout=subprocess.DEVNULL) for _ in range(PROCESSORS)]:
        child.wait()
    return time.monotonic() - start


def tell(name, word, used, printed):
    clock, spent, memory, status = used
    if status:
        sys.exit(f"{name}, {word}: status {status}, {printed[:100].decode()}")
    published = printed.count(b'"reply":"published"')
    print(
        f"{name}, {word}: {clock:.2f} s by the clock, {spent:.2f} s of processors, {memory} MiB, "
        f"{published} published, {len(printed):,} bytes printed",
        flush=True,
    )


def measured(folder, commands, rounds):
    """What each command uses in the quickest of some rounds, by its name. What it prints is read in a run before, since
    whoever reads takes a processor."""
    printed = {name: subprocess.run(words, stdout=subprocess.PIPE).stdout for name, words in commands.items()}
    found = {name: [] for name in commands}
    for _ in range(rounds):
        for name, words in commands.items():
            found[name].append(spent_by(words, f"{folder}/most"))
    for (name, word), all_used in found.items():
        status = max(status for *_, status in all_used)
        tell(name, word, (*min(all_used)[:3], status), printed[name, word])
    return {name: min(all_used)[0] for name, all_used in found.items()}


def commands_of(program, folder, name, script):
    """The two words over a script, by its name and theirs."""
    path = f"{folder}/{name.replace(' ', '_')}"
    with open(path, "w") as out:
        out.write(script)
    grammar = f"{TOP}/examples/json.json"
    return {(name, "run"): [program, "run", grammar, path], (name, "replay"): [program, "replay", grammar, path, ""]}


def main():
    program = sys.argv[1] if len(sys.argv) > 1 else f"{TOP}/crates/ts_cli/out/ts_cli"
    with tempfile.TemporaryDirectory() as folder:
        for name, script in (("sixteen documents", apart()), ("one document", together())):
            clocks = measured(folder, commands_of(program, folder, name, script), 1)
            print(f"{name}: {clocks[name, 'replay'] / clocks[name, 'run']:.2f} times", flush=True)
        asked, unasked = "64 queries", "no queries"
        commands = commands_of(program, folder, asked, asking(True))
        clocks = measured(folder, commands | commands_of(program, folder, unasked, asking(False)), ROUNDS)
        step = {word: clocks[asked, word] - clocks[unasked, word] for word in ("run", "replay")}
        print(f"{asked}: {step['run']:.2f} s and {step['replay']:.2f} s, {step['replay'] / step['run']:.2f} times")
        replay = commands[asked, "replay"]
        together_clock = min(at_once(replay) for _ in range(ROUNDS))
        gives = PROCESSORS * clocks[asked, "replay"] / together_clock
        print(f"{PROCESSORS} replays of {asked} at once: {together_clock:.2f} s, {gives:.2f} times as much as one")


if __name__ == "__main__":
    main()
