"""Builds a program over the proved crates, in a copy of them, runs it, and measures beside Python's json.loads."""
import json
import os
import resource
import shutil
import subprocess
import sys
import time

import tuning  # for the programs that are run

TOP = os.path.dirname(os.path.dirname(os.path.abspath(__file__)))


def linked(source, target):
    """Gives a file a second name, or a copy where the target is on another disk."""
    try:
        os.link(source, target)
    except OSError:
        shutil.copy2(source, target)


def copied(folder, name, below, program, proofs=None):
    """A copy of the crates with a program beside them, and what its proofs need, by file.

    The libraries that `rt lib` built go with it, so that only the program is new where all below it is proved.
    """
    left_out = shutil.ignore_patterns("must-fail", "incremental")
    shutil.copytree(f"{TOP}/crates", f"{folder}/crates", ignore=left_out, copy_function=linked)
    shutil.copy2(f"{TOP}/HANDLES", folder)
    with open(f"{TOP}/crates.txt") as lines, open(f"{folder}/crates.txt", "w") as out:
        out.write(lines.read() + f"{name}: {below}\n")
    home = f"{folder}/crates/{name}"
    os.makedirs(f"{home}/src")
    with open(f"{home}/src/main.rt", "w") as out:
        out.write(program)
    for file, text in (proofs or {}).items():
        os.makedirs(os.path.dirname(f"{home}/proofs/{file}"), exist_ok=True)
        with open(f"{home}/proofs/{file}", "w", encoding="utf-8") as out:
            out.write(text)
    subprocess.run(["git", "init", "-q", folder], check=True)
    return home


def trusting(home):
    """Gives the program the C function `trust`, whose declaration promises all that its own proof needs.

    A program that calls it first in each function is built at full speed, over the proved crates, though it proves
    nothing itself.
    """
    os.makedirs(f"{home}/c")
    with open(f"{home}/c/trust.c", "w") as out:
        out.write("void trust(void) {}\n")
    return home


def built(home):
    """The path of the program, built in its folder. It ends where that fails."""
    name = os.path.basename(home)
    words = [os.environ.get("RT", "rt"), "run"]
    allowed = dict(os.environ, RT_ALLOW_C=name) if os.path.exists(f"{home}/c") else None
    done = subprocess.run(words, cwd=home, capture_output=True, text=True, env=allowed)
    path = f"{home}/out/{name}"
    if not os.path.exists(path):
        sys.exit(done.stdout[-4000:] + done.stderr[-4000:])
    return path


def run(program, *words, stack=None):
    """What the program prints, the most memory that it took in bytes, and its status."""

    def limit():
        if stack is not None:
            resource.setrlimit(resource.RLIMIT_STACK, (stack, stack))

    with subprocess.Popen([program, *words], stdout=subprocess.PIPE, text=True, preexec_fn=limit) as child:
        text = child.stdout.read()
        _, status, used = os.wait4(child.pid, 0)
    return text.strip(), used.ru_maxrss * 1024, status


def spent():
    """The processor time of all children, in microseconds."""
    used = resource.getrusage(resource.RUSAGE_CHILDREN)
    return (used.ru_utime + used.ru_stime) * 1e6


def round_time(program, rounds, *words):
    """What the program prints for so many rounds, and the processor time of one in microseconds.

    It is what the least of three runs takes beyond the least of three without any round.
    """

    def least(count):
        found = []
        for _ in range(3):
            start = spent()
            printed = run(program, str(count), *words)[0]
            found.append(spent() - start)
        return printed, min(found)

    _, none = least(0)
    printed, all_rounds = least(rounds)
    return printed, (all_rounds - none) / rounds


def loads(text, rounds):
    """The processor time of Python's json.loads, in microseconds."""
    start = time.process_time()
    for _ in range(rounds):
        json.loads(text)
    return (time.process_time() - start) * 1e6 / rounds
