"""The most memory that a program takes. The system begins its count with what whoever starts a program has in memory,
so the program is started by GNU time, which is small."""
import tuning  # for the programs that are run


def under_time(report, words):
    """Words that run the program, and leave the most memory that it took in this file. The status stays."""
    return ["/usr/bin/time", "-q", "-f", "%M", "-o", report, *words]


def most(report):
    """The bytes that were left in the file."""
    with open(report) as lines:
        return int(lines.read().split()[-1]) << 10


def started(child):
    """The number of the process that GNU time started, or its own where there is none."""
    try:
        with open(f"/proc/{child.pid}/task/{child.pid}/children") as numbers:
            return int(numbers.read().split()[0])
    except (FileNotFoundError, IndexError):
        return child.pid
