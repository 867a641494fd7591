"""Compares a built program with a reference of it in Python, over fixed and random cases: what check/conversion, check/inventory,
check/policy, check/ledger and check/agent share.

A case is a NamedTuple with a name, words, a source, and a device: what standard input or output is where it isn't a file, or that
memory is short. It may have more, which is up to the program's Comparison.
"""
import os
import signal
import sys
from collections import Counter
from multiprocessing import Pool
from typing import Callable, Iterable, NamedTuple

SECONDS = 60
SHOWN = 20
# How many runs one source may take while it is made smaller.
SHRINKING = 3000
RANDOM_CHUNK, FIXED_CHUNK = 500, 200

HELP = ((b"--help",), (b"--version",))
BLIND, DEAF, LITTLE_MEMORY = ("a folder", "no standard input"), ("a full device", "no standard output"), "little memory"


class Ran(NamedTuple):
    status: int
    # None where it went to a device.
    out: object
    err: bytes


class Runner:
    """Runs the program on sources that stand in memory."""

    def __init__(self, program, variables):
        self.program, self.variables = program, variables
        self.streams = [os.memfd_create(name) for name in ("in", "out", "err")]
        self.folder, self.full = os.open("/", os.O_RDONLY), os.open("/dev/full", os.O_WRONLY)
        signal.signal(signal.SIGALRM, self.stop)

    def stop(self, *_):
        os.kill(self.child, signal.SIGKILL)

    def run(self, case):
        for stream in self.streams:
            os.ftruncate(stream, 0)
            os.lseek(stream, 0, os.SEEK_SET)
        written = 0
        while written < len(case.source):
            written += os.pwrite(self.streams[0], case.source[written:] if written else case.source, written)
        actions = [(os.POSIX_SPAWN_DUP2, stream, number) for number, stream in enumerate(self.streams)]
        other = {"a folder": (os.POSIX_SPAWN_DUP2, self.folder, 0), "a full device": (os.POSIX_SPAWN_DUP2, self.full, 1),
                 "no standard input": (os.POSIX_SPAWN_CLOSE, 0), "no standard output": (os.POSIX_SPAWN_CLOSE, 1)}.get(case.device)
        if other:
            actions.append(other)
        program, words = self.program, [self.program, *case.words]
        if case.device == LITTLE_MEMORY:
            program, words = "/bin/sh", ["sh", "-c", 'ulimit -v 16384; exec "$0" "$@"', *words]
        self.child = os.posix_spawn(program, words, self.variables(case), file_actions=actions)
        signal.alarm(SECONDS)
        _, status = os.waitpid(self.child, 0)
        signal.alarm(0)
        read = [os.pread(stream, os.fstat(stream).st_size, 0) for stream in self.streams[1:]]
        out = None if case.device in DEAF else read[0]
        return Ran(os.waitstatus_to_exitcode(status), out, read[1])


# What the processes of the pool share, as it stands when they are forked.
comparison, fixed, runner = None, [], None


def begin(program):
    global runner
    runner = comparison.runner(program, comparison.variables)


def tried(cases):
    """The counts of some cases, and those that differ."""
    counts, differences = Counter(), []
    for case in cases:
        answer = comparison.wanted(case)
        counts.update(comparison.counted(case, answer))
        if not comparison.agrees(case, answer, runner.run(case)):
            differences.append(case)
    return counts, len(cases), differences[:SHOWN], len(differences)


def task(span):
    kind, start, end = span
    return tried(fixed[start:end] if kind == "fixed" else [comparison.random_case(number) for number in range(start, end)])


def spans(kind, count, size):
    return [(kind, start, min(start + size, count)) for start in range(0, count, size)]


def differing(case):
    """Tells of variants of a case whether they still differ by the same two statuses, as long as runs are left."""
    left = SHRINKING
    statuses = comparison.wanted(case).status, runner.run(case).status

    def differs(tried):
        nonlocal left
        left -= 1
        if left <= 0:
            return False
        answer, ran = comparison.wanted(tried), runner.run(tried)
        return (answer.status, ran.status) == statuses and not comparison.agrees(tried, answer, ran)

    return differs


def shrunk(units, differs):
    """As few of the units as still differ."""
    size = max(1, len(units) // 2)
    while size and len(units) < 20_000:
        at = 0
        while at < len(units):
            fewer = units[:at] + units[at + size:]
            if differs(fewer):
                units = fewer
            else:
                at += size
        size //= 2
    return units


def smallest(case):
    """The case with as little of its source as still gives the same two statuses."""
    differs = differing(case)
    for pieces in (lambda it: it.splitlines(keepends=True), lambda it: [it[at:at + 1] for at in range(len(it))]):
        units = shrunk(pieces(case.source), lambda units: differs(case._replace(source=b"".join(units))))
        case = case._replace(source=b"".join(units))
    return case


def show(case):
    case = smallest(case)
    answer, ran = comparison.wanted(case), runner.run(case)
    more = {name: value for name, value in case._asdict().items() if name not in ("name", "source")}
    print(f"\n{case.name}\n  {', '.join(f'{name} {value}' for name, value in more.items())}, {len(case.source)} bytes:")
    print(f"  {case.source[:3000]!r}")
    print(f"  wanted {answer.status} {': '.join(answer.cause)} {answer.output and answer.output[:1000]!r}")
    print(f"  came   {ran.status} {ran.out and ran.out[:1000]!r} {ran.err[:200]!r}")


class Comparison(NamedTuple):
    fixed: Iterable
    # The random case of a number.
    random_case: Callable
    # The program's environment in a case.
    variables: Callable
    # What the reference answers in a case: its status, its output and more.
    wanted: Callable
    # Whether what ran answered so: of the case, the answer and what ran.
    agrees: Callable
    # What the tables count of a case and its answer: pairs of a table and what is counted.
    counted: Callable
    tables: tuple
    # What runs the program, made of its file and of `variables`, and what prints a case that differs.
    runner: Callable = Runner
    show: Callable = show


def compare(how, program, count):
    """Compares them on the fixed cases and on so many random ones, prints what came, and ends the script."""
    global comparison
    comparison = how
    fixed.extend(how.fixed)
    counts, tried_count, differences, all_differences = Counter(), 0, [], 0
    tasks = spans("fixed", len(fixed), FIXED_CHUNK) + spans("random", count, RANDOM_CHUNK)
    with Pool(initializer=begin, initargs=(program,)) as pool:
        for more, number, found, all_found in pool.imap_unordered(task, tasks):
            counts += more
            tried_count += number
            differences += found
            all_differences += all_found
    for table in how.tables:
        print(f"{table}:")
        for (_, what), times in sorted(item for item in counts.items() if item[0][0] == table):
            print(f"{times:10,}  {what}")
    begin(program)
    for case in sorted(differences, key=lambda it: len(it.source))[:SHOWN]:
        how.show(case)
    print(f"{tried_count:,} cases, of which {len(fixed):,} fixed and {count:,} random; {all_differences:,} differences")
    sys.exit(all_differences > 0)
