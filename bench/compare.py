#!/usr/bin/env python3
"""Measures a program in turns beside a version before it and another reader, over a trace of each shape of event records:
compare.py PROGRAM [BEFORE] [--babeltrace2 PATH]

It prints the time of an event record in the best of rounds, and ratios of processor time in the median of rounds, with the
least and the greatest in brackets. The time to start, over the same metadata without streams, is taken off each. Before a
trace is measured it is checked that its log has no fault and a line for each event record; where another program prints other
bytes, that is reported."""

import argparse
import itertools
import pathlib
import statistics
import subprocess
import sys
import tempfile
from typing import NamedTuple

import measure
import shapes

BEFORE, OTHER = "of the time before", "babeltrace2, times as much"


class Work(NamedTuple):
    """A trace of the table, options, and whether its event records are printed then."""

    trace: str
    options: tuple[str, ...] = ()
    prints: bool = True


USUAL = "as LTTng, 1 stream"
WORKS = {
    **{name: Work(name) for name in shapes.TRACES},
    f"{USUAL}, `--begin` before all": Work(USUAL, ("--begin=0",)),
    f"{USUAL}, `--begin` after all": Work(USUAL, ("--begin=4000000000",), False),
}


class Program(NamedTuple):
    """A program, and the title of the column that compares it."""

    path: str
    title: str = ""

    def log(self, words: list[str]) -> bytes:
        """The log of a trace."""
        how = {"stdin": subprocess.DEVNULL, "capture_output": True, "env": measure.variables()}
        done = subprocess.run([self.path, *words], check=False, **how)
        return done.stdout + done.stderr

    def seconds(self, words: list[str]) -> float:
        run = measure.run([self.path, *words])
        if run.end:
            print(f"{self.path} {' '.join(words)}: {run.end}", file=sys.stderr)
        return run.seconds


class Times:
    """The times of a program over a trace, without that of its start."""

    def __init__(self, program: Program, words: list[str], bare: pathlib.Path) -> None:
        self.program, self.words = program, words
        self.start = min(program.seconds([str(bare)]) for _ in range(3))
        self.seconds: list[float] = []

    def add(self) -> None:
        self.seconds.append(max(self.program.seconds(self.words) - self.start, 1e-6))


def ratio(above: list[float], below: list[float]) -> str:
    ratios = [one / other for one, other in zip(above, below)]
    return f"{statistics.median(ratios):.2f} ({min(ratios):.2f} to {max(ratios):.2f})"


def measured(programs: list[Program], words: list[str], bare: pathlib.Path, rounds: int) -> list[list[float]]:
    """The times of each program, which run in turns."""
    times = [Times(program, words, bare) for program in programs]
    for _ in range(rounds):
        for it in times:
            it.add()
    return [it.seconds for it in times]


def first_difference(ours: list[bytes], theirs: list[bytes]) -> str:
    pairs = itertools.zip_longest(ours, theirs, fillvalue=b"(no line)")
    return next(f"  {theirs!r}\nin place of\n  {ours!r}" for ours, theirs in pairs if ours != theirs)


def is_right(name: str, log: bytes, lines: int, programs: list[Program], words: list[str]) -> bool:
    """Whether the log has so many lines. Where another program prints other lines, the first of them is reported."""
    found = log.splitlines()
    if len(found) != lines:
        print(f"{name}: {len(found)} lines in place of {lines}, the last is {found[-1:]}", file=sys.stderr)
        return False
    for other in programs:
        if other.title == OTHER and name in shapes.WRITTEN_OTHERWISE:
            continue
        theirs = other.log(words).splitlines()
        if theirs != found:
            print(f"{name}: {other.path} prints\n{first_difference(found, theirs)}", file=sys.stderr)
    return True


def compare(name: str, programs: list[Program], rounds: int, wanted: int) -> bool:
    """Prints the row of a work over about so many event records, and gives whether its log is what it has to be."""
    work = WORKS[name]
    with tempfile.TemporaryDirectory() as folder:
        trace, bare = pathlib.Path(folder) / "trace", pathlib.Path(folder) / "bare"
        events = shapes.TRACES[work.trace](trace, wanted)
        shapes.write_trace(bare, (trace / "metadata").read_text())
        words = [*work.options, str(trace)]
        log = programs[0].log(words)
        if not is_right(name, log, events if work.prints else 0, programs[1:], words):
            return False
        if rounds:
            mine, *others = measured(programs, words, bare, rounds)
            titles = [it.title for it in programs[1:]]
            ratios = [ratio(mine, it) if title == BEFORE else ratio(it, mine) for title, it in zip(titles, others)]
            each = 1e9 * min(mine) / events
            measure.row([name, f"{events:,}", f"{len(log) / events:.0f}", f"{each:,.0f}", *ratios])
    return True


def arguments() -> argparse.Namespace:
    parser = argparse.ArgumentParser(description=__doc__, formatter_class=argparse.RawDescriptionHelpFormatter)
    parser.add_argument("program", metavar="PROGRAM")
    parser.add_argument("before", metavar="BEFORE", nargs="?", help="a version before it")
    parser.add_argument("--babeltrace2", metavar="PATH", help="another reader")
    parser.add_argument("-n", type=int, default=5, metavar="ROUNDS", help="5; with 0 the logs are checked and nothing measured")
    parser.add_argument("--events", type=int, default=shapes.EVENTS, help="of a trace, fewer of slow shapes")
    parser.add_argument("--only", action="append", choices=WORKS, metavar="SHAPE", help="this shape, and others so named")
    return parser.parse_args()


def main() -> int:
    given = arguments()
    programs = [Program(given.program)]
    programs += [Program(given.before, BEFORE)] if given.before else []
    programs += [Program(given.babeltrace2, OTHER)] if given.babeltrace2 else []
    if given.n:
        measure.heading(["Shape", "Events", "Bytes a line", "ns an event", *(it.title for it in programs[1:])])
    return 0 if all([compare(name, programs, given.n, given.events) for name in given.only or WORKS]) else 1


if __name__ == "__main__":
    sys.exit(main())
