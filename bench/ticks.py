#!/usr/bin/env python3
"""Writes the trace of examples/tick with COUNT events of random numbers: ticks.py COUNT FOLDER."""

import pathlib
import random
import sys


def main(count: int, folder: str) -> None:
    to = pathlib.Path(folder)
    to.mkdir(parents=True, exist_ok=True)
    example = pathlib.Path(__file__).parent.parent / "examples" / "tick" / "metadata"
    # Other readers want this first line.
    (to / "metadata").write_text("/* CTF 1.8 */\n" + example.read_text())
    (to / "s0").write_bytes(random.Random(1).randbytes(3 * count))


if __name__ == "__main__":
    main(int(sys.argv[1]), sys.argv[2])
