"""What the run of a program takes. The scripts beside this file use it."""

import ctypes
import functools
import os
import pathlib
import re
import signal
import subprocess
import tempfile
from typing import NamedTuple

KIBIBYTE = 2**10
MEBIBYTE = 2**20
GIBIBYTE = 2**30

# The system counts the memory of a process from that of the process which started it. So a shell, which is small, starts the
# program, says its number and ends. This process inherits it then, and gives a line, for which it waits.
STARTER = 'ulimit -t "$1"; ulimit -v "$2"; shift 2; exec 3<&0; { read line <&3; exec "$@" 3<&- > /dev/null; } & echo $!'
PR_SET_CHILD_SUBREAPER = 36


class Run(NamedTuple):
    """Processor time in seconds, the system's included; the most memory in bytes; and how the run ended: nothing where well,
    `over` where its time was up, else its fault or its status."""

    seconds: float
    memory: int
    end: str


@functools.lru_cache(maxsize=None)
def inherit_orphans() -> None:
    ctypes.CDLL(None).prctl(PR_SET_CHILD_SUBREAPER, 1, 0, 0, 0)


def end_of(status: int, messages: bytes) -> str:
    if os.WIFSIGNALED(status):
        number = os.WTERMSIG(status)
        return "over" if number in (signal.SIGXCPU, signal.SIGKILL) else f"signal {number}"
    fault = re.search(rb"^ERROR: (\w+): ", messages, re.MULTILINE)
    if fault:
        return fault[1].decode()
    return f"status {os.WEXITSTATUS(status)}" if status else ""


def waited(process: int) -> tuple[int, float, int]:
    """The status of a process that this one inherited, its seconds and its bytes. It is killed where the wait is broken off."""
    try:
        _, status, use = os.wait4(process, 0)
    except BaseException:
        os.kill(process, signal.SIGKILL)
        raise
    return status, use.ru_utime + use.ru_stime, use.ru_maxrss * KIBIBYTE


def run(words: list[str], seconds: int = 600, memory: int = 64 * GIBIBYTE) -> Run:
    """Runs a command, its output going nowhere, for so many seconds of processor time and with so many bytes at the most."""
    inherit_orphans()
    shell = ["sh", "-c", STARTER, "sh", str(seconds), str(memory // KIBIBYTE), *words]
    pipes = {"stdin": subprocess.PIPE, "stdout": subprocess.PIPE, "env": variables()}
    with tempfile.TemporaryFile() as messages:
        with subprocess.Popen(shell, stderr=messages, **pipes) as started:
            process = int(started.stdout.readline())
            started.wait()
            started.stdin.write(b"\n")
        status, taken, most = waited(process)
        messages.seek(0)
        return Run(taken, most, end_of(status, messages.read(MEBIBYTE)))


def variables() -> dict[str, str]:
    """The environment of each run: other readers print local times."""
    return {**os.environ, "TZ": "UTC"}


def input_bytes(folder: pathlib.Path) -> int:
    return sum(file.stat().st_size for file in folder.iterdir())


def row(cells: list[str]) -> None:
    """Prints a row of a table."""
    print(f"| {' | '.join(cells)} |", flush=True)


def heading(cells: list[str]) -> None:
    row(cells)
    print("|---" * len(cells) + "|", flush=True)
