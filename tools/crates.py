"""The crates of the repository, what of them is proved, and commands that run on several of them at once."""
import contextlib
import fcntl
import functools
import hashlib
import os
import pathlib
import shutil
import signal
import subprocess
import sys
import time

TOP = pathlib.Path(__file__).resolve().parent.parent
BUILD = TOP / "build"
PROGRAM = "bt_ctf"
GIBIBYTE = 2**30
LANE_MEMORY = 4 * GIBIBYTE
# What the libraries below cost each proof.
WORK_OF_ANY = 200


@functools.lru_cache(maxsize=None)
def rows():
    """Returns the libraries that crates.txt names for each crate, those of the kit too."""
    lines = [line.partition("#")[0].partition(":") for line in (TOP / "crates.txt").read_text().splitlines()]
    return {name.split()[0]: libraries.split() for name, _, libraries in lines if name.strip()}


def below(*crates):
    """Returns the libraries of the repository that the crates stand on."""
    found, left = set(), list(crates)
    while left:
        new = {it for it in rows()[left.pop()] if it in rows()} - found
        found |= new
        left += new
    return found


def stop_on_unknown(crates):
    unknown = [it for it in crates if it not in rows()]
    if unknown:
        sys.exit(f"{unknown[0]} is no crate of crates.txt")


@functools.lru_cache(maxsize=None)
def files_of(crate):
    """Returns the files that a proof of the crate reads of its own folder."""
    parts = [TOP / "crates" / crate / it for it in ("src", "specs", "proofs")]
    return sorted(it for part in parts for it in part.rglob("*") if it.is_file())


@functools.lru_cache(maxsize=None)
def work_of(crate):
    """Returns about how long a proof of the crate takes, in lines of code: ten lines of what is cited count as one."""
    lines = {it: it.read_bytes().count(b"\n") for it in files_of(crate)}
    return WORK_OF_ANY + sum(lines[it] if it.suffix == ".rt" else lines[it] / 10 for it in lines)


def sum_of_files(crate):
    """Returns a sum of all that the crate is made of, with the libraries that it stands on."""
    total = hashlib.sha256((TOP / "HANDLES").read_bytes())
    for name in sorted([crate, *below(crate)]):
        total.update(repr((name, rows()[name])).encode())
        for file in files_of(name):
            total.update(repr((str(file.relative_to(TOP)), sum_of(file))).encode())
    return total.hexdigest()


@functools.lru_cache(maxsize=None)
def sum_of(file):
    return hashlib.sha256(file.read_bytes()).hexdigest()


def forget_files():
    """Has the files read anew, since they may have changed meanwhile."""
    for it in (files_of, work_of, sum_of, rows):
        it.cache_clear()


@functools.lru_cache(maxsize=None)
def kit():
    """Returns the line by which the toolchain names itself."""
    return subprocess.run(["rt", "version"], stdout=subprocess.PIPE, universal_newlines=True, check=True).stdout.strip()


def made_of(crate):
    """Returns the file that a proof of the crate leaves."""
    out = TOP / "crates" / crate / "out"
    return out / crate if crate == PROGRAM else out / "rlib" / "stamp"


def read_record(crate):
    """Returns what was recorded of the crate: the sums of its files and of what was made of them, and the kit."""
    with contextlib.suppress(OSError):
        return (BUILD / "proved" / crate).read_text().splitlines()
    return []


def record(crate, files):
    """Records that the crate was proved when its files had this sum, unless they have changed since."""
    forget_files()
    if sum_of_files(crate) != files:
        return False
    (BUILD / "proved").mkdir(parents=True, exist_ok=True)
    (BUILD / "proved" / crate).write_text("\n".join([files, sum_of(made_of(crate)), kit(), ""]))
    return True


def stands(crate):
    """Returns whether what was proved and made of the crate's files, as they are now, stands in its out/."""
    return made_of(crate).is_file() and read_record(crate)[:2] == [sum_of_files(crate), sum_of(made_of(crate))]


def is_proved(crate):
    """Returns whether that was done by the kit that is there now."""
    return stands(crate) and read_record(crate)[2:] == [kit()]


def number_of_lanes(more=0):
    """Returns how many crates are worked on at once: LANES, or as many as processors, and so many more, where free memory
    allows it."""
    if os.environ.get("LANES", "").isdigit():
        return max(1, int(os.environ["LANES"]))
    return max(1, min(processors() + more, free_memory() // LANE_MEMORY))


def processors():
    return len(os.sched_getaffinity(0))


def free_memory():
    """Returns the free memory in bytes, of the control group too where it has a limit."""
    lines = pathlib.Path("/proc/meminfo").read_text().splitlines()
    free = next(1024 * int(it.split()[1]) for it in lines if it.startswith("MemAvailable:"))
    group = pathlib.Path("/sys/fs/cgroup")
    with contextlib.suppress(OSError, ValueError):
        free = min(free, int((group / "memory.max").read_text()) - int((group / "memory.current").read_text()))
    return free


@contextlib.contextmanager
def room(name):
    """Gives a new folder in build/ that is removed at the end. A second run waits for the first."""
    BUILD.mkdir(exist_ok=True)
    with open(BUILD / f"{name}.lock", "w") as held:
        try:
            fcntl.flock(held, fcntl.LOCK_EX | fcntl.LOCK_NB)
        except BlockingIOError:
            print("waiting for another run in this checkout to end", flush=True)
            fcntl.flock(held, fcntl.LOCK_EX)
        place = BUILD / name
        shutil.rmtree(place, ignore_errors=True)
        try:
            place.mkdir()
            yield place
        finally:
            shutil.rmtree(place, ignore_errors=True)


def copy_sources(place):
    """Copies what rt reads of the checkout to a new folder, and returns it."""
    shutil.copytree(TOP / "crates", place / "crates", ignore=shutil.ignore_patterns("out", "data"))
    for name in ("crates.txt", "HANDLES"):
        shutil.copy(TOP / name, place)
    return place


def share_libraries(crate, place):
    """Gives a copy of the sources what the checkout has proved below a crate, as links: rt goes by the contents of the files."""
    for it in below(crate):
        kept, to = TOP / "crates" / it / "out" / "rlib", place / "crates" / it / "out" / "rlib"
        if kept.is_dir() and not to.exists():
            shutil.copytree(kept, to, copy_function=os.link)


def take_proof(crate, place):
    """Moves what a copy of the sources has of a crate's proof to the checkout."""
    to = TOP / "crates" / crate / "out"
    shutil.rmtree(to, ignore_errors=True)
    os.rename(place / "crates" / crate / "out", to)


def stop_on_signals():
    """Has the signals that end a run end its blocks too, so that nothing is left running or lying about."""
    for it in (signal.SIGINT, signal.SIGTERM, signal.SIGHUP):
        signal.signal(it, lambda number, _: sys.exit(128 + number))


class Run:
    """A command that runs for a crate in a copy of the sources, in its folder or at the top, and writes to a log."""

    def __init__(self, crate, words, place, folder=".", **environment):
        self.crate, self.place, self.log, self.begun = crate, place, BUILD / "logs" / f"{crate}.log", time.monotonic()
        self.log.parent.mkdir(parents=True, exist_ok=True)
        # A group of its own, so that only this run ends it; in one session, so that priorities count between runs.
        how = {"cwd": place / folder, "env": {**os.environ, **environment}, "preexec_fn": os.setpgrp}
        with open(self.log, "w") as out:
            self.process = subprocess.Popen(words, stdin=subprocess.DEVNULL, stdout=out, stderr=out, **how)

    def seconds(self):
        return time.monotonic() - self.begun


class Runs:
    """Commands that run at once, of which none goes on when the block ends."""

    def __init__(self):
        self.running = []

    def __enter__(self):
        return self

    def add(self, run):
        self.running.append(run)

    def next_ended(self):
        while True:
            for run in self.running:
                if run.process.poll() is not None:
                    self.running.remove(run)
                    return run
            time.sleep(0.1)

    def __exit__(self, *_):
        # rt ends all that it started when it ends itself.
        for run in self.running:
            run.process.send_signal(signal.SIGINT)
        for run in self.running:
            try:
                run.process.wait(timeout=20)
            except subprocess.TimeoutExpired:
                run.process.kill()
                run.process.wait()


def clock(seconds):
    return f"{seconds // 60:.0f}:{seconds % 60:02.0f}"


def end_of(log, lines=25):
    """Returns the end of a log, under its name."""
    return "\n".join([f"the end of {log.relative_to(TOP)}:", *log.read_text(errors="replace").splitlines()[-lines:]])
