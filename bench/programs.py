# SPDX-License-Identifier: MIT
"""The programs of the measure: how each is built, and what one run of it came to."""

import json
import os
import shlex
import subprocess
import sys
import time
from contextlib import contextmanager
from dataclasses import dataclass
from functools import cache
from pathlib import Path

BENCH = Path(__file__).resolve().parent
OUT = BENCH / "out"
# The library for C. `bindings/check` makes it.
LIBRARY = BENCH.parent / "bindings/c/out/libsegcache.a"
COMPILER = ["g++", "-std=c++20", "-O3", "-Wall", "-Wextra", "-pthread"]
OURS = BENCH.parent / "crates/segtime/out/segtime"
SEGRUN = BENCH.parent / "crates/segrun/out/segrun"

# The mixes with sixteen keys at hand at a time.
AT_HAND = ("gets16", "mixed16", "gets16apart", "mixed16apart")

# What a program's environment has for each kind of pages. With huge ones malloc asks the kernel for pages of 2 MiB.
PAGES = {"small": {}, "huge": {"GLIBC_TUNABLES": "glibc.malloc.hugetlb=1"}}


@dataclass(frozen=True)
class Cell:
    """What is asked in one measurement."""

    mix: str
    draw: str
    keys: int
    threads: int
    shape: str = "large"
    pages: str = "small"
    # How many items a cache has room for, or how many bytes it may take. If both are 0 all keys have room.
    room: int = 0
    bytes: int = 0

    def __str__(self):
        more = [word for word, usual in ((self.shape, "large"), (self.pages, "small")) if word != usual]
        more += [f"{number:,} {what}" for number, what in ((self.room, "items"), (self.bytes, "bytes")) if number]
        return ", ".join([self.mix, self.draw, f"{self.keys:,} keys", f"{self.threads} threads", *more])


@dataclass(frozen=True)
class Sample:
    """What one run came to, in nanoseconds for each command, and shares of the commands."""

    process_ns: float
    wall_ns: float
    thread_ns: float
    hits: float
    busy: float
    full: float
    # What the store takes once it is filled, if the program says that.
    bytes_taken: float | None = None
    # Latencies, if commands were timed one by one.
    p50_ns: float | None = None
    p99_ns: float | None = None
    p999_ns: float | None = None


@dataclass(frozen=True)
class Program:
    """A store with the driver of `common`. Programs that can't be built are left out."""

    name: str
    source: str
    package: str | None = None
    libraries: tuple[str, ...] = ()
    pkg_config: str | None = None
    # The only mixes that are made of it, if it isn't of all.
    mixes: tuple[str, ...] = ()
    # The folder of `peers` with what it is in Rust.
    crate: str | None = None

    def path(self):
        return OUT / self.name

    def build(self):
        """None, or why it couldn't be built."""
        if is_up_to_date(self.path(), Path(self.source).parent, *self.libraries):
            return None
        try:
            libraries = list(self.libraries)
            if self.pkg_config:
                libraries += shlex.split(output("pkg-config", "--libs", self.pkg_config))
            if self.crate:
                build_crate(self.crate)
            run_quietly([*COMPILER, BENCH / self.source, "-o", self.path(), *libraries])
        except (OSError, subprocess.CalledProcessError) as fault:
            needs = f"; it needs the package {self.package}" if self.package else ""
            return f"{first_line(fault)}{needs}"
        return None


def is_up_to_date(made, folder, *libraries):
    """Whether a program was built after its sources and libraries."""
    sources = [file for part in ("common", folder) for file in (BENCH / part).rglob("*")]
    used = [file for file in (*sources, *map(Path, libraries)) if file.is_file()]
    return made.exists() and all(file.stat().st_mtime <= made.stat().st_mtime for file in used)


def check_reference():
    """Stops where the reference answers wrongly; what is wrong has no speed."""
    check = OUT / "check"
    if not is_up_to_date(check, "reference"):
        run_quietly([*COMPILER, BENCH / "reference/check.cpp", "-o", check])
    run_quietly([check])


def check_floor():
    """Stops where the floor answers otherwise than the reference, on one thread, also where room runs out."""
    names = ("reference", "floor")
    for program in PROGRAMS:
        if program.name in names and (fault := program.build()):
            raise SystemExit(fault)
    for mix in ("mixed", "gets", "sets", "fetches", "f", "gets16", "mixed16"):
        for sizes in ((1024, 1024, 8, 4096), (64, 64, 4, 200)):
            told = [rounds_of([OUT / name, mix, "zipf", "1000", "1", "30000", "0", "0", *map(str, sizes)], 1, "small")
                    for name in names]
            counts = [[one[name] for name in ("hits", "misses", "busy", "full", "read")] for (one,) in told]
            if counts[0] != counts[1]:
                raise SystemExit(f"floor: {mix} with {sizes} counts {counts[1]}, and the reference {counts[0]}")


def library_of(crate):
    return OUT / f"{crate}_library/release/lib{crate}_peer.a"


def build_crate(crate):
    run_quietly(["cargo", "build", "--release", "--offline", "--jobs", "2", "--target-dir", OUT / f"{crate}_library"],
                folder=BENCH / "peers" / crate)


class Caffeine(Program):
    """The programs in Java over Caffeine: the measure, and for hit rates the replays of traces."""

    JAR = "/usr/share/java/caffeine.jar"
    MAINS = {"caffeine": "Measure", "caffeine_replay": "Replay", "caffeine_lives": "Lives", "caffeine_sizes": "Sizes"}

    def build(self):
        sources = sorted((BENCH / self.source).glob("*.java"))
        classes = OUT / "caffeine_classes"
        try:
            if not Path(self.JAR).exists():
                raise OSError(f"no {self.JAR}")
            if not is_up_to_date(self.path(), self.source):
                run_quietly(["javac", "-Xlint:all", "-cp", self.JAR, "-d", classes, *sources])
                for program, main in self.MAINS.items():
                    made = OUT / program
                    path = f"{self.JAR}:{shlex.quote(str(classes))}"
                    made.write_text(f'#!/bin/sh\nexec java -Xmx1g -cp {path} {main} "$@"\n')
                    made.chmod(0o755)
        except (OSError, subprocess.CalledProcessError) as fault:
            return f"{first_line(fault)}; it needs the packages {self.package} and default-jdk-headless"
        return None


def build_ristretto():
    """None, or why the replay over ristretto couldn't be built. Debian has it for builds without modules."""
    words = ["go", "build", "-o", OUT / "ristretto_replay", "replay.go"]
    environment = {**os.environ, "GO111MODULE": "off", "GOPATH": "/usr/share/gocode", "GOCACHE": str(OUT / "go"),
                   "GOFLAGS": ""}
    try:
        run_quietly(words, folder=BENCH / "peers/ristretto", environment=environment)
    except (OSError, subprocess.CalledProcessError) as fault:
        return f"{first_line(fault)}; it needs the packages golang-go and golang-github-dgraph-io-ristretto-dev"
    return None


CAFFEINE = Caffeine("caffeine", "peers/caffeine", "libcaffeine-java",
                    mixes=("sets", "replaces", "gets", "mixed", "a", "b", "c", "f", "fetches"))

PROGRAMS = [
    Program("reference", "reference/reference.cpp"),
    Program("floor", "floor/floor.cpp"),
    Program("ours_c", "peers/ours_c.cpp", libraries=(str(LIBRARY),)),
    Program("absl_spin", "peers/absl_spin.cpp", "libabsl-dev", pkg_config="absl_flat_hash_map"),
    Program("absl_prefetch", "peers/absl_prefetch.cpp", "libabsl-dev", pkg_config="absl_flat_hash_map", mixes=AT_HAND),
    Program("absl_mutex", "peers/absl_mutex.cpp", "libabsl-dev", pkg_config="absl_flat_hash_map"),
    Program("std_mutexes", "peers/std_mutexes.cpp"),
    Program("tbb", "peers/tbb.cpp", "libtbb-dev", ("-ltbb",)),
    Program("libcuckoo", "peers/libcuckoo.cpp", "libcuckoo-dev"),
    Program("urcu", "peers/urcu.cpp", "liburcu-dev", ("-lurcu", "-lurcu-cds", "-lurcu-common")),
    Program("dashmap", "peers/dashmap.cpp", "librust-dashmap-dev", (str(library_of("dashmap")), "-ldl"),
            crate="dashmap"),
    Program("lru_spin", "peers/lru_spin.cpp", "libabsl-dev", pkg_config="absl_flat_hash_map"),
    Program("lru_mutex", "peers/lru_mutex.cpp", "libabsl-dev", pkg_config="absl_flat_hash_map"),
    Program("tbb_lru", "peers/tbb_lru.cpp", "libtbb-dev", ("-ltbb",), mixes=("fetches",)),
    Program("rust_lru", "peers/rust_lru.cpp", "librust-lru-dev", (str(library_of("caches")), "-ldl"), crate="caches"),
    Program("s3fifo", "peers/s3fifo.cpp", "librust-lru-dev", (str(library_of("caches")), "-ldl"), crate="caches"),
    CAFFEINE,
]

# Those that evict. `bench/caches` measures them.
CACHES = ("lru_spin", "lru_mutex", "tbb_lru", "rust_lru", "s3fifo", "caffeine")


def build_all(names, ours):
    """The programs of these names that can be run, and ours, by name; and why the others can't, which it says."""
    OUT.mkdir(exist_ok=True)
    faults = {program.name: program.build() for program in PROGRAMS if program.name in names}
    left_out = tell_left_out({"ours": no_program(ours, "segtime"), **faults})
    return {name: ours.resolve() if name == "ours" else OUT / name
            for name in ("ours", *faults) if name not in left_out}, left_out


def no_program(path, crate):
    """Why a program of the crates can't be run, or None."""
    return None if path.exists() else f"no {path}; `rt run` in crates/{crate} makes it"


def tell_left_out(faults):
    """What is left out, with why, which it says."""
    left_out = {name: fault for name, fault in faults.items() if fault}
    for name, why in left_out.items():
        print(f"{name} is left out: {why}", file=sys.stderr)
    return left_out


def write_lines(path, machine, left_out, lines):
    """Writes what was measured: the machine, the programs that were left out, and all else."""
    missing = [{"kind": "left out", "program": name, "why": why} for name, why in left_out.items()]
    path.write_text("".join(json.dumps(line) + "\n" for line in [machine, *missing, *lines]))
    print(f"wrote {path}", file=sys.stderr)


@contextmanager
def trace_of(path, *words):
    """A file of what a program writes, a workload's commands, for as long as it is used."""
    with path.open("w") as file:
        subprocess.run(list(map(str, words)), check=True, stdout=file)
    yield path
    path.unlink()


def replayed(segrun, trace, policy, shape, *more):
    """What `segrun replay` says of a trace, with one client of this policy."""
    words = [word for name, number in shape.items() for word in (f"--{name}", number)]
    return told_by(segrun, "replay", trace, "--policy", policy, "--value-bytes", 16, "--format", "json", *more, *words)


def told_by(*words):
    """What a program writes, as JSON."""
    return json.loads(output(*map(str, words)))


def output(*words):
    return subprocess.run(words, check=True, capture_output=True, text=True).stdout.strip()


def run_quietly(words, folder=None, environment=None):
    subprocess.run(words, check=True, capture_output=True, text=True, cwd=folder, env=environment)


def first_line(fault):
    """What the compiler complained of first."""
    text = getattr(fault, "stderr", None) or str(fault)
    faults = [line for line in text.splitlines() if "error" in line]
    return (faults or text.splitlines() or [""])[0].strip()


def median(numbers):
    numbers = sorted(numbers)
    return numbers[len(numbers) // 2]


def processor_clock(process):
    """The nanoseconds of processor time that all threads of a process have had."""
    return time.clock_gettime_ns((~process.pid << 3) | 2)


def ask(process):
    """Gives the program a line of input, and is the line that it answers."""
    process.stdin.write("\n")
    process.stdin.flush()
    line = process.stdout.readline()
    if not line:
        raise RuntimeError(f"{shlex.join(process.args)} ended with {process.wait()}")
    return line


def rounds_of(words, rounds, pages):
    """What a program writes of each round, with the nanoseconds of processor time that the round took."""
    told = []
    environment = {**os.environ, **PAGES[pages]}
    with subprocess.Popen(words, stdin=subprocess.PIPE, stdout=subprocess.PIPE, text=True, env=environment) as process:
        for _ in range(rounds):
            ask(process)
            before = processor_clock(process)
            line = json.loads(ask(process))
            told.append({**line, "process_ns": (processor_clock(process) - before) / line["commands"]})
    return told


@cache
def planned_sizes(ours, keys, threads):
    """The sizes that the index plans for so many keys, as the programs of `common` take them."""
    return output(ours, "plan", "uniform", str(keys), str(threads)).split()


# The index where it has room for less than all keys: so many segments of all threads.
SEGMENTS = 128


def segment_bytes(rows, has_queues=True):
    """What the index takes for a segment of so many rows, and beside that a client that keeps by queues."""
    return 8 + 64 * rows + (44 + 3 * rows + (rows + 7) // 8 if has_queues else 0)


def index_sizes(room, threads):
    """Buckets, overflow buckets, segments of a thread and rows, of an index with so many rows or a few less."""
    buckets = min(1 << (room // 8).bit_length(), 65_536)
    segments = max(4, SEGMENTS // threads)
    return buckets, min(buckets * 5 // 4, 65_536), segments, max(1, room // (threads * segments))


def index_bytes(sizes, threads):
    buckets, overflow, segments, rows = sizes
    return 8 + 64 * (buckets + overflow) + threads * segments * segment_bytes(rows)


def has_room(low, high, fits):
    """The largest room for which that is so, from one that is known to do up to one that isn't, to a part in 500."""
    while high - low > max(1, low // 500):
        middle = (low + high) // 2
        low, high = (middle, high) if fits(middle) else (low, middle)
    return low


@cache
def room_within(path, most):
    """The largest room with which a cache takes so many bytes, once it has evicted as many items as it holds."""
    def fits(room):
        words = [path, "fetches", "uniform", 2 * room, 1, 1, 0, room]
        return rounds_of(list(map(str, words)), 1, "small")[0]["bytes"] <= most

    return has_room(1, most // 16, fits)


def room_of(name, paths, cell):
    """How many items a program has room for; 0 for all keys."""
    if not cell.bytes:
        return cell.room
    if name in CACHES:
        return room_within(paths[name], cell.bytes)
    def fits(room):
        return index_bytes(index_sizes(room, cell.threads), cell.threads) <= cell.bytes

    return has_room(1, cell.bytes // 16, fits)


def words_for(name, paths, cell, effort):
    """The command line of a run. Where the programs of `common` have the room, ours has what clients keep."""
    room = room_of(name, paths, cell)
    sizes = index_sizes(room, cell.threads) if room else ()
    if cell.shape == "planned":
        sizes = planned_sizes(paths["ours"], cell.keys, cell.threads)
    places = (effort.times, effort.every, "queues" if name == "ours" else room, *(() if name in CACHES else sizes))
    return [paths[name], cell.mix, cell.draw, cell.keys, cell.threads, *places]


@dataclass(frozen=True)
class Effort:
    """How much a run does. Each command is timed whose place is a multiple of `every`; none is if that is 0."""

    times: int
    rounds: int
    every: int = 0
    # Rounds before those that count: three times as many for Java, which compiles what it has run for a while.
    warm: int = 0


def sample(name, paths, cell, effort):
    """One run of a program: medians of its rounds, and shares of all their commands."""
    words = [str(word) for word in words_for(name, paths, cell, effort)]
    warm = effort.warm * (3 if name == CAFFEINE.name else 1)
    lines = rounds_of(words, warm + effort.rounds, cell.pages)[-effort.rounds :]
    commands = sum(line["commands"] for line in lines)

    def share(name):
        return sum(line[name] for line in lines) / commands

    def middle(name):
        return median(line[name] for line in lines) if name in lines[0] else None

    costs = map(middle, ("process_ns", "wall_ns", "thread_ns"))
    return Sample(*costs, *map(share, ("hits", "busy", "full")), bytes_taken=middle("bytes"),
                  p50_ns=middle("p50_ns"), p99_ns=middle("p99_ns"), p999_ns=middle("p99.9_ns"))
