# SPDX-License-Identifier: MIT
"""The parts of the gate, what each reads, and how they are run."""

import os
import resource
import shutil
import subprocess
import time
from typing import NamedTuple

import kept
from crates import ROOT, below, read_crates

LIBRARY = [*below("segcache", read_crates()), "segcache"]
LOGS = ROOT / "out/gate"
ARCHIVE, WIDE = "bindings/c/out/libsegcache.a", "bindings/c/out/wide/libsegcachewide.a"
PROGRAMS = "crates/segrun/out/segrun crates/segrun/out/segrun.by-rattle"
RECORDERS = "crates/segtrial/out/segtrial crates/segtrial/out/segtrial.by-rattle"
CALLERS = "crates/segcalls/out/segcalls crates/segcalls/out/segcalls.by-rattle"
CARGO = "cargo test --offline --quiet --manifest-path bindings/rust/Cargo.toml"
EXAMPLE = "cargo run --offline --quiet --manifest-path bindings/rust/Cargo.toml --example"


class Raw(NamedTuple):
    """What bindings/archive makes of segcache and the crates below it: the archive, and a note of what it's made of."""

    folder: str
    made_by: list

    def files(self):
        return [f"{self.folder}/libsegcache.a", f"{self.folder}/made_of"]


# By the names of the parts that make them.
RAWS = {"the archive": Raw("crates/segcache/out", ["bindings/archive"]),
        "the wide archive": Raw("out/wide/crates/segcache/out", ["bindings/archive", "tools/wide"])}


class Part(NamedTuple):
    """One part. It reads files and folders; one that names none runs each time. It needs programs."""

    group: str
    name: str
    command: str
    reads: str = ""
    needs: str = "python3"

    def is_shown(self):
        """Whether it prints by itself what a reader of the gate wants to see."""
        return self.group == "core"


# Over the made-up exports and the stand-in, which need no archive and no kit.
FORK = [
    Part("pages", "pages", "tools/pages"),
    Part("c", "C over made-up exports", "make -C bindings/c headers listed arguments", "bindings/c", "make cc c++"),
    Part("c", "C over the stand-in", "make -C bindings/c standin", "bindings/c server/tests/standin.c", "make cc"),
    Part("rust", "Rust over made-up exports",
         "mkdir -p bindings/out/none && ar rcs bindings/out/none/libsegcache.a && "
         f"SEGCACHE_LIB=$PWD/bindings/out/none {CARGO} --lib", "bindings/rust", "make cc cargo"),
    Part("rust", "Rust over the stand-in",
         f"make -C bindings/c out/standin/libsegcachewide.a && SEGCACHE_LIB=$PWD/bindings/c/out/standin {CARGO} "
         "--features wide --lib --test wide", "bindings/rust bindings/c server/tests/standin.c", "make cc cargo"),
    Part("checker", "the checker of histories", "tools/trial", f"tools/trial tools/checker {RECORDERS}", "cargo"),
    Part("compare", "header, crate and exports", "bindings/compare"),
    Part("faults", "the lists of faults", "tools/faults --list"),
]
SERVER_OVER_STANDIN = Part("server", "the server over the stand-in", "server/check --stand-in", "server bindings/c",
                           "make cc")

# What the gate proves. Each proof and each edit is kept by itself. The wide build is proved up to the library for C.
CORE = [
    Part("core", "pages", "tools/pages"),
    Part("core", "what must not compile", "tools/refused", "crates crates.txt tools tests/refused", "rt"),
    Part("core", "proofs, and tests in Rattle", "rt ci", "", "rt"),
    Part("cases", "cases of the program", "tools/cases", f"tests tools/cases {PROGRAMS}"),
    Part("program", "hit rates over fifty turnovers", "tools/turnovers", f"tools/turnovers {PROGRAMS}"),
    Part("cases", "cases of clients", "tools/calls", f"tests/clients tools/calls tools/client_cases.py {CALLERS}"),
    Part("core", "edits", "tools/edits", "", "rt"),
    # Its sum has what makes its edits and its archive, too: these need the libraries that it leaves.
    Part("core", "proofs of the wide build", "tools/wide --library rt ci && tools/wide --edits",
         "crates.txt HANDLES bindings/archive tools/wide tools/edits tools/crates.py tools/kept.py "
         + " ".join(f"crates/{name}" for name in LIBRARY), "rt"),
]

# Over the archive and the program, which are built by then.
BUILT = [
    Part("archive", "the archive", f"bindings/archive && make -C bindings/c {ARCHIVE[len('bindings/c/'):]}", "",
         "rt make cc"),
    Part("compare", "the comparison with the exports", f"bindings/compare {ARCHIVE}"),
    Part("c", "C and C++", "make -C bindings/c check", f"bindings/c {ARCHIVE}", "make cc c++"),
    Part("server", "the server", "server/check", f"server bindings/c {ARCHIVE}", "make cc"),
    Part("fuzz", "random calls and bytes", "make -C bindings/c fuzz && make -C server fuzz",
         f"bindings/c server {ARCHIVE}", "make libFuzzer"),
    Part("rust", "Rust", CARGO, f"bindings/rust {ARCHIVE}", "cargo"),
    Part("rust", "Rust's examples", f"{EXAMPLE} pages && [ \"$({EXAMPLE} readme_lines)\" = 'Some(b\"value\")' ]",
         f"bindings/rust {ARCHIVE}", "cargo"),
    Part("package", "the package", "bindings/package && bindings/try-package",
         f"bindings server tools crates crates.txt LICENSE {ARCHIVE} {WIDE}", "rt make cc c++ cargo"),
    Part("program", "the program", "bindings/check-program", f"bindings tools/devices tools/devices.c {PROGRAMS}"),
]
OVER_WIDE = [
    Part("wide", "the wide archive", "tools/wide bindings/archive && make -C bindings/c WIDE=1 "
         f"{WIDE[len('bindings/c/'):]} && out/wide/bindings/compare {WIDE}", "", "rt make cc"),
    Part("wide", "the wide build in C and C++", "make -C bindings/c WIDE=1 check", f"bindings/c {WIDE}", "make cc c++"),
    Part("wide", "the wide build's server", "WIDE=1 server/check", f"server bindings/c {WIDE}", "make cc"),
    Part("wide", "random calls and bytes of the wide build",
         "make -C bindings/c WIDE=1 fuzz && make -C server WIDE=1 fuzz", f"bindings/c server {WIDE}", "make libFuzzer"),
    Part("wide", "the wide build in Rust", f"{CARGO} --features wide", f"bindings/rust {WIDE}", "cargo"),
]


def of_bindings():
    """The parts over what the proofs left: the library for C, header, crate, server, package, program."""
    return [*FORK[2:], *BUILT[:-2], *OVER_WIDE, *BUILT[-2:]]


def key_of_archive(raw):
    crates = read_crates()
    places = [f"crates/{name}/{part}" for name in LIBRARY for part in ("src", "specs", "proofs")]
    return kept.digest(kept.said_by(["rt", "version"]), [crates[name] for name in LIBRARY],
                       kept.sum_of(*raw.made_by, "tools/crates.py", *places))


def every():
    return [*CORE, *of_bindings()]


def has(tool):
    if tool == "libFuzzer":
        text = "int LLVMFuzzerTestOneInput(const char *a, long b) { return a && b < 0; }"
        command = ["clang", "-fsanitize=fuzzer,address", "-x", "c", "-", "-o", os.devnull]
        return has("clang") and subprocess.run(command, input=text.encode(), capture_output=True).returncode == 0
    return shutil.which(tool) is not None


def environment():
    left = {name: value for name, value in os.environ.items() if name != "SEGCACHE_LIB"}
    return {**left, "CARGO_TARGET_DIR": str(ROOT / "bindings/out/cargo")}


class Run:
    """A run of parts, up to the first that fails."""

    def __init__(self, is_anew=False, is_strict=False):
        self.is_anew, self.is_strict = is_anew, is_strict
        self.rows, self.left_out, self.lacking, self.failed = [], [], [], None
        self.began = time.monotonic()
        LOGS.mkdir(parents=True, exist_ok=True)

    def all_of(self, parts):
        for part in parts:
            if self.failed is None:
                self.one(part)
        return self

    def one(self, part):
        lacking = [tool for tool in part.needs.split() if not has(tool)]
        if part.group in ("cases", "program") and not (ROOT / PROGRAMS.split()[0]).exists():
            self.left_out.append(f"{part.name}: rt ci builds it, or rt run in crates/segrun")
            return
        if lacking:
            # clang's fuzzer is no compiler: without it the rest still says what it says.
            to = self.left_out if lacking == ["libFuzzer"] else self.lacking
            to.append(f"{part.name}: no {', '.join(lacking)}")
            return
        key = self.key(part)
        said = None if self.is_anew or key is None else kept.found(key)
        if said is not None:
            self.rows.append((part.name, None, None))
            print(f"gate: {part.name}: kept, as the same passed on this machine", flush=True)
        else:
            raw = RAWS.get(part.name)
            if raw:
                # It is proved as it is built. Where it is back, bindings/archive finds that nothing is left to do.
                kept.give(key_of_archive(raw), raw.files())
            said = self.done(part)
            if raw and said is not None:
                kept.keep_files(key_of_archive(raw), raw.files())
            if None not in (said, key) and self.key(part) == key:  # unless a file was changed meanwhile
                kept.keep(key, said)
        for line in said or ():
            print(f"gate: not run: {line}", flush=True)
            self.left_out.append(line)

    def key(self, part):
        if not part.reads:
            return None
        return kept.digest(part, kept.machine(), kept.sum_of("tools/gate.py", *part.reads.split()))

    def done(self, part):
        """Runs a part. What it left out, or nothing if it failed."""
        log, start = LOGS / f"{part.name.replace(' ', '_')}.log", time.monotonic()
        with log.open("w") as file:
            to = {} if part.is_shown() else {"stdout": file, "stderr": subprocess.STDOUT}
            running = subprocess.Popen(["bash", "-euo", "pipefail", "-c", part.command], cwd=ROOT,
                                       stdin=subprocess.DEVNULL, env=environment(), **to)
            _, status, used = os.wait4(running.pid, 0)
            running.returncode = os.waitstatus_to_exitcode(status)
        seconds, processor = time.monotonic() - start, used.ru_utime + used.ru_stime
        self.rows.append((part.name, seconds, processor))
        lines = log.read_text(errors="replace").splitlines()
        if running.returncode:
            print(*lines[-40:], f"gate: {part.name} FAILED", sep="\n", flush=True)
            self.failed = part.name
            return None
        print(f"gate: {part.name}: {seconds:.0f} s, {processor:.0f} of processors", flush=True)
        return sorted({line.removeprefix("left out: ") for line in lines if line.startswith("left out: ")})

    def status(self):
        """Prints the table and the verdict, and returns the status."""
        used = [resource.getrusage(who) for who in (resource.RUSAGE_SELF, resource.RUSAGE_CHILDREN)]
        whole = ("all", time.monotonic() - self.began, sum(it.ru_utime + it.ru_stime for it in used))
        print(f"\n{'part':44}{'seconds':>9}{'of processors':>15}")
        for name, seconds, processor in [*self.rows, whole]:
            print(f"{name:44}" + ("     kept" if seconds is None else f"{seconds:9.0f}{processor:15.0f}"))
        for line in self.lacking:
            print(f"gate: a program is missing: {line}")
        if self.failed or self.lacking:
            print(f"gate: FAILED{f', at {self.failed}' if self.failed else ''}")
            return 1
        not_run = f"; not run: {'; '.join(dict.fromkeys(self.left_out))}" if self.left_out else ""
        print(f"gate: passed{not_run}")
        return 1 if self.left_out and self.is_strict else 0
