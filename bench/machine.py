# SPDX-License-Identifier: MIT
"""What the figures depend on: the machine, and the versions of all that is measured."""

import os
import platform
import subprocess
from datetime import datetime, timezone
from pathlib import Path

from programs import BENCH, PROGRAMS, output


def try_output(*words):
    try:
        return output(*words)
    except (OSError, subprocess.CalledProcessError):
        return None


def first_line(text):
    return text.splitlines()[0] if text else None


def processor():
    for line in Path("/proc/cpuinfo").read_text().splitlines():
        if line.startswith("model name"):
            return line.split(":", 1)[1].strip()
    return platform.processor()


def caches():
    """The sizes of the caches of the first processor, by level and type."""
    found = {}
    for folder in sorted(Path("/sys/devices/system/cpu/cpu0/cache").glob("index*")):
        level, kind, size = ((folder / name).read_text().strip() for name in ("level", "type", "size"))
        found[f"L{level} {kind.lower()}"] = size
    return found


def memory():
    first = Path("/proc/meminfo").read_text().splitlines()[0]
    return first.split(":", 1)[1].strip()


def processor_times():
    """How long the processors were in which state so far, in ticks."""
    names = ["user", "nice", "system", "idle", "iowait", "irq", "softirq", "steal"]
    return dict(zip(names, map(int, Path("/proc/stat").read_text().splitlines()[0].split()[1:9])))


def packages():
    names = sorted({program.package for program in PROGRAMS if program.package})
    return {name: version for name in names if (version := try_output("dpkg-query", "-W", "-f", "${Version}", name))}


def crates_commit():
    """The last commit that changed the crates, which is what ours depends on."""
    root = str(BENCH.parent)
    commit = try_output("git", "-C", root, "log", "-1", "--format=%h", "--abbrev=8", "--", "crates", "crates.txt")
    changed = try_output("git", "-C", root, "status", "--porcelain", "--", "crates", "crates.txt")
    return f"{commit}-dirty" if changed else commit


def describe(options):
    """The first line of the results."""
    return {
        "kind": "machine",
        "time": datetime.now(timezone.utc).isoformat(timespec="seconds"),
        "processor": processor(),
        "processors": os.cpu_count(),
        "caches": caches(),
        "memory": memory(),
        "kernel": platform.release(),
        "load": os.getloadavg(),
        "commit": try_output("git", "-C", str(BENCH), "describe", "--always", "--dirty"),
        "crates": crates_commit(),
        "compiler": first_line(try_output("g++", "--version")),
        "rust": first_line(try_output("rustc", "--version")),
        "rattle": first_line(try_output("rt", "version")),
        "packages": packages(),
        "options": options,
    }
