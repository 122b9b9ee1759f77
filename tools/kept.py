# SPDX-License-Identifier: MIT
"""What passed on this machine, by the sum of all that it read. The gate doesn't run it once more.

It lies in segcache-gate below $XDG_CACHE_HOME or ~/.cache, so that all checkouts share it. A sum is of the contents of
files, of the machine's programs and of the words that run something; so what is kept never goes stale.
Where SEGCACHE_ANEW is set, nothing kept is believed.
"""

import functools
import hashlib
import json
import os
import shutil
import subprocess
import tempfile
from pathlib import Path

from crates import ROOT

STORE = Path(os.environ.get("XDG_CACHE_HOME") or Path.home() / ".cache") / "segcache-gate"
# How many archives are kept.
MOST_FILES = 8
# What of the environment changes how something is built or run.
SETTINGS = """CC CXX AR CFLAGS CXXFLAGS CPPFLAGS LDFLAGS MAKEFLAGS LD_PRELOAD LD_LIBRARY_PATH RUSTFLAGS RUSTDOCFLAGS
WIDE FUZZ LIB RAW HEAP INCLUDE PATH LANG LC_ALL MEMCACHED_SOURCE""".split()
VERSIONS = (["dpkg-query", "-W"], ["uname", "-srm"], ["id", "-u"], ["cc", "--version"], ["c++", "--version"],
            ["clang", "--version"], ["make", "--version"], ["cargo", "--version"], ["rustc", "--version"],
            ["python3", "--version"], ["valgrind", "--version"], ["rt", "version"])


def digest(*values):
    return hashlib.sha256(repr(values).encode()).hexdigest()


def said_by(command):
    try:
        return subprocess.run(command, capture_output=True, text=True, check=False).stdout
    except OSError:
        return None


@functools.cache
def machine():
    """A sum of what is installed, and of what the environment sets."""
    return digest([said_by(it) for it in VERSIONS], [os.environ.get(name) for name in SETTINGS])


def files_of(places):
    """The files of these files and folders, but for those that git ignores; and built files by their names."""
    listed = subprocess.run(["git", "ls-files", "-coz", "--exclude-standard", "--", *places], cwd=ROOT, check=True,
                            capture_output=True, text=True).stdout
    built = [place for place in places if (ROOT / place).is_file()]
    return sorted({*filter(None, listed.split("\0")), *built})


def sum_of(*places):
    """A sum of what stands in these files and folders. A place that isn't there counts as such."""
    files = [(name, (ROOT / name).stat().st_mode & 0o111, hashlib.sha256((ROOT / name).read_bytes()).hexdigest())
             for name in files_of(places) if (ROOT / name).is_file()]
    return digest(files, [place for place in places if not (ROOT / place).exists()])


def give(key, files):
    """Puts these files back where they were, as they were kept under this sum."""
    folder = STORE / "files" / key
    if not os.environ.get("SEGCACHE_ANEW") and folder.is_dir():
        for number, file in enumerate(files):
            (ROOT / file).parent.mkdir(parents=True, exist_ok=True)
            shutil.copyfile(folder / str(number), ROOT / file)
        os.utime(folder)


def keep_files(key, files):
    """Keeps these files under this sum, and of all that were kept so the newest few."""
    folder = STORE / "files" / key
    if folder.is_dir() or not all((ROOT / file).exists() for file in files):
        return
    STORE.mkdir(parents=True, exist_ok=True)
    room = Path(tempfile.mkdtemp(dir=STORE))
    for number, file in enumerate(files):
        shutil.copyfile(ROOT / file, room / str(number))
    folder.parent.mkdir(exist_ok=True)
    room.rename(folder)
    for old in sorted(folder.parent.iterdir(), key=lambda it: it.stat().st_mtime)[:-MOST_FILES]:
        shutil.rmtree(old, ignore_errors=True)


def found(key):
    """What is kept under this sum, or nothing."""
    try:
        told = json.loads((STORE / key[:2] / key).read_text())
        return None if os.environ.get("SEGCACHE_ANEW") or told["key"] != key else told["said"]
    except (OSError, ValueError, KeyError, TypeError):
        return None


def keep(key, said):
    """Keeps under this sum what was said. It is renamed into its place, so no other run meets half of it."""
    try:
        (STORE / key[:2]).mkdir(parents=True, exist_ok=True)
        with tempfile.NamedTemporaryFile("w", dir=STORE, delete=False) as file:
            json.dump({"key": key, "said": said}, file)
        os.replace(file.name, STORE / key[:2] / key)
    except OSError as error:
        print(f"tools: nothing is kept: {error}", flush=True)
