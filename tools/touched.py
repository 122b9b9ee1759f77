# SPDX-License-Identifier: MIT
"""What a change touches, and what is run for it."""

import re
import subprocess

import gate
from crates import ROOT, below, load, read_crates
from gate import Part


def git(*words):
    return subprocess.run(["git", *words], cwd=ROOT, capture_output=True, text=True, check=False).stdout


def base():
    """The commit that the change began at: where it left origin/main, or the last one."""
    return git("merge-base", "HEAD", "origin/main").strip() or "HEAD"


def files(since):
    return sorted({*git("diff", "--name-only", since).split("\n"),
                   *git("ls-files", "-o", "--exclude-standard").split("\n")} - {""})


def lines(since, file):
    """The numbers of the lines of a file that are new or changed, or that stand where some went."""
    for at, count in re.findall(r"^@@ -\S+ \+(\d+)(?:,(\d+))? @@", git("diff", "-U0", since, "--", file), re.MULTILINE):
        yield from range(int(at), int(at) + max(1, int(count or 1)))


def functions(since, changed):
    """The functions that changed lines are in, by crate and path. The path is empty for what is in none."""
    edits = load("tools/edits")
    for file in changed:
        if it := re.match(r"crates/(\w+)/(specs|proofs)/", file):
            yield it[1], ""
        if (it := re.fullmatch(r"crates/(\w+)/(src/.*\.rt)", file)) and (ROOT / file).exists():
            text = (ROOT / file).read_text()
            rows = text.splitlines(keepends=True)
            for number in lines(since, file):
                row = rows[min(number, len(rows)) - 1]
                place = len("".join(rows[: min(number, len(rows)) - 1]))
                function = edits.function_at(ROOT / "crates" / it[1], it[2], text, place)
                if function or row.strip() and not row.lstrip().startswith("//"):
                    yield it[1], function


def of_crates(since, changed):
    """For each crate that is touched: its layout, its changed functions, their edits, and tests of the crates above."""
    crates = read_crates()
    names = [name for name in crates if any(file.startswith(f"crates/{name}/") for file in changed)]
    sources = [name for name in names if any(re.match(rf"crates/{name}/(src|specs|proofs)/", file) for file in changed)]
    for name in sources:
        yield Part("crates", f"{name}: layout", f"cd crates/{name} && rt fmt --check", needs="rt")
    if {"segrun", *below("segrun", crates)} & {*sources}:
        yield Part("crates", "cases, unproved", "tools/unproved.py", needs="rt")
    tests = [name for name in crates if name.startswith("segtests_")]
    for name in tests:
        if name in sources or {*below(name, crates)} & {*sources}:
            command = f"cd crates/{name} && rt try --test --seconds 300"
            yield Part("crates", f"{name}: tests, unproved", command, needs="rt")
    found = list(dict.fromkeys(functions(since, changed)))
    # What is changed outside functions can matter to each of them.
    whole = [crate for crate, path in found if not path]
    for name in sources:
        only = "" if name in whole else "".join(f" --only {path}" for crate, path in found if crate == name)
        if only or name in whole:
            yield Part("core", f"{name}: what changed", f"cd crates/{name} && rt check{only}", needs="rt")
    whole += [it[1] for file in changed if (it := re.match(r"crates/(\w+)/edits/", file))]
    words = [*dict.fromkeys(whole), *(f"{crate}::{path}" for crate, path in found if crate not in whole)]
    words = [word for word in words if (ROOT / "crates" / word.partition("::")[0] / "edits").is_dir()]
    if words:
        yield Part("core", "edits of what changed", f"tools/edits {' '.join(words)}", needs="rt")


def is_archive_of_these():
    """Whether the library is built of the crates as they are."""
    return gate.has("rt") and subprocess.run([ROOT / "bindings/archive", "--of", ROOT / gate.ARCHIVE], cwd=ROOT,
                                             capture_output=True, check=False).returncode == 0


def parts(since, changed):
    yield gate.FORK[0]
    places = ("bindings/", "server/", "crates/", "tests/", "tools/cases", "tools/trial", "tools/checker/")
    touches = {part: any(file.startswith(part) for file in changed) for part in places}
    if any(touches.values()):
        yield from (part for part in gate.FORK if part.group in ("compare", "faults"))
    yield from of_crates(since, changed)
    if touches["tests/"] or touches["tools/cases"]:
        yield from (part for part in gate.CORE if part.group == "cases")
    if touches["tools/trial"] or touches["tools/checker/"]:
        yield from (part for part in gate.FORK if part.group == "checker")
    over_library = (touches["bindings/"] or touches["server/"]) and is_archive_of_these()
    if touches["bindings/"]:
        yield from (part for part in [*gate.FORK, *(gate.BUILT if over_library else [])] if part.group in ("c", "rust"))
    if touches["server/"] or "bindings/c/segcache.h" in changed:
        over = [part for part in gate.BUILT if part.group == "server"] if over_library else [gate.SERVER_OVER_STANDIN]
        yield from over


def check(run):
    since = base()
    changed = files(since)
    print(f"dev check: {len(changed)} files differ from {since[:8]}", flush=True)
    return run.all_of(parts(since, changed)).status()
