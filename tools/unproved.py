#!/usr/bin/env python3
# SPDX-License-Identifier: MIT
"""Runs cases of the program over the crates as they are, with no proof: `rt try` builds `segrun` and runs each case.

It takes the cases that have one command line, one input, no file and whole lines of output, and compares status and
standard output. tools/cases runs all of them, in each way, over what is built.
"""

import os
import re
import subprocess
import sys
import tempfile
from pathlib import Path

sys.dont_write_bytecode = True

from crates import ROOT, load

ENDED = re.compile(r"^case=(\S+) run=(\S+)(?: status=(\d+))?.*", re.MULTILINE)


def write(folder):
    """Writes the cases as `rt try` reads them, and returns them by their names."""
    cases, written = load("tools/cases"), {}
    for file in (file for part in ("scripts", "program") for file in sorted((ROOT / "tests" / part).glob("*.cases"))):
        for case in cases.cases_of(file):
            words = [os.fsdecode(word) for word in case.commands[0]]
            is_plain = len(case.commands) == len(case.inputs) == 1 and not case.files and words
            if not is_plain or any(mark for mark, _ in case.out) or any("\n" in word for word in words):
                continue
            name = f"case{len(written):03}"
            (folder / name).write_bytes(case.inputs[0])
            (folder / f"{name}.args").write_text("\n".join(words) + "\n", errors="surrogateescape")
            (folder / f"{name}.stdout").write_bytes(b"".join(cases.raw(line) + b"\n" for _, line in case.out))
            written[name] = case
    return written


def main():
    with tempfile.TemporaryDirectory() as room:
        cases = write(Path(room))
        command = ["rt", "try", "--steps", "1", "--cases", room]
        ran = subprocess.run(command, cwd=ROOT / "crates/segrun", capture_output=True, text=True, check=False)
    said = ran.stdout + ran.stderr
    ended = ENDED.findall(said)
    if len(ended) != len(cases):
        print(f"doesn't compile, or doesn't run: {said[-2000:]}")
        return 2
    failed = [cases[it[1]] for it in ENDED.finditer(said)
              if it[2] != "ended" or int(it[3]) != cases[it[1]].status or "output=expected" not in it[0]]
    for case in failed:
        print(f"{case.place}: {case.says}")
    print(f"{len(cases) - len(failed)} passed, {len(failed)} failed, of those that need no file")
    return 1 if failed else 0


if __name__ == "__main__":
    sys.exit(main())
