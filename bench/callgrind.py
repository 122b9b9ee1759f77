# SPDX-License-Identifier: MIT
"""Counts what a run of a program executes, by valgrind: its instructions, and those of them that are locked."""

import re
import subprocess
import tempfile
from functools import cache
from pathlib import Path

# An exchange with memory is locked without saying so.
LOCKED = re.compile(r"\s*([0-9a-f]+):\s+(?:lock |xchg\s.*\()")


@cache
def locked_places(path):
    """The addresses of a program's locked instructions."""
    command = ["objdump", "-d", "--no-show-raw-insn", path]
    code = subprocess.run(command, check=True, capture_output=True, text=True).stdout
    return {int(found[1], 16) for line in code.splitlines() if (found := LOCKED.match(line))}


def count(words, given):
    """How many instructions a program takes, and how many locked ones of its own."""
    path = str(Path(words[0]).resolve())
    with tempfile.NamedTemporaryFile("r") as told:
        call = ["valgrind", "--tool=callgrind", f"--callgrind-out-file={told.name}", "--dump-instr=yes",
                "--compress-strings=no", "--compress-pos=no", *map(str, words)]
        ran = subprocess.run(call, input=given, check=True, capture_output=True, text=True)
        locked = sum(times for of, place, times in executed(told) if of == path and place in locked_places(path))
    return int(re.search(r"Collected : (\d+)", ran.stderr)[1]), locked


def executed(lines):
    """Each place of the file that callgrind wrote: the object, the address in it, and how often that was executed."""
    of, is_call = "", False
    for line in lines:
        if line.startswith("ob="):
            of = line[3:].strip()
        elif line.startswith("0x") and not is_call:
            place, _, times = line.split()
            yield of, int(place, 16), int(times)
        # The line behind this one has what was called, which has lines of its own.
        is_call = line.startswith("calls=")
