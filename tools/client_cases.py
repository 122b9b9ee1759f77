# SPDX-License-Identifier: MIT
"""Reads the cases of clients, in tests/clients, and compares what `segcalls` answered. tools/calls has their form."""

import operator
import re
import subprocess
import sys
import tempfile
from pathlib import Path
from typing import NamedTuple

TOP = Path(__file__).resolve().parent.parent
FOLDER = TOP / "tests/clients"
COMPARED = {"=": operator.eq, "<": operator.lt, "<=": operator.le, ">": operator.gt, ">=": operator.ge}
COUNTED = {"+": operator.add, "-": operator.sub, "*": operator.mul}
DEFAULT_BYTES = 32
# `rt try` runs its interpreter for one step: what counts is the checked build.
TRY = ["rt", "try", "--steps", "1", "--seconds", "900", "--cases"]

sys.dont_write_bytecode = True
sys.path.insert(0, str(FOLDER))
import loops


class Case(NamedTuple):
    """A case: each line of input stands beside the reply that is wanted."""
    place: str
    says: str
    lines: list

    def has(self, words):
        return not words or any(word in f"{self.place} {self.says}" for word in words)


def written(path):
    """The cases of a file, which empty lines part."""
    number = 1
    for block in re.split(r"\n{2,}", path.read_text().rstrip("\n")):
        lines = block.split("\n")
        says = " ".join(line[2:] for line in lines if line.startswith("# "))
        asked = [line for line in lines if not line.startswith("# ")]
        place = f"{path.name}:{number}"
        if asked[:1] != ["segcalls"]:
            sys.exit(f"{place}: a case begins with a line `segcalls`, behind what it shows")
        yield Case(place, says, [re.split(r" {2,}", line.rstrip(), maxsplit=1) for line in asked[1:]])
        number += block.count("\n") + 2


def all_cases(words=(), most=DEFAULT_BYTES):
    """The cases whose place or sentence has one of the words. Values have at most so many bytes."""
    cases = [case for path in sorted(FOLDER.glob("*.calls")) for case in written(path)]
    cases += [Case(f"loops.py: {name}", says, lines) for name, says, lines in loops.generated(most)]
    return [case for case in cases if case.has(words)]


def input_of(cases):
    return "".join(f"{line[0]}\n" for case in cases for line in case.lines)


def by_case(lines):
    """The replies to each case, as `rt try` writes them one after another."""
    replies = None
    for line in lines:
        if line.startswith("== "):
            if replies is not None:
                yield replies
            replies = []
        elif replies is not None:
            replies.append(line.rstrip("\n"))
    if replies is not None:
        yield replies


def tried(folder, cases, errors):
    """Each case with its replies by the crate in this folder, as `rt try` compiles it, without proofs. To close this
    ends the run. What `rt try` tells goes into a file."""
    with tempfile.TemporaryDirectory() as inputs:
        for number, case in enumerate(cases):
            (Path(inputs) / f"{number:04}").write_text(input_of([case]))
        ran = subprocess.Popen([*TRY, inputs], cwd=folder, text=True, stdin=subprocess.DEVNULL, stdout=subprocess.PIPE,
                               stderr=errors)
        try:
            yield from zip(cases, by_case(ran.stdout))
        finally:
            ran.terminate()
            ran.wait()


def worth(words, kept):
    """What numbers, and names of numbers that were kept, come to, from the left to the right."""
    numbers = [kept[word] if word in kept else int(word) for word in words[::2]]
    result = numbers[0]
    for sign, number in zip(words[1::2], numbers[1:], strict=True):
        result = COUNTED[sign](result, number)
    return result


def fits(wanted, told, kept):
    """Whether a reply is what was wanted. `kept` has the numbers that earlier replies of the case named."""
    first, *words = wanted.split(" ")
    if first == "/":
        return re.fullmatch(wanted[2:], told) is not None
    if first != "*" and first not in COMPARED:
        return wanted == told
    number = re.search(r"\d+", told)
    if first == "*":
        kept.update({name: int(number[0]) if number else 0 for name in words})
        return True
    return number is not None and COMPARED[first](int(number[0]), worth(words, kept))


def faults(cases, replies):
    """For each case that failed what was asked there first, and what was told in place of what was wanted."""
    at = 0
    for case in cases:
        kept, fault = {}, None
        for asked, wanted in case.lines:
            told = replies[at] if at < len(replies) else "nothing"
            at += 1
            if fault is None and not fits(wanted, told, kept):
                named = "".join(f", {name} is {number}" for name, number in kept.items() if name in wanted.split())
                fault = f"{asked[:100]}\n    wanted {wanted[:200]}{named}\n    got    {told[:200]}"
        if fault:
            yield case, fault
    if at < len(replies):
        yield Case("the end", "No reply is left over.", []), f"{len(replies) - at} replies more"
