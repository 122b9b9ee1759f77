# SPDX-License-Identifier: MIT
"""Runs by turns: each program once for each cell, and what the turns came to."""

import sys
import time
from dataclasses import asdict, fields

from compare import spread
from programs import sample


def take_turn(paths, cells, efforts, turn, samples, run):
    """Each program once for each of its cells. The one that begins is another one each turn."""
    for number, (cell, names) in enumerate(cells.items()):
        first = turn % len(names)
        for name in names[first:] + names[:first]:
            where = f"turn {turn + 1}, cell {number + 1} of {len(cells)}"
            print(f"\r{where}: {name:<16}", end="", file=sys.stderr, flush=True)
            samples.setdefault((name, cell), []).append(run(name, paths, cell, efforts[cell]))


def take_turns(paths, cells, efforts, minutes, most_turns, run=sample):
    """The samples of each program and cell: as many turns as fit into the time, or so many if there is no limit.

    Each cell has its programs, and its effort. `run` makes one sample.
    """
    samples = {}
    start = time.monotonic()
    turn, longest = 0, 0.0
    while turn == 0 or (turn < most_turns if minutes is None else time.monotonic() - start + longest <= 60 * minutes):
        before = time.monotonic()
        take_turn(paths, cells, efforts, turn, samples, run)
        longest = max(longest, time.monotonic() - before)
        turn += 1
    print(f"\r{turn} turns, {longest:.0f} seconds the longest{'':<20}", file=sys.stderr)
    return samples


def figure(name, cell, samples):
    """The line of a program and a cell."""
    line = {"kind": "figure", "program": name, **asdict(cell), "turns": len(samples)}
    for field in fields(samples[0]):
        numbers = [getattr(one, field.name) for one in samples]
        if None not in numbers:
            line[field.name] = spread(numbers)
    return line
