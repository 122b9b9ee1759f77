# SPDX-License-Identifier: MIT
"""Figures (SVG, by gnuplot) of what bench/run, bench/hits and `segrun replay --sizes` wrote."""

import shutil
import subprocess
from collections import defaultdict
from typing import NamedTuple

# The order of the programs in figures, which also gives each its colour.
ORDER = ["ours", "reference", "absl_spin", "absl_mutex", "std_mutexes", "dashmap", "tbb", "libcuckoo", "urcu",
         "absl_prefetch", "ours_c"]
PARTS = ("median", "lower_quartile", "upper_quartile")
STYLE = """
set terminal svg size 640,420 font "sans,12" background "white"
set key outside right top
set grid ytics
set linetype 9 linecolor rgb "gray40" pointtype 9
"""


class Curve(NamedTuple):
    name: str
    points: list  # rows of numbers
    look: str  # which of them are drawn, and how


def can_draw():
    return shutil.which("gnuplot") is not None


def draw(path, title, settings, curves):
    blocks = ["\n".join([f"$curve{at} << END", *(" ".join(map(str, row)) for row in curve.points), "END"])
              for at, curve in enumerate(curves)]
    lines = ", ".join(f'$curve{at} {curve.look} title "{curve.name}" noenhanced' for at, curve in enumerate(curves))
    script = [STYLE, *settings, f'set title "{title}"', f'set output "{path}"', *blocks, f"plot {lines}"]
    subprocess.run(["gnuplot"], input="\n".join(script), text=True, check=True)


def draw_times(path, title, figures):
    """What a command costs by threads: a line with quartiles for each program, and a thicker one for ours."""
    figures, curves = sorted(figures, key=lambda one: one["threads"]), []
    for place, name in enumerate(ORDER, 1):
        points = [(one["threads"], *(one["process_ns"][part] for part in PARTS)) for one in figures
                  if one["program"] == name]
        look = f"using 1:2:3:4 with yerrorlines linetype {place} linewidth {3 if name == 'ours' else 1}"
        curves += [Curve(name, points, look)] if points else []
    threads = sorted({one["threads"] for one in figures})
    draw(path, title, ["set yrange [0:*]", 'set ylabel "nanoseconds of processor time a command"',
                       f'set xlabel "threads"\nset xtics ({", ".join(map(str, threads))})'], curves)


def draw_hits(path, lines):
    """Hit rates by workload: a point for each cache, side by side. Ours is larger."""
    lines = [one for one in lines if one["kind"] == "hits"]
    caches, workloads = (list(dict.fromkeys(one[name] for one in lines)) for name in ("cache", "workload"))
    curves = []
    for place, cache in enumerate(caches):
        aside = 0.08 * (place - (len(caches) - 1) / 2)
        points = [(f'{workloads.index(one["workload"]) + aside:.2f}', f'{100 * one["hits"] / one["gets"]:.2f}')
                  for one in lines if one["cache"] == cache]
        look = "linetype 7 pointsize 1.3" if "default" in cache else f"linetype {place + 1 + (place > 5)} pointsize 0.8"
        curves.append(Curve(cache, points, f"using 1:2 with points {look}"))
    names = ", ".join(f'"{name}" {at}' for at, name in enumerate(workloads))
    draw(path, "Hit rates: the index in as many bytes as memcached, the others with as many items",
         [f"set xtics ({names}) noenhanced", f"set xrange [-0.5:{len(workloads) - 0.5}]",
          'set ylabel "hit rate in %"'], curves)


def draw_sizes(path, caches):
    """Hit rates by memory, a line for each policy: what `segrun replay --sizes --format json` writes."""
    points = defaultdict(list)
    for cache in caches:
        points[cache["policy"]].append((cache["bytes"] / 2**20, 100 * cache["hits"] / max(1, cache["gets"])))
    curves = [Curve(policy, sorted(found), "with linespoints linewidth 2") for policy, found in points.items()]
    draw(path, "Hit rates by memory", ["set logscale x 2", 'set xlabel "MiB"', 'set ylabel "hit rate in %"'], curves)
