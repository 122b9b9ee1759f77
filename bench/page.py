# SPDX-License-Identifier: MIT
"""The cells of docs/MEASUREMENTS.md, and the tables that it has of them."""

from collections import defaultdict
from itertools import product
from statistics import median

# Programs, mixes, keys, threads, shapes and pages. Keys are drawn both ways.
PEERS = ["reference", "lru_spin", "absl_spin", "dashmap", "tbb", "libcuckoo", "urcu"]
TWINS = ["reference", "floor"]
PAGE = [
    ([*PEERS, "floor"], ["mixed", "b"], [64, 100_000, 400_000], [1, 4], ["large"], ["small"]),
    (TWINS, ["gets", "sets"], [64, 100_000, 400_000], [1, 4], ["large"], ["small"]),
    ([*PEERS, "floor", "absl_prefetch"], ["gets16", "mixed16"], [100_000, 400_000], [1, 4], ["large"], ["small"]),
    (["reference"], ["gets16apart", "mixed16apart"], [100_000, 400_000], [1, 4], ["large"], ["small"]),
    ([*TWINS, "absl_spin", "dashmap"], ["mixed", "gets16"], [100_000, 400_000], [1, 4], ["large"], ["huge"]),
    (["reference", "absl_spin", "dashmap"], ["mixed", "b"], [100_000], [1, 4], ["planned"], ["small"]),
]
PAGE_ROUNDS = 3
THREADS = (1, 4)

# The rows of the table of times: mix, draw, keys, threads, shape.
ROWS = [("mixed", "zipf", 64, 4, "large"),
        *((mix, "zipf", 100_000, threads, shape) for (mix, shape), threads in product(
            [("mixed", "large"), ("b", "large"), ("gets16", "large"), ("mixed", "planned")], THREADS))]
# The columns of the table of releases: the mix and the threads. All are by Zipf's law over 100,000 keys.
FRONT = [("mixed", 1), ("mixed", 4), ("gets16", 1), ("gets16", 4)]
# The programs of the tables of times.
SHOWN = ["ours", "reference", "floor", "absl_spin", "dashmap"]
# The order of the caches in their tables. What runs in a JVM stands last.
CACHES = ["ours", "ours_c", "lru_spin", "lru_mutex", "tbb_lru", "rust_lru", "s3fifo", "caffeine"]
# The cells of the latencies that the page shows.
TIMED = [("mixed", 4), ("b", 4)]
# Beside the twins ours is to cost at most so many times as much.
AIMS = {"reference": 1.0, "floor": 1.1}


def ranged(numbers, digits=0):
    """The median, and the quartiles in one word."""
    middle, lower, upper = (f"{numbers[place]:,.{digits}f}" for place in ("median", "lower_quartile", "upper_quartile"))
    return f"{middle} ({lower}–{upper})"


def spanned(numbers, digits=0):
    """The median, and in brackets the least and the largest where these differ."""
    middle, least, most = (f"{one:,.{digits}f}" for one in (median(numbers), min(numbers), max(numbers)))
    return middle if min(numbers) == max(numbers) else f"{middle} ({least}–{most})"


def claimed(one):
    """A ratio, which is bold where the quartiles of the costs don't overlap."""
    text = ranged(one["ratio"], 2)
    return f"**{text}**" if one["is_claimed"] else text


def over(ones):
    """The lowest and the highest median, and in how many cells ours may be called less and more."""
    medians = [one["ratio"]["median"] for one in ones]
    less = sum(one["is_claimed"] and one["ratio"]["median"] < 1 for one in ones)
    more = sum(one["is_claimed"] and one["ratio"]["median"] >= 1 for one in ones)
    return f"{min(medians):.2f}–{max(medians):.2f} ({less}/{more})"


class Results:
    """Lines of bench/run, by what they are of."""

    def __init__(self, lines):
        self.figures = {(*self.place(one), one["program"]): one for one in lines if one["kind"] == "figure"}
        self.compared = [one for one in lines if one["kind"] == "comparison"]
        self.commit = lines[0].get("crates", "")

    def of(self, **wanted):
        """The figures of the cells that have these parts."""
        return [one for one in self.figures.values() if all(one[name] == part for name, part in wanted.items())]

    @staticmethod
    def place(cell):
        return tuple(cell[name] for name in ("mix", "draw", "keys", "threads", "shape", "pages"))

    def cost(self, place, program, show=ranged):
        """What a program's commands cost, or nothing where it wasn't measured."""
        figure = self.figures.get((*place, program))
        return show(figure["process_ns"]) if figure else ""

    def beside(self, program, **wanted):
        """The comparisons with a program, of the cells that have these parts."""
        return [one for one in self.compared if one["beside"] == program
                and all(one["cell"][name] in parts for name, parts in wanted.items())]

    def best(self, cell):
        """The comparison with the peer that cost the least in a cell."""
        names = (*PEERS[1:], "absl_prefetch")
        peers = [one for one in self.compared if self.place(one["cell"]) == cell and one["beside"] in names]
        return min(peers, key=lambda one: self.figures[(*cell, one["beside"])]["process_ns"]["median"], default=None)


def times_table(results):
    found = [("Mix and draw", "Keys", "Threads", *SHOWN)]
    for mix, draw, keys, threads, shape in ROWS:
        place = (mix, draw, keys, threads, shape, "small")
        label = ", ".join([mix, draw] + ["planned"] * (shape == "planned"))
        found.append((label, f"{keys:,}", threads, *(results.cost(place, name) for name in SHOWN)))
    return found


def ratios_table(results):
    """Ours divided by each, and by itself."""
    usual = {"mix": ["mixed", "b", "gets", "sets"], "shape": ["large"], "pages": ["small"]}
    rows = [(name, name, usual) for name in dict.fromkeys([*TWINS, *PEERS])]
    rows += [("the same 16 gets, one by one", "apart", {"mix": ["gets16"]}),
             ("16 mixed without look ahead", "apart", {"mix": ["mixed16"]}),
             ("small pages (ours huge)", "small pages", {})]
    found = [("Ours divided by", "One thread", "Four")]
    for label, beside, wanted in rows:
        by_threads = [results.beside(beside, threads=[threads], **wanted) for threads in THREADS]
        found.append((label, *(over(ones) if ones else "" for ones in by_threads)))
    for name, aim in AIMS.items():
        within = [[one["ratio"]["median"] <= aim for one in results.beside(name, threads=[threads], **usual)]
                  for threads in THREADS]
        found.append((f"{name}: at most {aim}", *(f"{sum(ones)} of {len(ones)}" for ones in within)))
    return found


def at_hand_table(results):
    """Sixteen gets of ours, divided by those of the best peer, whose name stands beside."""
    found = [("16 gets", "One thread", "Four")]
    for draw, keys in product(("uniform", "zipf"), (100_000, 400_000)):
        best = [results.best(("gets16", draw, keys, threads, "large", "small")) for threads in THREADS]
        found.append((f"{draw}, {keys:,}", *(f'{claimed(one)} {one["beside"]}' if one else "" for one in best)))
    return found


def latencies_table(results):
    """Percentiles by the clock, with their quartiles."""
    fields = {"50th": "p50_ns", "99.9th": "p999_ns"}
    heads = [f"{mix}: {name}" if name == "50th" else name for mix, _ in TIMED for name in fields]
    found = [("Program", *heads)]
    for name in SHOWN:
        places = [(mix, "zipf", 100_000, threads, "large", "small", name) for mix, threads in TIMED]
        if any(place not in results.figures for place in places):
            continue
        figures = [results.figures[place] for place in places]
        found.append((name, *(ranged(figure[field]) for figure in figures for field in fields.values())))
    return found


def library_table(results):
    """Ours through the library for C, divided by ours without it: over few keys and over many."""
    found = [("Through C", "One thread", "Four")]
    for mix in ("gets", "sets", "mixed"):
        by_threads = [results.beside("ours_c", mix=[mix], threads=[threads]) for threads in (1, 4)]
        by_threads = [sorted(ones, key=lambda one: one["cell"]["keys"]) for ones in by_threads]
        found.append((mix, *(", ".join(f'{1 / one["ratio"]["median"]:.2f}' for one in ones) for ones in by_threads)))
    return found


def release_row(version, results, instructions):
    """The line of a release: ours and the reference, of one turn each, and the instructions of ours."""
    cells = [version, results.commit]
    for mix, threads in FRONT:
        place = (mix, "zipf", 100_000, threads, "large", "small")
        cells.append(", ".join(results.cost(place, name, lambda cost: f'{cost["median"]:.0f}') for name in SHOWN[:2]))
    counts = {one["mix"]: one["count"] for one in instructions if one["kind"] == "instructions"
              and one["program"] == "ours" and one["keys"] == 100_000}
    cells.append(", ".join(f"{counts[mix]:.0f}" for mix in ("gets", "sets", "mixed")))
    return tuple(cells)


def instructions_table(lines):
    """Instructions a command and, in brackets, the locked ones of these, by mix and keys."""
    counts = defaultdict(dict)
    for one in lines:
        if one["kind"] == "instructions":
            counts[one["program"]][one["mix"], one["keys"]] = f'{one["count"]:.0f} ({one["locked"]:.1f})'
    places = list(dict.fromkeys(place for by_place in counts.values() for place in by_place))
    found = [("Instructions", *(f"{mix}, {keys:,}" for mix, keys in places))]
    for program, by_place in counts.items():
        found.append((program, *(by_place.get(place, "") for place in places)))
    return found


def caches_tables(lines, is_timed=True):
    """The index beside other caches: where each miss evicts, and with room for all keys, if that was measured."""
    figures = [one for one in lines if one["kind"] == "figure"]
    names = [name for name in CACHES if any(one["program"] == name for one in figures)]
    evicting = [one for one in figures if one["room"] or one["bytes"]]
    usual = [one for one in figures if not (one["room"] or one["bytes"])]
    tables = [evicting_table(evicting, names, is_timed)]
    if is_timed:
        compared = [one for one in lines if one["kind"] == "comparison" and one["cell"]["mix"] == "fetches"]
        tables.append(evicting_ratios(compared, names))
    return tables + ([usual_table(usual, names)] if usual else [])


def evicting_table(figures, names, is_timed):
    """By equal items and equal bytes: costs by threads, and hit rates on these threads."""
    threads = sorted({one["threads"] for one in figures})
    on = ", ".join(map(str, threads))
    costs = [f"ns on {count}" for count in threads] if is_timed else []
    found = [("Where each miss evicts", "Items", *costs, f"hits in %, on {on}", "Items in equal bytes", *costs, "hits")]
    for name in names:
        row = [name]
        for equal in ("room", "bytes"):
            ones = {one["threads"]: one for one in figures if one["program"] == name and one[equal]}
            row.append(", ".join(f"{room:,}" for room in dict.fromkeys(one["room_had"] for one in ones.values())))
            row += [ranged(ones[count]["process_ns"]) for count in threads if is_timed]
            row.append(", ".join(f'{100 * ones[count]["hits"]["median"]:.1f}' for count in threads))
        found.append(tuple(row))
    return found


def evicting_ratios(compared, names):
    """What ours costs divided by what each costs in the same turn, by equal items and by equal bytes."""
    threads = sorted({one["cell"]["threads"] for one in compared})
    found = [("Ours divided by, where each miss evicts",
              *(f"equal {equal}, {count}" for equal in ("items", "bytes") for count in threads))]
    for name in names:
        ones = {(bool(one["cell"]["bytes"]), one["cell"]["threads"]): one for one in compared if one["beside"] == name}
        if ones:
            found.append((name, *(claimed(ones[place]) for place in product((False, True), threads))))
    return found


def usual_table(figures, names):
    """A row for each mix, keys and threads, and a column for each cache that can do them."""
    by_cell = defaultdict(dict)
    for one in figures:
        by_cell[one["mix"], one["keys"], one["threads"]][one["program"]] = ranged(one["process_ns"])
    names = [name for name in names if any(name in costs for costs in by_cell.values())]
    found = [("With room for all", "Keys", "Threads", *names)]
    for (mix, keys, threads), costs in by_cell.items():
        found.append((mix, f"{keys:,}", threads, *(costs.get(name, "") for name in names)))
    return found


def markdown(rows):
    """The lines of a table, whose first row is the head."""
    lines = ["| " + " | ".join(map(str, row)) + " |" for row in rows]
    return [lines[0].replace("  ", " "), "|---" * len(rows[0]) + "|", *(line.replace("  ", " ") for line in lines[1:])]


def data(lines):
    """All figures, as docs/figures has them."""
    figures = [one for one in lines if one["kind"] == "figure"]
    found = [("mix", "draw", "keys", "threads", "shape", "pages", "program", "median", "lower", "upper", "busy")]
    for one in figures:
        cost, busy = one["process_ns"], f'{100 * one["busy"]["median"]:.3f}'
        numbers = [f"{cost[place]:.0f}" for place in ("median", "lower_quartile", "upper_quartile")]
        found.append((*map(str, Results.place(one)), one["program"], *numbers, busy))
    what = "Processor time of a command in nanoseconds: median and quartiles of the turns; the share of Busy in %."
    return lines_of(what, lines, found)


def latency_data(lines):
    found = [("mix", "draw", "keys", "threads", "program", "percentile", "median", "lower", "upper")]
    for one in (one for one in lines if one["kind"] == "figure" and "p50_ns" in one):
        for name, field in (("50", "p50_ns"), ("99", "p99_ns"), ("99.9", "p999_ns")):
            numbers = [f"{one[field][place]:.0f}" for place in ("median", "lower_quartile", "upper_quartile")]
            found.append((*map(str, Results.place(one)[:4]), one["program"], name, *numbers))
    what = "Latency of each 64th command in nanoseconds of the clock: median and quartiles of the turns."
    return lines_of(what, lines, found)


def lines_of(what, lines, rows):
    head = f'# {what} {lines[0]["time"][:10]}, at {lines[0]["crates"]}, {turns(lines)} turns.'
    return "\n".join([head, *("\t".join(row) for row in rows), ""])


def turns(lines):
    return max((one["turns"] for one in lines if one["kind"] == "figure"), default=0)


def taken(runs):
    """When all was taken, of which commit, and of how many turns."""
    first = runs["results"][0]
    numbers = [turns(runs[name]) for name in ("results", "caches", "latencies", "c")]
    return (f'Taken on {first["time"][:10]}, at {first["crates"]}: {numbers[0]} turns, beside caches {numbers[1]}, '
            f"of latencies {numbers[2]}, through C {numbers[3]}.")
