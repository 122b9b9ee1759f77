# SPDX-License-Identifier: MIT
"""Two programs beside each other, turn by turn, and what may be claimed of them."""

from collections import defaultdict
from dataclasses import asdict, dataclass, replace

from programs import Cell

# Of a cell of the reference beside itself, how far the quartiles of the turns' ratios may lie from 1.
QUIET = 0.1
# The share of the time that other guests of the machine may take.
STOLEN = 0.01


def spread(numbers):
    """The ends, the median and the quartiles. Between two numbers a quartile lies on the straight line."""
    numbers = sorted(numbers)

    def at(share):
        place, rest = divmod(share * (len(numbers) - 1), 1)
        low, high = numbers[int(place)], numbers[min(int(place) + 1, len(numbers) - 1)]
        return round(low + rest * (high - low), 6)

    places = {"lowest": 0, "lower_quartile": 0.25, "median": 0.5, "upper_quartile": 0.75, "highest": 1}
    return {place: at(part) for place, part in places.items()}


@dataclass(frozen=True)
class Comparison:
    """What a program cost in a cell, divided by what another one cost in the same turn."""

    program: str
    beside: str
    cell: Cell
    turns: int
    ratio: dict
    # Whether the quartiles of the costs don't overlap.
    is_claimed: bool


def compare(program, beside, cell, ours, theirs):
    ratio = spread([one.process_ns / other.process_ns for one, other in zip(ours, theirs)])
    left, right = (spread([one.process_ns for one in taken]) for taken in (ours, theirs))
    is_apart = left["upper_quartile"] < right["lower_quartile"] or right["upper_quartile"] < left["lower_quartile"]
    return Comparison(program, beside, cell, len(ours), ratio, is_apart and len(ours) > 2)


def comparisons(samples, program):
    """One program beside each of the others, in each cell."""
    return [compare(program, beside, cell, samples[program, cell], theirs)
            for (beside, cell), theirs in samples.items() if beside != program and (program, cell) in samples]


def own_comparisons(samples, program):
    """A program beside itself: beside single calls for the keys at hand, and with huge pages beside small ones."""
    found = []
    for (name, cell), ours in samples.items():
        others = {"apart": replace(cell, mix=f"{cell.mix}apart"), "small pages": replace(cell, pages="small")}
        for beside, other in others.items():
            if name == program and other != cell and (name, other) in samples:
                found.append(compare(name, beside, cell, ours, samples[name, other]))
    return found


def lines_of(compared):
    """The comparisons as they are written."""
    return [{"kind": "comparison", **asdict(one)} for one in compared]


def shown(ratio):
    return f'{ratio["median"]:.2f} ({ratio["lower_quartile"]:.2f} to {ratio["upper_quartile"]:.2f})'


def tell_claims(compared):
    """Prints which cells may be claimed. Of a cell whose quartiles overlap nothing is said."""
    by_program = defaultdict(list)
    for one in compared:
        by_program[one.beside].append(one)
    for beside, ones in by_program.items():
        below = [one for one in ones if one.is_claimed and one.ratio["median"] < 1]
        above = [one for one in ones if one.is_claimed and one.ratio["median"] >= 1]
        print(f"{ones[0].program} beside {beside}, {ones[0].turns} turns: less in {len(below)} cells of {len(ones)}, "
              f"more in {len(above)}, open in {len(ones) - len(below) - len(above)}")
        for one in ones:
            verdict = ("less" if one.ratio["median"] < 1 else "more") if one.is_claimed else "open"
            print(f"  {verdict}  {shown(one.ratio)}  {one.cell}")


def tell_quiet(compared, before, after):
    """Prints how far a program was from itself, and is whether that is near enough."""
    is_quiet = True
    for one in compared:
        is_near = abs(one.ratio["lower_quartile"] - 1) <= QUIET and abs(one.ratio["upper_quartile"] - 1) <= QUIET
        is_quiet = is_quiet and is_near
        print(f'{"quiet " if is_near else "unsure"}  {shown(one.ratio)}  {one.cell}, {one.turns} turns')
    spent = {name: after[name] - before[name] for name in after}
    stolen = spent["steal"] / max(1, sum(spent.values()))
    print(f"taken by other guests: {100 * stolen:.1f} % of the time")
    is_quiet = is_quiet and stolen <= STOLEN
    print("quiet enough" if is_quiet else "not quiet enough: figures of now don't count")
    return is_quiet
