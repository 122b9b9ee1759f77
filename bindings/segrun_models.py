# SPDX-License-Identifier: MIT
"""Slow models of what `segrun` writes, for fuzz-program: for scripts of any passes, and words.

They follow the pages, and share nothing with the sources. Keys stand in a dict, and a segment is a list of items.
"""

import re
from collections import Counter, defaultdict
from functools import cache

U32 = 2**32
SHAPE = {"buckets": 1, "overflow": 0, "passes": 1, "segments": 1, "rows": 8, "first-version": 0}
FORMS = {"refill": "nn", "evict": "n", "keep": "nc", "set": "kvm", "add": "kvm", "replace": "kvm", "cas": "kvnm",
         "delete": "km", "get": "km", "gets": "km", "hold": "km", "held": "", "release": "", "lock": "k", "unlock": ""}
TALLIES = "hit miss stored not_stored exists not_found deleted noroom bucketfull busy".split()


def number(word, most=U32 - 1):
    return int(word) if re.fullmatch(rb"0|[1-9][0-9]{0,9}", word) and int(word) <= most else None


READERS = {"n": number, "c": lambda word: number(word, 255),
           "m": lambda word: number(word[1:]) if word[:1] == b"@" else None,
           "k": lambda word: word if re.fullmatch(rb"[!-~]{1,24}", word) else None,
           "v": lambda word: word if re.fullmatch(rb"[!-~]{1,32}", word) else None}


def turn_of(line, passes):
    """Pass, command and arguments of a line of a script, or None if the line is bad."""
    who, *words = line.split(b" ")
    command = words[0].decode("latin-1") if words else ""
    number_of = number(who[1:], passes - 1) if who[:1] == b"p" else None
    if len(line) > 128 or number_of is None or command not in FORMS or len(words) - 1 != len(FORMS[command]):
        return None
    arguments = [READERS[form](word) for form, word in zip(FORMS[command], words[1:])]
    return None if None in arguments else (number_of, command, arguments)


def shape_fault(shape):
    """The number of the first rule that a shape breaks, or 0."""
    buckets, overflow, passes, segments, rows, _ = shape.values()
    rules = [buckets & (buckets - 1) == 0 < buckets <= 65536, overflow <= 65536, 1 <= passes <= 64,
             1 <= segments <= 1024, 1 <= rows <= 4096,
             1 + 8 * (buckets + overflow) + passes * segments * (1 + 8 * rows) <= 2**26]
    return 0 if all(rules) else rules.index(False) + 1


@cache
def hash_of(key):
    """64-bit FNV-1a."""
    of = 0xCBF29CE484222325
    for byte in key:
        of = (of ^ byte) * 0x100000001B3 % 2**64
    return of


class Item:
    def __init__(self, key, value, segment):
        self.key, self.value, self.segment, self.frequency = key, value, segment, 1


class Index:
    """The commands of a script, one after another. `turn` returns the reply."""

    def __init__(self, shape):
        self.buckets, self.overflow, passes, self.owned, self.room, self.first = shape.values()
        self.items, self.writes, self.width = {}, Counter(), defaultdict(lambda: 1)
        self.state, self.deadline = ["empty"] * passes * self.owned, [0] * passes * self.owned
        self.rows = [[] for _ in self.state]
        self.current, self.locked, self.holding = ([None] * passes for _ in range(3))

    def bucket(self, key):
        return hash_of(key) % self.buckets

    def present(self, key, now):
        item = self.items.get(key)
        return item if item and self.deadline[item.segment] > now else None

    def is_locked(self, key):
        return self.bucket(key) in self.locked

    def version(self, key):
        return (self.first + self.writes[self.bucket(key)]) % U32

    def linked(self, segment):
        return [it for it in self.rows[segment] if self.items.get(it.key) is it and it.segment == segment]

    def turn(self, who, command, arguments):
        return getattr(self, command)(who, *arguments)

    def write(self, who, key, value, refusal, is_new=False):
        """A write that has room is refused by `refusal`, a function of the version, or stored."""
        segment, bucket = self.current[who], self.bucket(key)
        if segment is None or len(self.rows[segment]) == self.room:
            return "NOROOM"
        if self.is_locked(key):
            return "BUSY"
        if is_new and key not in self.items:
            if sum(self.bucket(it) == bucket for it in self.items) == 6 * self.width[bucket] + 1:
                if self.width[bucket] == 4 or sum(self.width.values()) - len(self.width) == self.overflow:
                    return "BUCKETFULL"
                self.width[bucket] += 1
        if refused := refusal(self.version(key)):
            return refused
        self.items[key] = Item(key, value, segment)
        self.rows[segment].append(self.items[key])
        self.writes[bucket] += 1
        return "STORED"

    def set(self, who, key, value, _now):
        return self.write(who, key, value, lambda _: None, True)

    def add(self, who, key, value, now):
        return self.write(who, key, value, lambda _: "NOT_STORED" if self.present(key, now) else None, True)

    def replace(self, who, key, value, now):
        return self.write(who, key, value, lambda _: None if self.present(key, now) else "NOT_STORED")

    def cas(self, who, key, value, expected, now):
        return self.write(who, key, value, lambda version: "NOT_FOUND" if not self.present(key, now) else
                          "EXISTS" if version != expected else None)

    def delete(self, _who, key, now):
        if self.is_locked(key):
            return "BUSY"
        if not self.present(key, now):
            return "NOT_FOUND"
        del self.items[key]
        self.writes[self.bucket(key)] += 1
        return "DELETED"

    def get(self, _who, key, now, version=""):
        item = self.present(key, now)
        if item is None:
            return "MISS"
        item.frequency = min(item.frequency + 1, 255)
        return f"VALUE {item.value.decode()}{version}"

    def gets(self, who, key, now):
        if self.present(key, now) and self.is_locked(key):
            return "BUSY"
        return self.get(who, key, now, f" {self.version(key)}")

    def hold(self, who, key, now):
        item = self.present(key, now)
        if self.holding[who] or not item:
            return "ALREADY_HOLDING" if self.holding[who] else "MISS"
        self.holding[who] = (item.segment, item.value.decode())
        return "HOLDING"

    def held(self, who):
        return f"VALUE {self.holding[who][1]}" if self.holding[who] else "NOT_HOLDING"

    def release(self, who):
        held, self.holding[who] = self.holding[who], None
        return "RELEASED" if held else "NOT_HOLDING"

    def lock(self, who, key):
        if self.locked[who] is not None or self.is_locked(key):
            return "BUSY" if self.locked[who] is None else "ALREADY_LOCKED"
        self.locked[who] = self.bucket(key)
        return "LOCKED"

    def unlock(self, who):
        locked, self.locked[who] = self.locked[who], None
        return "NOT_LOCKED" if locked is None else "UNLOCKED"

    def refill(self, who, segment, deadline):
        if segment // self.owned != who or self.state[segment] == "used":
            return "NOT_YOURS" if segment // self.owned != who else "NOT_EVICTED"
        if any(held and held[0] == segment for held in self.holding):
            return "HELD"
        self.state[segment], self.deadline[segment], self.rows[segment] = "used", deadline, []
        self.current[who] = segment
        return "REFILLED"

    def evict(self, who, segment):
        if segment // self.owned != who or self.state[segment] != "used":
            return "NOT_YOURS" if segment // self.owned != who else "EVICTED 0"
        if self.current[who] == segment:
            self.current[who] = None
        for count, item in enumerate(items := self.linked(segment)):
            if self.is_locked(item.key):
                return f"BUSY {count}"
            del self.items[item.key]
        self.state[segment] = "evicted"
        return f"EVICTED {len(items)}"

    def keep(self, who, segment, cutoff):
        if segment // self.owned != who or self.state[segment] != "used":
            return "NOT_YOURS" if segment // self.owned != who else "KEPT 0"
        to = self.current[who]
        if to is None or to == segment or self.deadline[to] != self.deadline[segment]:
            return "NOROOM 0"
        for count, item in enumerate(items := [it for it in self.linked(segment) if it.frequency >= cutoff]):
            if len(self.rows[to]) == self.room or self.is_locked(item.key):
                return f"{'NOROOM' if len(self.rows[to]) == self.room else 'BUSY'} {count}"
            item.segment = to
            self.rows[to].append(item)
        return f"KEPT {len(items)}"


def run_script(text, shape):
    """Status, standard output and the line of the fault."""
    if fault := shape_fault(shape):
        return 3, b"", b"bad shape %d\n" % fault
    index, replies = Index(shape), []
    for at, line in enumerate(text.split(b"\n"), 1):
        if line:
            turn = turn_of(line, shape["passes"])
            if turn is None:
                return 2, "".join(replies).encode(), b"bad line %d\n" % at
            replies.append(index.turn(*turn) + "\n")
    return 0, "".join(replies).encode(), b""


def explain(kind, digits):
    """What `segrun word` writes, or None for a bad word."""
    if not re.fullmatch(rb"[0-9a-fA-F]{16}", digits):
        return None
    word = int(digits, 16)
    high, low = divmod(word, U32)
    if kind == "segment":
        return f"segment deadline={high} readers={low}\n"
    if kind == "information":
        return f"information version={high} bit={low}\n" if low < 2 else None
    if word >> 52:
        return f"item tag={word >> 52:03x} freq={word >> 44 & 255} seg={word >> 20 & 0xFFFFFF} row={word & 0xFFFFF}\n"
    return "empty\n" if word == 0 else f"chain {word - 1}\n" if word <= 65536 else None
