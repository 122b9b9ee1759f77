# SPDX-License-Identifier: MIT
"""Random inputs of `segrun` for fuzz-program: scripts, traces and command lines, good ones and bad ones.

Each function returns the words behind the program's name, the bytes that it reads (as standard input, or as the file
`input`), and a function of status, output and standard error: whether they are what the models or the page say.
"""

import json
import re
from collections import Counter

from segrun_models import FORMS, SHAPE, TALLIES, U32, Index, explain, run_script, shape_fault, turn_of

RESULT = re.compile(r"(\S+) (rows=\d+ bytes=\d+ gets=\d+ hits=\d+ rate=\d+\.\d\d sets=\d+ deletes=\d+ evicted=\d+ "
                    r"kept=\d+ refused=\d+ busy=\d+ items=\d+ lives=\d+ given=\d+\.\d\d)")
LIMITS = [b"", b"0", b"00", b"01", b"+1", b"-1", b"-", b"4294967295", b"4294967296", b"9" * 20, b"255", b"256", b"1.0",
          b"x", b"@", b"@@1", b"@4294967295", b"@4294967296", b"@01", b"p0", b"p", b"k" * 24, b"k" * 25, b"v" * 32,
          b"v" * 33, b"x" * 128, b"x" * 129, b"a\xff", b"a\0", b"GET", b"\r", b"\t", b"0x1", b"y" * 5000]
ODD = [b"--", b"-", b"", b"-x", b"--rows", b"--rows=", b"=", b"--=", b"help", b"\xff", b"--\xff=1", b"script", b"load",
       b"word", b"replay", b"-h", b"--help", b"-V", b"--version", b"-hV", b"--row", b"--for-keys=1", b"input", b"none",
       b".", b"--explain", b"--rows=4", b"-" * 3, b"a\nb", b"z" * 5000]
CHOICES = {"buckets": [1, 1, 2, 4, 64], "overflow": [0, 0, 1, 3, 9], "passes": [1, 1, 1, 2, 3], "segments": [1, 2, 3],
           "rows": [1, 2, 4, 8, 32, 64], "first-version": [0, 0, 7, U32 - 2, U32 - 1]}
EDGES = {"buckets": [0, 3, 65536, 65537, U32 - 1], "overflow": [65536, 65537, U32 - 1], "passes": [0, 64, 65, U32 - 1],
         "segments": [0, 1024, 1025, U32 - 1], "rows": [0, 4096, 4097, U32 - 1], "first-version": [U32 - 1]}
NO_U32 = [b"", b"-1", b"4294967296", b"9" * 20, b"x", b"1 ", b" 1", b"0x1", b"1.0", b"1\n", "\u0661".encode(), b"1e3"]
TWITTER = "timestamp,key,key_size,value_size,client,operation,ttl"
OPERATIONS = {"gets": ["get", "gets"], "deletes": ["delete"],
              "sets": "set put add replace cas append prepend incr decr".split()}


def shape_of(draw):
    shape = {name: draw.choice(CHOICES[name]) for name in SHAPE}
    shape |= {"buckets": 1, "overflow": draw.choice([2, 3, 9]), "rows": 64} if draw.random() < 0.15 else {}
    if draw.random() < 0.04:
        name = draw.choice(list(shape))
        shape[name] = draw.choice(EDGES[name])
    return shape


def spelled(draw, options):
    """The options as words, in any order and in both forms. A flag has the value None."""
    words = [[b"--%b" % name.encode()] if value is None else
             [b"--%b=%b" % (name.encode(), value)] if draw.random() < 0.5 else [b"--" + name.encode(), value]
             for name, value in draw.sample(list(options.items()), len(options))]
    return [word for pair in words for word in pair]


def shape_words(draw, shape):
    return {name: b"%d" % value for name, value in shape.items() if value != SHAPE[name] or draw.random() < 0.1}


def spoilt(draw, data, separator):
    """The bytes with one byte or one word changed, or cut short."""
    at, kind = draw.randrange(len(data) + 1), draw.randrange(5)
    odd = bytes([draw.choice([0, 9, 10, 13, 32, 33, 44, 45, 48, 64, 126, 127, 195, 255])])
    if kind < 3:
        return data[:at] + (b"", odd, odd)[kind] + data[at + (1, 0, 1)[kind]:]
    if kind == 3:
        return data[:at]
    words = data.split(separator)
    at = draw.randrange(len(words))
    changed = [words[at].upper(), words[at][:1] + b"0" + words[at][1:], *(draw.choice(LIMITS) for _ in range(3))]
    words[at:at + 1] = draw.choice([[], [words[at]] * 2, [b"0" + words[at]], *([word] for word in changed)])
    return separator.join(words)


def drawn_line(draw, shape, weights, keys, ends, index):
    """A good line, mostly over a segment that its pass owns, and with a version that its key has."""
    who, command = draw.randrange(max(1, min(shape["passes"], 64))), draw.choices(list(FORMS), weights)[0]
    owned, key = max(1, min(shape["segments"], 99)), draw.choice(keys)
    segment = who * owned + draw.randrange(owned) if draw.random() < 0.85 else draw.randrange(owned + 4)
    value = draw.choice([b"1", b"2", b"-", b"--", b"v" * 32, b"%d" % draw.randrange(U32)])
    moment = b"@%d" % (0 if draw.random() < 0.5 else draw.choice([1, 4, 5, 9, 10, U32 - 2, U32 - 1]))
    version = (index.version(key) + draw.choice([0, 0, 0, 1, U32 - 1])) % U32 if index else draw.randrange(U32)
    fields = {"n": b"%d" % segment, "c": b"%d" % draw.choice([0, 1, 2, 3, 255]), "k": key, "v": value, "m": moment}
    arguments = [fields[form] for form in FORMS[command]]
    if command in ("refill", "cas"):
        arguments[{"refill": 1, "cas": 2}[command]] = b"%d" % (draw.choice(ends) if command == "refill" else version)
    return b" ".join([b"p%d" % who, command.encode(), *arguments])


def lines_for_room(draw, index, who, ends):
    """Lines by which a pass begins a segment, and perhaps keeps items of another one there."""
    owned = list(range(who * index.owned, (who + 1) * index.owned))
    free = [segment for segment in owned if index.state[segment] != "used"]
    segment, other = draw.choice(free or owned), draw.choice(owned)
    lines = [b"refill %d %d" % (segment, draw.choice(ends[:1] * 3 + ends))]
    lines = lines if free else [b"evict %d" % segment, *lines]
    lines += [b"keep %d %d" % (other, draw.choice([0, 1, 1, 2, 3]))] if draw.random() < 0.6 else []
    return [b"p%d " % who + line for line in lines]


def script(draw):
    shape, ends = shape_of(draw), draw.choice([[U32 - 1], [U32 - 1, 5, 10], [0, 1, 5, 10, U32 - 1]])
    keys = [b"%c" % (97 + at) for at in range(draw.choice([2, 4, 8, 26]))] + [b"k" * 24, b"!", b"-"]
    # In the order of FORMS: mixed, to fill, and to keep.
    weights = draw.choice([[8, 4, 4, 20, 8, 6, 8, 6, 14, 10, 4, 3, 4, draw.choice([0, 3]), 5],
                           [2, 0, 0, 50, 20, 3, 4, 2, 5, 5, 1, 1, 1, 0, 1],
                           [9, 1, 20, 40, 5, 5, 5, 2, 15, 5, 1, 1, 1, 1, 5]])
    index, lines, asked = None if shape_fault(shape) else Index(shape), [], []
    for _ in range(draw.choice([0, 1, 4, 20, 80, 300])):
        lines.append(asked.pop(0) if asked else drawn_line(draw, shape, weights, keys, ends, index))
        if index and (turn := turn_of(lines[-1], shape["passes"])) and index.turn(*turn) == "NOROOM":
            asked = lines_for_room(draw, index, turn[0], ends) if draw.random() < 0.6 else []
        lines += [b""] * (draw.random() < 0.02)
    for _ in range(draw.choice([0, 0, 0, 1, 2]) if lines else 0):
        at = draw.randrange(len(lines))
        lines[at] = spoilt(draw, lines[at], b" ")
    data = b"\n".join(lines) + b"\n" * (draw.random() < 0.8)
    status, out, err = run_script(data, shape)
    options = shape_words(draw, shape) | ({"explain": None} if draw.random() < 0.3 else {})
    words = [b"script", *spelled(draw, options)] + draw.choice([[], [b"-"], [b"input"], [b"--", b"input"]])
    words = [] if len(words) == 1 and draw.random() < 0.5 else words
    return words, data, lambda *end: (*end[:2], end[2].partition(b"\n")[0]) == (status, out, err.strip())


def trace_line(draw, columns, kind, key, at):
    """A good line of a trace."""
    operation = draw.choice(OPERATIONS[kind] if columns else [kind[:-1]]).encode()
    operation = operation.upper() if draw.random() < 0.1 else operation
    if not columns:
        return key if kind == "gets" and draw.random() < 0.5 else operation + b" " + key
    seconds = b"%d" % (1700000000 + at)
    named = {"key": [key], "op": [operation], "operation": [operation], "ttl": [b"0"],
             "time": [seconds, seconds + b"000"], "timestamp": [seconds, seconds + b".5"],
             "value_size": [b"0", b"1", b"4294967295"]}
    fields = [draw.choice(named.get(name, [b"", b"x"])) for name in columns]
    return b",".join(b" " * (draw.random() < 0.05) + field + b" " * (draw.random() < 0.05) for field in fields)


def trace_of(draw, is_csv, warm, names):
    """A trace, what has to be counted, and the number of the bad line, if there is one."""
    columns, lines = [], []
    if is_csv:
        header = draw.choice(["time,key,op,ttl", TWITTER, "KEY,Timestamp", "op,x,key,time", "time,key,value_size"])
        columns = header.lower().split(",")
        lines = [header.encode()] if header not in ("time,key,op,ttl", TWITTER) or draw.random() < 0.5 else []
    kinds = list(OPERATIONS) if not columns or {"op", "operation"} & set(columns) else ["gets"]
    bad_at, stands, counts = draw.choice([None] * 4 + [0, 1, 9]), set(), Counter()
    for at in range(draw.choice([0, 3, 30, 300])):
        kind, key = draw.choices(kinds, [6, 1, 2][:len(kinds)])[0], draw.choice(names)
        lines += [b""] * (draw.random() < 0.02) + [trace_line(draw, columns, kind, key, at)]
        if at == bad_at:
            faults = [lines[-1] + b",1", b"," * len(columns[1:])] if columns else [b"fetch a", b"get a b"]
            lines[-1] = draw.choice([*faults, b"x" * 4097])
            return b"\n".join(lines), counts, len(lines)
        lines[-1] += b"\r" * (draw.random() < 0.05)
        counts.update({kind: at >= warm, "hits": at >= warm and kind == "gets" and key in stands})
        stands = stands - {key} if kind == "deletes" else stands | {key}
    return b"\n".join(lines) + b"\n" * (draw.random() < 0.8), counts, None


def results_of(out):
    """What a replay tells of each cache."""
    if out[:1] == b"{":
        one = json.loads(out)
        return one.get("caches", [one])
    return [dict(pair.split("=") for pair in RESULT.fullmatch(line)[2].split()) for line in out.decode().splitlines()]


def trace(draw):
    is_csv, warm, keys = draw.random() < 0.6, draw.choice([0, 0, 1, 7]), draw.choice([1, 5, 40])
    names = [draw.choice([b"a%d", b"%d", b"long-key-of-many-bytes-%d", b"\xff%d"]) % at for at in range(keys)]
    data, counts, bad = trace_of(draw, is_csv, warm, names)
    is_spoilt = draw.random() < 0.3 and data != b""
    data = spoilt(draw, data, draw.choice([b",", b" ", b"\n"])) if is_spoilt else data
    shape, room = shape_of(draw), draw.choice([None, keys, 100])
    options = {"csv": None} if is_csv else {}
    options |= {"for-keys": b"%d" % room} if room else shape_words(draw, shape)
    options |= {"warm": b"%d" % warm} if warm else {}
    for name, values in {"policy": [b"all", b"nothing", b"cutoff:3", b"default", b"cutoff:255"], "sizes": [None],
                         "threads": [b"1", b"2", b"5"], "value-bytes": [b"0", b"1", b"32"], "explain": [None],
                         "format": [b"json", b"text"], "progress": [None]}.items():
        options |= {name: draw.choice(values)} if draw.random() < 0.15 else {}
    shape["passes"] = int(options.get("threads", b"%d" % shape["passes"]))
    fault = None if room else shape_fault(shape)
    is_exact = room and not {"threads", "sizes"} & set(options) and options.get("policy", b"default") == b"default"

    def wanted(status, out, said):
        if fault:
            return (status, out, said.partition(b"\n")[0]) == (3, b"", b"bad shape %d" % fault)
        numbers = ("gets", "hits", "sets", "deletes", "rate")
        told = [{name: float(one[name]) for name in numbers} for one in results_of(out)]
        is_sane = all(0 <= 100 * it["hits"] / max(it["gets"], 1) - it["rate"] < 0.0101 for it in told)
        if is_spoilt:
            return bool(told) and is_sane and status in (0, 2)
        names = ["gets", "sets", "deletes", *(["hits"] if is_exact else [])]
        return (bool(told) and is_sane and status == (2 if bad else 0) and (not bad or b"bad line %d\n" % bad in said)
                and all(it[name] == counts[name] for it in told for name in names))

    return [b"replay", *spelled(draw, options), *draw.choice([[], [b"-"], [b"input"]])], data, wanted


def load_text(rows, keys, is_json):
    """The totals of a load. A row is a pass: its commands and tallies."""
    names = ["commands", *TALLIES]
    total = {"commands": sum(row[0] for row in rows), "keys": keys}
    if is_json:
        passes = [{"pass": at, **dict(zip(names, row))} for at, row in enumerate(rows)]
        return json.dumps({"passes": passes, "total": total}, separators=(",", ":")) + "\n"
    lines = [(f"p{at}", zip(names, row)) for at, row in enumerate(rows)] + [("total", total.items())]
    return "".join(" ".join([name, *(f"{of}={value}" for of, value in pairs)]) + "\n" for name, pairs in lines)


def load(draw):
    shape, commands, keys = shape_of(draw), draw.choice([0, 1, 50, 500]), draw.choice([1, 5, 64, 64, 1000, 10**6])
    seed, is_json, is_roomy = draw.choice([0, 1, 7, U32, 2**64 - 1]), draw.random() < 0.3, draw.random() < 0.1
    options = {"for-keys": b"%d" % draw.choice([1, 64, 5000])} if is_roomy else shape_words(draw, shape)
    options |= {"seed": b"%d" % seed, "commands": b"%d" % commands, "keys": b"%d" % keys}
    options |= {"format": b"json"} if is_json else {}
    options |= {name: None for name in ("stats", "progress", "explain") if draw.random() < 0.2}

    def wanted(status, out, said):
        if not is_roomy and (fault := shape_fault(shape)):
            return (status, out, said.partition(b"\n")[0]) == (3, b"", b"bad shape %d" % fault)
        numbers = [int(it) for it in re.findall(rb"(?<=[:=])\d+", out)]
        wide = len(TALLIES) + 1 + is_json
        rows = [numbers[at + is_json:at + wide] for at in range(0, len(numbers) - 2, wide)]
        is_whole = len(rows) == (1 if is_roomy else shape["passes"]) and all(sum(row) == 2 * commands for row in rows)
        is_same = out.decode() == load_text(rows, numbers[-1], is_json)
        return status == 0 and is_whole and is_same and numbers[-1] <= keys

    return [b"load", *spelled(draw, options)], b"", wanted


def word(draw):
    kind = draw.choice(["item", "item", "information", "segment"])
    high, low = (draw.choice([0, 0, 1, 2, 65536, 65537, U32 - 1, draw.randrange(U32)]) for _ in range(2))
    forms = [b"%016x", b"%016x", b"%016X", b"%015x", b"%017x", b"0x%014x", b"-%015x", b"%015xg", b"%015x "]
    digits = draw.choice([draw.choice(forms) % (high * U32 + low)] * 9 + [b""])
    options = ({} if kind == "item" else {"kind": kind.encode()}) | ({"explain": None} if draw.random() < 0.3 else {})
    words = [b"word", *spelled(draw, options), *([b"--"] if digits[:1] == b"-" or draw.random() < 0.1 else []), digits]
    text = explain(kind, digits)
    return words, b"", lambda status, out, said: (status, out.decode(), said.partition(b"\n")[0]) == (
        (2, "", b"bad word") if text is None else (0, text, b""))


def command_line(draw):
    words, data, wanted = draw.choice([script, trace, load, load, load, word, word, word])(draw)
    kind = draw.choice([0, 0, 1, 2])
    if kind == 0 or not words:
        return words, data, wanted
    if kind == 1:
        for _ in range(draw.choice([1, 1, 2])):
            at = draw.randrange(len(words) + 1)
            odd = [draw.choice(ODD)]
            words[at:at + draw.randrange(2)] = draw.choice([[], odd, odd, words[at:at + 1] * 2])
        return words, data, lambda *_: True
    numbers = {b"load": ["seed", "commands", "keys", *SHAPE], b"word": [],
               b"replay": ["warm", "value-bytes", "threads", *SHAPE]}.get(words[0], list(SHAPE))
    named = {it.partition(b"=")[0] for it in words}
    unsaid = [name.encode() for name in numbers if b"--" + name.encode() not in named]
    bad = [[b"--bogus"], [b"--" + b"q" * 3000], [b"--explain"] * 2, [b"--explain=1"], [b"--help=1"]]
    bad += [[b"--%b=%b" % (name, draw.choice(NO_U32[:2] + NO_U32[3:]))] for name in unsaid]
    bad += [[b"--" + name, b"1"] * 2 for name in unsaid] + [[b"--" + name + b"="] for name in unsaid]
    words[1:1] = draw.choice(bad)
    if draw.random() < 0.1 and unsaid and b"--" not in words:
        words = [words[0], b"--" + unsaid[0]]
    return words, data, lambda status, out, said: status == 2 and not out and said.startswith(b"error: ")
