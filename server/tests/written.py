# SPDX-License-Identifier: MIT
"""Conversations that stand in the *.talk files beside this one, and how they are held with a server.

memcached.talk has those whose replies are memcached's, so keys of 24 bytes and values of 16 at most: each build of the
server can have them. Those of standin.talk are only for the stand-in, and server.talk has all others.

A conversation ends at an empty line. Its first lines, which begin with `# `, have its name and say what it shows. Then
comes `server` with the options of a server of its own, and what is sent beside its reply, at least two spaces apart.

    # versions: A version from gets is right once.
    server -t 1
    set c 7 0 1\\nx             STORED
    gets c                     VALUE c 7 1 {version}\\nx\\nEND
    @2 cas c 0 0 1 {version}\\ny    STORED
    ? cas_hits=1 store_busy={0..3}

Behind each stands the end of a line, which is `\\n` inside. A text has `\\xHH`, `\\(TEXT*N)` for N times a text, and at
its end `\\.`, behind which nothing stands. `{NAME}` is a number: the one that was seen there before, or what is seen
there now. `{NAME+1}` is one more, and `{0..NAME}` a number of these. Times to live that a reply has behind ` t` may be
a little less. `now` is the second of the beginning, and `port` the server's.

    @2 ..                      is sent on another connection than the first
    ..  (end)                  and then this connection is ended
    *300 ..                    is sent so many times, with the number in place of `@`, and isn't answered
    ? NAME=NUMBER ..           stats; `?settings`, `?items` and `?slabs` are those parts of it
    ! NAME ..                  all names that stats has, in their order, and `!settings` those of the settings
    ~ SECONDS                  nothing is sent for so long
"""

import re
import time
from pathlib import Path
from typing import NamedTuple

import talk

LATE = 5  # seconds that may pass between a command and the next one that asks how many are left
ESCAPE = re.compile(r"\\(?:x([0-9a-f]{2})|\((.*?)\*(\d+)\)|([n.]))")
HOLE = re.compile(r"\{([\w+]+)(?:\.\.([\w+]+))?\}")
MARK = re.compile(r"@(\d+) +")


class Conversation(NamedTuple):
    name: str
    options: list
    lines: list


def conversations(file):
    """The conversations of a file."""
    found = []
    for block in re.split(r"\n{2,}", (Path(__file__).parent / file).read_text().strip("\n")):
        lines = [line for line in block.split("\n") if not line.startswith("# ")]
        name = re.match(r"# ([^:\n]+)", block)[1]
        found.append(Conversation(name, lines[0].split()[1:], lines[1:]))
    return found


def raw(text):
    """A text with its escapes, and the end of a line."""
    def shown(it):
        byte, repeated, count, other = it.groups()
        return chr(int(byte, 16)) if byte else raw(repeated + "\\.") * int(count) if count else "\r\n" * (other == "n")
    return ESCAPE.sub(shown, text if text.endswith("\\.") else text + "\\n")


def sum_of(text, known):
    return sum(int(known.get(part, part)) for part in text.split("+"))


def filled(text, known):
    """A text that is sent, with its numbers."""
    return HOLE.sub(lambda it: str(sum_of(it[1], known)), text)


def pattern_of(wanted, known):
    """What a text has to fit, in which each number that isn't known has a name, and the bounds of these numbers."""
    parts, bounds, at = [], {}, 0
    for hole in HOLE.finditer(wanted):
        parts.append(re.escape(wanted[at:hole.start()]))
        at, (low, high) = hole.end(), hole.groups()
        if high:
            name = f"between{len(bounds)}"
            bounds[name] = (sum_of(low, known), sum_of(high, known))
            parts.append(rf"(?P<{name}>\d+)")
        elif low in bounds:
            parts.append(f"(?P={low})")
        elif low.isidentifier() and low not in known:
            bounds[low] = (0, float("inf"))
            parts.append(rf"(?P<{low}>\d+)")
        else:
            parts.append(str(sum_of(low, known)))
    return "".join(parts) + re.escape(wanted[at:]), bounds


def fits(wanted, told, known):
    """Whether a text is what was wanted. What it names is known from then on."""
    wanted = re.sub(r"(?<= t)\d+", lambda it: f"{{{max(0, int(it[0]) - LATE)}..{it[0]}}}", wanted)
    pattern, bounds = pattern_of(wanted, known)
    it = re.fullmatch(pattern, told)
    if not it or not all(low <= int(it[name]) <= high for name, (low, high) in bounds.items()):
        return False
    known |= {name: int(it[name]) for name in bounds if not name.startswith("between")}
    return True


class Talk:
    """A conversation that is held, with its connections and with the numbers that it has seen."""

    def __init__(self, port):
        self.port, self.connections, self.known = port, {}, {"port": port, "now": int(time.time())}

    def connection(self, name):
        if name not in self.connections:
            self.connections[name] = talk.connect(self.port)
        return self.connections[name]

    def hold(self, line):
        name = "1"
        if it := MARK.match(line):
            name, line = it[1], line[it.end():]
        mark = line[0]
        if mark == "~":
            time.sleep(float(line[1:]))
        elif mark in "?!":
            part, *wanted = line[1:].split(" ")
            self.compare(line, talk.stats_of(self.connection(name), part), wanted, mark == "!")
        elif mark == "*":
            count, _, text = line[1:].partition(" ")
            sent = "".join(raw(text.replace("@", str(number))) for number in range(int(count)))
            self.connection(name).sendall(sent.encode())
        else:
            self.say(name, *re.split(r" {2,}", line.rstrip()))

    def compare(self, line, counts, wanted, are_names):
        if are_names:
            return talk.check(list(counts) == wanted, f"{line[:60]}: {set(counts) ^ set(wanted)}, or their order")
        told = [(it, f"{it.partition('=')[0]}={counts.get(it.partition('=')[0])}") for it in wanted]
        wrong = [f"{told}, and not {wanted}" for wanted, told in told if not fits(wanted, told, self.known)]
        return talk.check(not wrong, f"{line[:60]}: {'; '.join(wrong)}")

    def say(self, name, sent, *replies):
        connection, ends = self.connection(name), replies[-1:] == ("(end)",)
        wanted = "".join(raw(reply) for reply in replies if reply != "(end)")
        text = raw(filled(sent, self.known))
        connection.sendall(text.encode("latin-1"))
        told = read_lines(connection, wanted.count("\r\n")).decode("latin-1")
        right = fits(wanted, told, self.known)
        talk.check(right, f"{text[:80]!r} is answered {wanted[:120]!r}, and not {told[:120]!r}")
        if ends:
            talk.check(connection.recv(1) == b"", f"{text[:80]!r} ends the connection")
            self.connections.pop(name).close()

    def end(self):
        """After which nothing more comes, and quit ends each connection."""
        for name, connection in self.connections.items():
            connection.sendall(b"quit\r\n")
            rest = connection.recv(100)
            talk.check(rest == b"", f"nothing comes behind the last reply of connection {name}: {rest}")
            connection.close()


def read_lines(connection, count):
    """So many lines, or those that came before the connection ended or was silent for long."""
    got = b""
    try:
        while got.count(b"\r\n") < count and (more := connection.recv(1 << 18)):
            got += more
    except TimeoutError:
        pass
    return got


def converse(command, conversation):
    talk.doing.test = conversation.name
    with talk.running(command, *conversation.options) as port:
        it = Talk(port)
        for line in conversation.lines:
            it.hold(line)
        it.end()
