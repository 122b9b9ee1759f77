# SPDX-License-Identifier: MIT
"""A memcached on loopback, for as long as it is used."""

import re
import socket
import subprocess
import time
from contextlib import contextmanager
from pathlib import Path

# memcached is asked for so many keys at a time at most, and never for one key twice at a time.
PIECE = 32

# The bytes of values, which begin all alike.
BYTES = b"0123456789abcdef" * 256


def resident(pid):
    """The bytes of memory that a process takes."""
    text = Path(f"/proc/{pid}/status").read_text()
    return 1024 * int(text.split("VmRSS:")[1].split()[0])


def pieces_of(trace, usual):
    """The commands, as many at a time as have different keys: by its key whether each is a get, and its value's length.

    A line is `get KEY` or `set KEY`. Behind the key can be a length, in place of the usual one.
    """
    piece = {}
    for line in trace.open("rb"):
        verb, key, *length = line.split()
        if key in piece or len(piece) == PIECE:
            yield piece
            piece = {}
        piece[key] = verb == b"get", int(length[0]) if length else usual
    yield piece


def through(connection, trace, warm, usual=16, lives=(0,), pace=None):
    """The gets and hits behind the first commands. What was missed is set, before the next gets.

    A key has one of the times to live, by its last byte. At a pace, so many commands are sent a second.
    """
    gets = hits = place = 0
    sets = b""
    start = time.monotonic()
    for piece in pieces_of(trace, usual):
        if pace and (wait := start + place / pace - time.monotonic()) > 0.001:
            time.sleep(wait)
        asked = [key for key, (is_get, _) in piece.items() if is_get]
        found = connection.found(asked, sets) if asked else {}
        stored = ((key, length) for key, (is_get, length) in piece.items() if not is_get or key not in found)
        sets = b"" if asked else sets
        for key, length in stored:
            sets += b"set %b 0 %d %d noreply\r\n%b\r\n" % (key, lives[key[-1] % len(lives)], length, BYTES[:length])
        if len(sets) >= 1 << 16:
            connection.socket.sendall(sets)
            sets = b""
        if place >= warm:
            gets += len(asked)
            hits += len(found)
        place += len(piece)
    connection.socket.sendall(sets)
    return {"gets": gets, "hits": hits}


class Memcached:
    """A connection to a memcached."""

    def __init__(self, port):
        self.socket = socket.create_connection(("127.0.0.1", port))
        self.socket.setsockopt(socket.IPPROTO_TCP, socket.TCP_NODELAY, 1)

    def ask(self, line):
        """Sends a line, and is all of the reply up to its END."""
        self.socket.sendall(line)
        reply = b""
        while not reply.endswith(b"END\r\n"):
            if not (more := self.socket.recv(1 << 16)):
                raise RuntimeError("memcached closed the connection")
            reply += more
        return reply

    def found(self, keys, before=b""):
        """Those of some keys that are there, with the lengths of their values. Other commands are sent before."""
        reply = self.ask(before + b"get " + b" ".join(keys) + b"\r\n")
        return {key: int(length) for key, length in re.findall(rb"VALUE (\S+) \d+ (\d+)\r\n", reply)}

    def stats(self, of=""):
        return dict(re.findall(r"STAT (\S+) (\S+)", self.ask(f"stats {of}".rstrip().encode() + b"\r\n").decode()))


@contextmanager
def memcached_at(port, megabytes, *more):
    """A memcached of its own, for as long as it is used."""
    words = ["memcached", "-l", "127.0.0.1", "-p", str(port), "-U", "0"]
    words += ["-m", str(megabytes), "-t", "1", "-u", "nobody", *more]
    with subprocess.Popen(words) as process:
        try:
            for _ in range(100):
                try:
                    connection = Memcached(port)
                    break
                except OSError:
                    time.sleep(0.05)
            else:
                raise RuntimeError(f"memcached doesn't answer on port {port}")
            if connection.stats()["pid"] != str(process.pid):
                raise RuntimeError(f"another memcached answers on port {port}; --port takes another one")
            yield connection
        finally:
            process.terminate()
