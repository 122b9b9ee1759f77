# SPDX-License-Identifier: MIT
"""Tests of memory that is refused, of a server that is linked with refuse.c: at one request after another."""

import os
import re
import signal
import struct
import subprocess
import tempfile
from contextlib import contextmanager
from pathlib import Path

import talk
from talk import alone, check, connect, free_port, running, say, start, stats_of

SANITIZER = 99  # the status of a program that a sanitizer ends
MOST_AT_START = 60
MOST_OF_CONVERSATION = 40


class Refusals:
    """The file by which the server is told which of its requests for memory is refused."""

    def __init__(self, folder):
        self.file = Path(folder, "refusals")
        self.refuse(0)

    def refuse(self, number):
        """From now on the so-manieth request is refused; with 0 none."""
        if not self.file.exists():
            self.file.write_bytes(bytes(4))
        with self.file.open("r+b") as file:
            file.write(struct.pack("I", number))

    def left(self):
        return struct.unpack("I", self.file.read_bytes())[0]


@contextmanager
def refusing():
    with tempfile.TemporaryDirectory() as folder:
        refusals = Refusals(folder)
        yield refusals, {**os.environ, "REFUSALS": str(refusals.file),
                         "ASAN_OPTIONS": f"exitcode={SANITIZER}:{os.environ.get('ASAN_OPTIONS', '')}"}


def told(port, sent, length):
    """What is answered up to a length, or to the connection's end. It is never left silent."""
    got = b""
    try:
        with connect(port) as connection:
            connection.sendall(sent)
            while len(got) < length and (more := connection.recv(65536)):
                got += more
    except ConnectionError:
        pass
    except TimeoutError:
        check(False, f"a connection ends, or {sent[:20]} is answered whole")
    return got


def asks(port):
    """Whether a connection is served. It may be closed instead."""
    wanted = b"STORED\r\nVALUE s 0 1\r\nx\r\nEND\r\n"
    return told(port, b"set s 0 0 1\r\nx\r\nget s\r\n", len(wanted)) == wanted


def no_start(command):
    """Where a request at the start is refused, the server says so in a line, gives all memory back and ends. Where one
    is refused later, a connection is."""
    with refusing() as (refusals, environment):
        ended = 0
        for number in range(1, MOST_AT_START):
            refusals.refuse(number)
            words = [*command, "-l", "127.0.0.1", "-p", str(port := free_port()), "-t", "3", "--keys", "64"]
            with start(words, env=environment, stderr=subprocess.PIPE, text=True) as server:
                try:
                    talk.wait_for(port, server)
                    serves = asks(port)
                except SystemExit:
                    serves = False
                if not serves and server.poll() is None:
                    serves = asks(port)  # what was refused before was a connection
                if serves:
                    server.send_signal(signal.SIGTERM)
                said, status = server.stderr.read(), server.wait(timeout=2 * talk.patience)
            right = status == 0 if serves else status in (1, 71) and re.fullmatch(r"segcache-server: .+\n", said)
            check(right, f"request {number} refused, serves {serves}: {status} {said}")
            ended += not serves
            if serves:
                break
        check(ended > 0, "at the start some requests are refused")


def no_reply(command):
    """A connection for which memory is refused ends, and nothing of its replies is left out before: what it is answered
    is how the wanted replies begin. Others are served on."""
    with running(command) as port, connect(port) as connection:
        data = "x" * min(4000, int(stats_of(connection)["most_data_bytes"]))
    value, head = f"VALUE u 7 {len(data)}\r\n{data}\r\n", f"VA {len(data)}\r\n{data}\r\n"
    many = 90000 // (len(data) + 20)
    for sent, wanted in ((f"get{' u' * many}\r\nmn\r\n", value * many + "END\r\nMN\r\n"),
                         ("mg u v\r\n" * many + "mn\r\n", head * many + "MN\r\n"),
                         ("x\r\n" * 20000, "ERROR\r\n" * 20000),
                         ("get u" + " none" * 8000 + "\r\nmn\r\n", f"{value}END\r\nMN\r\n")):
        sent, wanted, refused = sent.encode(), wanted.encode(), 0
        for number in range(1, MOST_OF_CONVERSATION):
            with refusing() as (refusals, environment):
                words = [*command, "-l", "127.0.0.1", "-p", str(port := free_port()), "-t", "1", "-R", "100000"]
                with start(words, env=environment) as server:
                    talk.wait_for(port, server)
                    with connect(port) as other:
                        say(other, f"set u 7 0 {len(data)}\r\n{data}\r\n", "STORED\r\n")
                        alone(other)
                        refusals.refuse(number)
                        got = told(port, sent, len(wanted))
                        left = refusals.left()
                        refusals.refuse(0)
                        check(wanted.startswith(got), f"request {number} refused: {sent[:20]} is answered {got[-80:]}")
                        say(other, "get u\r\n", value + "END\r\n")
                        counts = alone(other)
                        refused += int(counts["response_obj_oom"]) + int(counts["read_buf_oom"])
                    server.send_signal(signal.SIGTERM)
                    check(server.wait(timeout=2 * talk.patience) == 0, "the server ends well")
            if left > 0:
                check(got == wanted, f"without a refusal {sent[:20]} is answered whole")
                break
        check(refused > 1, f"{sent[:20]} was refused memory {refused} times")
