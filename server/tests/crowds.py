# SPDX-License-Identifier: MIT
"""Tests of connections: slow, silent, half closed, killed, refused ones, and many at a time."""

import resource
import socket
import subprocess
import sys
import threading
import time
from collections import Counter
from pathlib import Path

import talk
from talk import (alone, check, connect, memory_of, read, read_to, running, say, stats_of, store_all,
                  wait_until)


def pieces(port):
    """A command that comes byte by byte, and many in one piece whose replies are read late."""
    with connect(port) as connection:
        for byte in b"set p 1 0 4\r\n\r\n\r\n\r\n":
            connection.sendall(bytes([byte]))
        check(read(connection, 8) == b"STORED\r\n", "a command byte by byte")
        count = 20000
        writer = threading.Thread(target=connection.sendall, args=(b"get p\r\n" * count,))
        writer.start()
        time.sleep(0.3)
        wanted = b"VALUE p 1 4\r\n\r\n\r\n\r\nEND\r\n" * count
        check(read(connection, len(wanted)) == wanted, "many commands in one piece")
        writer.join()
        keys = [f"key{i}" for i in range(3000)]
        check(store_all(connection, 3000) == 3000, "3,000 keys are there")
        wanted = "".join(f"VALUE {key} 0 1\r\nx\r\n" for key in keys * 5) + "END\r\n"
        say(connection, "get " + " ".join(keys * 5) + "\r\n", wanted)
        say(connection, "x" * 8191 + "\r\n", "ERROR\r\n")
        connection.sendall(b"x" * 8191)
        time.sleep(0.2)
        say(connection, "\nmn\r\n", "ERROR\r\nMN\r\n")
        say(connection, "get " + "none " * 2000 + "\r\n", "END\r\n")
        connection.sendall(b"x" * 8192)
        check(read(connection, 28) == b"CLIENT_ERROR line too long\r\n", "a line that is too long")
        check(connection.recv(1) == b"", "ends the connection")


def in_turns(command):
    """Connections of one thread whose commands come byte by byte, one byte of each by turns."""
    texts = ["set a 1 0 1\r\nx\r\n", "get a b none\r\nmn\r\n", "incr n 1\r\nmg a v\r\n"]
    with running(command, "-t", "1") as port:
        others = [connect(port) for _ in range(6)]
        say(others[5], "set a 1 0 1\r\nx\r\nset n 0 0 1\r\n1\r\n", "STORED\r\n" * 2)
        for at in range(max(map(len, texts))):
            for i, other in enumerate(others[:3]):
                other.sendall(texts[i][at:at + 1].encode())
            say(others[3 + at % 3], "mn\r\n", "MN\r\n")
        for other, wanted in zip(others, ("STORED\r\n", "VALUE a 1 1\r\nx\r\nEND\r\nMN\r\n", "2\r\nVA 1\r\nx\r\n")):
            say(other, "", wanted)
            other.close()


def waiting(command):
    """Connections of one thread that have more commands than a turn takes: none is forgotten."""
    with running(command, "-t", "1", "-R", "3") as port:
        others = [connect(port) for _ in range(5)]
        for other in others:
            other.sendall(b"mn\r\n" * 3001)
        for other in others:
            check(read(other, 4 * 3001) == b"MN\r\n" * 3001, "each has all replies")
            other.close()


def half_closed(port):
    """Who sends nothing more still gets all replies."""
    with connect(port) as connection:
        connection.sendall(b"set h 0 0 1\r\nx\r\n" + b"get h\r\n" * 5000 + b"get h")
        connection.shutdown(socket.SHUT_WR)
        wanted = b"STORED\r\n" + b"VALUE h 0 1\r\nx\r\nEND\r\n" * 5000
        check(read(connection, len(wanted) + 1) == wanted, "all replies come after the other side has ended")


def killed_clients(command):
    """Clients that end in the midst of a command or of their replies leave nothing behind."""
    with running(command, "-t", "2") as port, connect(port) as connection:
        say(connection, "set k 0 0 1\r\nx\r\n", "STORED\r\n")
        for sent in (b"get", b"set k 0 0 5\r\nab", b"get k\r\n" * 30000, b"set j 0 0 999999\r\n" + b"x" * 5000):
            other = connect(port)
            other.setsockopt(socket.SOL_SOCKET, socket.SO_LINGER, b"\1\0\0\0\0\0\0\0")  # a reset in place of an end
            other.sendall(sent)
            other.close()
        pid = alone(connection)["pid"]
        say(connection, "get k\r\n", "VALUE k 0 1\r\nx\r\nEND\r\n")
        check(len(list(Path(f"/proc/{pid}/fd").iterdir())) < 24, "the descriptors of the others are free")


CLIENTS = """
import socket, sys, time
port, others = int(sys.argv[1]), []
for sent in (b"get", b"set k 0 0 5\\r\\nab", b"get k\\r\\n" * 30000, b"set j 0 0 999999\\r\\n" + b"x" * 5000, b"") * 10:
    others.append(socket.create_connection(("127.0.0.1", port)))
    others[-1].settimeout(0.1)
    try:
        others[-1].sendall(sent)
    except TimeoutError:
        pass
print("sent", flush=True)
time.sleep(600)
"""


def killed_program(command):
    """A program of clients that is killed, in the midst of commands and with replies that it hasn't read."""
    with running(command, "-t", "2") as port, connect(port) as connection:
        say(connection, "set k 0 0 1\r\nx\r\n", "STORED\r\n")
        with subprocess.Popen([sys.executable, "-c", CLIENTS, str(port)], stdout=subprocess.PIPE) as program:
            program.stdout.readline()
            are_there = wait_until(lambda: stats_of(connection)["curr_connections"] == "51")
            check(are_there, "fifty connections and this one are there")
            say(connection, "get k\r\n", "VALUE k 0 1\r\nx\r\nEND\r\n")
            program.kill()
        pid = alone(connection)["pid"]
        say(connection, "get k\r\n", "VALUE k 0 1\r\nx\r\nEND\r\n")
        check(len(list(Path(f"/proc/{pid}/fd").iterdir())) < 24, "the descriptors of the killed are free")


def connections(command):
    """No more than -c at a time. One that has ended is counted no longer, and its descriptor is free."""
    with running(command, "-c", "3", "--keys", "64", "-t", "2") as port, connect(port) as connection:
        pid = alone(connection)["pid"]
        for _ in range(20):
            others = [connect(port) for _ in range(2)]
            for other in others:
                say(other, "mn\r\n", "MN\r\n")
            with connect(port) as one_more:
                text = read(one_more, 200)
                check(text == b"ERROR Too many open connections\r\n", f"a fourth connection is told: {text}")
            for other in others:
                other.sendall(b"quit\r\n")
                check(other.recv(1) == b"", "quit ends the connection")
                other.close()
        counts = alone(connection)
        check(counts["rejected_connections"] == "20", f"twenty were turned away: {counts['rejected_connections']}")
        check(len(list(Path(f"/proc/{pid}/fd").iterdir())) < 24, "the descriptors of the others are free")


def descriptors(command):
    """Where descriptors end, who comes is told, and the others are served on."""
    limited = ["prlimit", "--nofile=40:40", *command]
    with running(limited, "-c", "100", "-t", "1") as port:
        others, refused = [], 0
        for _ in range(60):
            other = connect(port)
            other.sendall(b"mn\r\n")
            try:
                refused += not other.recv(100).startswith(b"MN")
            except ConnectionResetError:
                refused += 1
            others.append(other)
        check(20 <= refused < 50, f"some of 60 connections are told: {refused}")
        say(others[0], "set d 0 0 1\r\nx\r\nget d\r\n", "STORED\r\nVALUE d 0 1\r\nx\r\nEND\r\n")
        for other in others:
            other.close()


def memory_refused(command):
    """Where memory is refused, the connections that want it end, and the others are served on. Without sanitizers,
    which want memory of their own."""
    limited = ["prlimit", f"--as={360 << 20}", *command]
    with running(limited, "-t", "2", "-m", "8") as port, connect(port) as connection:
        say(connection, "set m 0 0 1\r\nx\r\n", "STORED\r\n")
        others, line = [], b"get " + b"m" * 20 + b" m" * 400000  # nearly 1 MiB, and no end of the line
        for _ in range(300):
            other = connect(port)
            try:
                other.sendall(line)
            except OSError:
                pass
            others.append(other)
        say(connection, "get m\r\n", "VALUE m 0 1\r\nx\r\nEND\r\n")
        wait_until(lambda: stats_of(connection)["read_buf_oom"] != "0")
        refused = int(stats_of(connection)["read_buf_oom"])
        check(0 < refused < 300, f"some of 300 connections are refused memory: {refused}")
        for other in others:
            other.close()
        say(connection, "set m 0 0 1\r\ny\r\nget m\r\n", "STORED\r\nVALUE m 0 1\r\ny\r\nEND\r\n")


def may_have(count):
    """Whether a process may have so many descriptors. This one then may."""
    _, most = resource.getrlimit(resource.RLIMIT_NOFILE)
    if most >= count:
        resource.setrlimit(resource.RLIMIT_NOFILE, (most, most))
    return most >= count


def first_line(connection):
    """The first line that comes, or that the connection was reset before."""
    try:
        return read_to(connection, b"\n")
    except ConnectionError:
        return b"reset"


def crowd(command, count):
    """Many connections at a time: each is served, and a silent one costs little."""
    if not may_have(count + 400):
        return print(f"left out: {count} connections: a process may not have as many descriptors")
    with running(command, "-c", str(count + 10)) as port:
        with connect(port) as first:
            before = memory_of(stats_of(first)["pid"])
        others = [connect(port) for _ in range(count)]
        for i, other in enumerate(others):
            other.sendall(f"set crowd{i} 0 0 1\r\nx\r\n".encode())
        good = sum(read(other, 8) == b"STORED\r\n" for other in others)
        check(good == count, f"{good} of {count} connections are served")
        counts = stats_of(others[0])
        check(counts["curr_connections"] == str(count), f"they are counted: {counts['curr_connections']}")
        resident = memory_of(counts["pid"])
        print(f"{count} connections: {resident} KiB are resident")
        if command[0].endswith(("tested", "tested_standin")):
            check(resident < before + 1000 + count, f"a silent one holds no buffers: {before} KiB before")
        for other in others:
            other.close()
    return None


def crowd_at_limit(command, count):
    """As many connections as the server may have descriptors: all are served but a few, which are told, and when others
    end, new ones are served."""
    if not may_have(count + 400):
        return print(f"left out: {count} connections at the limit of descriptors: a process may not have as many")
    with running(["prlimit", f"--nofile={count}:{count}", *command], "-c", str(2 * count)) as port:
        others = [connect(port) for _ in range(count)]
        for other in others:
            try:
                other.sendall(b"mn\r\n")
            except OSError:
                pass  # it is told before, and closed
        said = Counter(first_line(other) for other in others)
        check(said[b"MN\r\n"] >= count - 40 and said.total() == count, f"of {count} nearly all are served: {said}")
        for other in others[:100]:
            other.close()
        wait_until(lambda: int(stats_of(others[200])["curr_connections"]) <= count - 100)
        with connect(port) as late:
            say(late, "mn\r\n", "MN\r\n")
        for other in others[100:]:
            other.close()
    return None


def unread(port):
    """Who reads no replies isn't read any longer: so what is unsent has a bound. Others are served meanwhile."""
    value = "VALUE u 0 16\r\n" + "x" * 16 + "\r\nEND\r\n"
    with socket.socket() as connection, connect(port) as other:
        for option in (socket.SO_RCVBUF, socket.SO_SNDBUF):
            connection.setsockopt(socket.SOL_SOCKET, option, 1 << 16)
        connection.settimeout(talk.patience)
        connection.connect(("127.0.0.1", port))
        say(connection, "set u 0 0 16\r\n" + "x" * 16 + "\r\n", "STORED\r\n")
        connection.settimeout(2)
        sent = 0
        try:
            while sent < 1 << 27:
                sent += connection.send((b"get u\r\n" * 10000)[sent % 7:])
        except TimeoutError:
            pass
        check(sent < 1 << 27, f"{sent} bytes of commands were taken whose replies nobody reads")
        say(other, "get none\r\n", "END\r\n")
        connection.settimeout(talk.patience)
        wanted = value.encode() * (sent // 7)
        check(read(connection, len(wanted)) == wanted, "once they are read, all of them come, and none twice")


def unread_gets(command):
    """Replies that nobody reads have a bound in each turn, however many keys a get has and however many commands a turn
    may serve, and the only worker serves the others. Then they come all. Without sanitizers, for their memory."""
    with running(command, "-t", "1", "-R", "1000000") as port, connect(port) as other:
        counts = stats_of(other)
        data = "x" * int(counts["most_data_bytes"])
        say(other, f"set u 0 0 {len(data)}\r\n{data}\r\n", "STORED\r\n")
        value = f"VALUE u 0 {len(data)}\r\n{data}\r\n".encode()
        before = memory_of(counts["pid"], "VmHWM")
        count = min(200000, (8 << 20) // len(value))
        for sent, wanted in ((b"get" + b" u" * count + b"\r\n", value * count + b"END\r\n"),
                             (b"mg u v\r\n" * 2000, f"VA {len(data)}\r\n{data}\r\n".encode() * 2000)):
            with socket.socket() as connection:
                connection.setsockopt(socket.SOL_SOCKET, socket.SO_RCVBUF, 1 << 14)
                connection.settimeout(talk.patience)
                connection.connect(("127.0.0.1", port))
                connection.sendall(sent)
                time.sleep(0.3)
                say(other, "get none\r\n", "END\r\n")
                grown = memory_of(counts["pid"], "VmHWM") - before
                check(grown < 5000, f"unread replies took {grown} KiB, of {len(wanted) >> 10}")
                connection.setsockopt(socket.SOL_SOCKET, socket.SO_RCVBUF, 1 << 20)
                check(read(connection, len(wanted)) == wanted, "once they are read, all of them come")


def counters(port):
    """Counters that many connections raise at the same time: no raise is lost."""
    with connect(port) as connection:
        say(connection, "set n 0 0 1\r\n0\r\n", "STORED\r\n")

    def count():
        with connect(port) as connection:
            for _ in range(25):
                connection.sendall(b"incr n 1\r\nma n v\r\n")
                reply = read_to(connection, b"\r\n")
                while reply.count(b"\r\n") < 3:
                    reply += connection.recv(64)
                check(b"E" not in reply, f"incr is answered {reply}")

    threads = [threading.Thread(target=count) for _ in range(50)]
    for thread in threads:
        thread.start()
    for thread in threads:
        thread.join()
    with connect(port) as connection:
        say(connection, "get n\r\n", "VALUE n 0 4\r\n2500\r\nEND\r\n")
