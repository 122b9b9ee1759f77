# SPDX-License-Identifier: MIT
"""Tests of the server's counts, of keys that are busy or have no room, and of what is given back."""

import os
import re
import signal
import threading
import time
from pathlib import Path

from talk import (TOO_LARGE, alone, check, connect, count_there, free_port, memory_of, read, read_to, running, say,
                  served, stats_of, store_all, wait_until)


def counts(command):
    """Each count is that of what was done, by one worker and this connection."""
    with running(command, "-t", "1", "--keys", "64") as port, connect(port) as connection:
        there = store_all(connection, 5000)
        say(connection, "add key4999 0 0 1\r\ny\r\n", "NOT_STORED\r\n")
        counts = alone(connection)
        wanted = {"threads": "1", "curr_connections": "1", "cmd_get": "5000", "get_hits": str(there), "cmd_set": "5001",
                  "get_misses": str(5000 - there), "curr_items": str(there), "limit_maxkeys": "64"}
        check(wanted.items() <= counts.items(), f"the stats are {counts}, and not {wanted}")
        check(int(counts["total_items"]) - int(counts["evictions"]) == there, f"what is gone was evicted: {counts}")
        check(64 <= there < 1000, f"64 keys have room: {there}")
        check(Path(f"/proc/{counts['pid']}").exists() and 0 <= int(counts["uptime"]) < 100, f"pid, uptime: {counts}")
        say(connection, "stats reset\r\n", "RESET\r\n")
        counts = stats_of(connection)
        reset = ("cmd_get", "evictions", "total_items")
        check(all(counts[name] == "0" for name in reset), f"the counts are reset: {counts}")
        check(counts["curr_items"] == str(there), "the items stay")
        say(connection, "incr x 1\r\ndecr x 1\r\ndelete x\r\ntouch x 1\r\ncas x 0 0 1 1\r\n1\r\n",
            "NOT_FOUND\r\n" * 5)
        counts = stats_of(connection)
        misses = ("incr_misses", "decr_misses", "delete_misses", "touch_misses", "cas_misses")
        check(all(counts[name] == "1" for name in misses), f"each has missed once: {counts}")


def ended(command):
    """Connections that have ended are counted no longer, and the table is that of its items."""
    with running(command, "-t", "1") as port, connect(port) as connection:
        store_all(connection, 10)
        say(connection, "stats reset\r\n", "RESET\r\n")
        total = int(stats_of(connection)["total_connections"])
        for _ in range(5):
            connect(port).close()
        wait_until(lambda: int(stats_of(connection)["total_connections"]) == total + 5)
        counts = alone(connection)
        wanted = {"total_connections": str(total + 5), "connection_structures": "1", "pointer_size": "64",
                  "accepting_conns": "1", "conn_yields": "0"}
        check(wanted.items() <= counts.items(), f"the stats are {counts}, and not {wanted}")
        items, slabs = stats_of(connection, "items"), stats_of(connection, "slabs")
        number = int(counts["curr_items"])
        check(int(counts["bytes"]) == 64 * number == int(items["items:1:mem_requested"]), f"bytes of items: {items}")
        check(items["items:1:evicted"] == items["items:1:outofmemory"] == "0", f"none was evicted: {items}")
        right = {"1:chunk_size": "192", "1:total_chunks": counts["limit_maxkeys"], "1:used_chunks": str(number),
                 "1:cmd_set": "0", "1:get_hits": "0", "1:mem_requested": str(64 * number), "active_slabs": "1",
                 "total_malloced": str(192 * int(counts["limit_maxkeys"]))}
        check(slabs == right, f"the slabs are {slabs}, and not {right}")


def sizes(command):
    """-I bounds an item with its key and header, below what the library takes. -C has flush_all take the second."""
    for size, shown in (("1024", 1008), ("1k", 1008), ("2K", 2032), ("1m", 1 << 20), ("1M", 1 << 20)):
        with running(command, "-m", "4", "-I", size, "-C", "-t", "1") as port, connect(port) as connection:
            most = min(shown, int(stats_of(connection)["most_data_bytes"])) + 16
            settings = stats_of(connection, "settings")
            check(settings["item_size_max"] == str(most), f"-I {size}: {settings}")
            say(connection, "set a 0 0 1\r\nx\r\nflush_all\r\nset a 0 0 1\r\ny\r\nget a\r\n",
                "STORED\r\nOK\r\nSTORED\r\nEND\r\n")
            for length, answer in ((most - 17, "STORED\r\n"), (most - 15, TOO_LARGE)):
                say(connection, f"set b 0 0 {length}\r\n{'x' * length}\r\n", answer)
        with running(command, "-m", "4", "-I", size, "-t", "1") as port, connect(port) as connection:
            data = "x" * min(shown - 1, most - 16)
            say(connection, f"set b 0 0 1\r\nx\r\nappend b 0 0 {len(data) - 1}\r\n{data[1:]}\r\n", "STORED\r\n" * 2)
            for extend in ("append", "prepend"):
                say(connection, f"{extend} b 0 0 1\r\nx\r\n", TOO_LARGE)
            say(connection, "get b\r\n", f"VALUE b 0 {len(data)}\r\n{data}\r\nEND\r\n")


def spread(command):
    """Connections go to the threads by turns, so that each thread works."""
    with running(command, "-t", "3") as port:
        others = [connect(port) for _ in range(3)]
        tasks = list(Path(f"/proc/{stats_of(others[0])['pid']}/task").iterdir())
        # ThreadSanitizer has a thread of its own.
        check(len(tasks) == 4 or "/threads" in command[0], f"-t 3: {len(tasks)} threads run")
        if not (tasks[0] / "schedstat").exists():
            return print("left out: which threads work: Linux has no schedstat here")
        before = [int((task / "schedstat").read_text().split()[0]) for task in tasks]
        for other in others:
            say(other, "get none\r\n" * 8000, "END\r\n" * 8000)
            other.close()
        took = [int((task / "schedstat").read_text().split()[0]) - was for task, was in zip(tasks, before)]
        check(sum(it > 200000 for it in took) >= 3, f"three threads work: {took} ns")
    return None


ITEMS = 100_000  # that the library looks at for a stats, in some 12 ms


def drained(connection):
    """Reads all that comes on a connection, on a thread of its own, and returns how often END came."""
    ends = []

    def drain():
        try:
            while got := connection.recv(1 << 18):
                ends.append(got.count(b"END\r\n"))
        except OSError:
            pass

    threading.Thread(target=drain, daemon=True).start()
    return lambda: sum(ends)


def processor_of(counts):
    """The seconds of processor time that the server has taken."""
    return float(counts["rusage_user"]) + float(counts["rusage_system"])


def stats_in_a_piece(command):
    """A thousand stats in one piece keep nobody waiting, neither at the same thread nor at the other one, and few of
    them count all rows."""
    with running(command, "-t", "2", "-m", "32") as port:
        asker, *others = connections = [connect(port) for _ in range(3)]
        there = store_all(asker, ITEMS)
        counts = stats_of(asker)
        check(int(counts["curr_items"]) == there, f"the first stats counts all {there} items: {counts['curr_items']}")
        asker.settimeout(None)
        answered = drained(asker)
        asker.sendall(b"stats\r\n" * 1000)
        longest, began = 0, time.monotonic()
        while answered() < 1000 and time.monotonic() - began < 60:
            for other in others:
                sent = time.monotonic()
                say(other, "get none\r\n", "END\r\n")
                longest = max(longest, time.monotonic() - sent)
        check(answered() == 1000, f"all are answered: {answered()}")
        check(longest < 1, f"amid 1,000 stats a get took {longest:.2f} s")
        took = processor_of(stats_of(others[0])) - processor_of(counts)
        check(took < 6, f"1,000 stats took {took:.1f} s of the processor")
        for connection in connections:
            connection.close()


def stats_by_turns(command):
    """After each stats of a piece the thread's other connections have a turn. Both pieces are there at the start."""
    with running(command, "-t", "1") as port, connect(port) as one, connect(port) as other:
        say(one, "set n 0 0 1\r\n0\r\n", "STORED\r\n")
        pid = int(stats_of(other)["pid"])
        os.kill(pid, signal.SIGSTOP)
        for task in Path(f"/proc/{pid}/task").iterdir():
            while ") T " not in (task / "stat").read_text():
                time.sleep(0.01)
        one.sendall(b"incr n 1\r\nstats settings\r\n" * 60)
        other.sendall(b"get n\r\nstats settings\r\n" * 60)
        os.kill(pid, signal.SIGCONT)
        got = b""
        while got.count(b"END\r\n") < 120 and (more := other.recv(65536)):
            got += more
        seen = [int(number) for number in re.findall(rb"VALUE n 0 \d+\r\n(\d+)", got)]
        steps = [after - before for before, after in zip([0, *seen], [*seen, 60])]
        check(len(seen) == 60 and max(steps) <= 3, f"of two connections each has its turns: {seen}")


def ends_soon(command, piece, items=0):
    """SIGTERM ends the server soon, amid pieces that it would serve for long."""
    words = [*command, "-l", "127.0.0.1", "-p", str(port := free_port()), "-t", "1", "-m", "32"]
    with served(words, port) as server:
        with connect(port) as connection:
            store_all(connection, items)
        connections = [connect(port) for _ in range(8)]
        for connection in connections:
            say(connection, "mn\r\n", "MN\r\n")
        for connection in connections:
            connection.settimeout(None)
            drained(connection)
            connection.sendall(piece)
        time.sleep(0.3)
        began = time.monotonic()
        server.send_signal(signal.SIGTERM)
        status = server.wait(timeout=200)
        took = time.monotonic() - began
        check(status == 0 and took < 3, f"amid {piece[:11]} SIGTERM took {took:.1f} s, and it ended with {status}")
        for connection in connections:
            connection.close()


def ends_amid_pieces(command):
    """SIGTERM ends the server soon, whatever it counts."""
    ends_soon(command, b"stats\r\n" * 2000, ITEMS)


def slow_rounds(command):
    """Only over the stand-in, whose busy keys make a worker's rounds long. A stats of another worker waits for none of
    them, nor does the server's end. What was stored after a round began has the age 0 in it."""
    for _ in range(3):
        with running(command, "-t", "2", "-R", "1") as port:
            connections = [connect(port) for _ in range(32)]
            for slow in connections[1::2]:
                slow.sendall(b"get busy-a\r\n" * 200)
            time.sleep(0.5)
            began = time.monotonic()
            stats_of(connections[0])
            took = time.monotonic() - began
            check(took < 3, f"a stats took {took:.1f} s")
            for connection in connections:
                connection.close()
    with running(command, "-t", "2") as port, connect(port) as slow, connect(port) as other:
        slow.sendall(b"get busy-a\r\n" * 40 + b"mg k l\r\nme k\r\nmn\r\n")
        time.sleep(1.2)
        say(other, "set k 0 0 1\r\nx\r\n", "STORED\r\n")
        got = read_to(slow, b"MN\r\n").decode()
        check(re.fullmatch(r"(END\r\n){40}HD l0\r\nME k exp=-1 la=0 .*\r\nMN\r\n", got), f"the ages are {got[200:]}")
    ends_soon(command, b"get busy-a\r\n" * 200)


def lives(command):
    """Each item lives to its own second, whatever the moment, and by whichever call it was stored. --time-to-live is
    the most, of which an eighth can be missing."""
    value = "VALUE {} 0 1\r\n1\r\n"

    def after(seconds):
        return "".join(f"debugtime {min(65535, seconds - at)}\r\n" for at in range(0, seconds, 65535))

    with running(command, "-t", "1") as port, connect(port) as connection:
        say(connection, "set z 0 0 1\r\n1\r\n", "STORED\r\n")
        for seconds in (3, 7, 8, 9, 59, 60, 61, 500, 3599, 3600, 3601, 99999, 2592000):
            for moved in (0, 1, 3, 5, 300):
                moves = after(seconds - 2)
                say(connection, f"debugtime {moved}\r\nset s 0 {seconds} 1\r\n1\r\nset c 0 0 1\r\n1\r\n"
                    f"touch c {seconds}\r\nms m 1 ME T{seconds}\r\n1\r\nset e 0 {seconds} 1\r\n0\r\nincr e 1\r\n"
                    f"set f 0 {seconds} 1\r\n1\r\ntouch f 0\r\n{moves}get s c m e\r\n",
                    "OK\r\nSTORED\r\nSTORED\r\nTOUCHED\r\nHD\r\nSTORED\r\n1\r\nSTORED\r\nTOUCHED\r\n"
                    + "OK\r\n" * moves.count("\n") + "".join(value.format(key) for key in "scme") + "END\r\n")
                say(connection, "debugtime 2\r\nget s c m e f\r\n", f"OK\r\n{value.format('f')}END\r\n")
        say(connection, "get z\r\n", value.format("z") + "END\r\n")
    with running(command, "-t", "1", "--time-to-live", "400") as port, connect(port) as connection:
        for moved in (0, 1, 13, 49):
            say(connection, f"debugtime {moved}\r\nset a 0 300 1\r\n1\r\nset b 0 3000 1\r\n1\r\nset c 0 0 1\r\n1\r\n"
                "touch c 5000\r\ndebugtime 298\r\nget a b c\r\ndebugtime 2\r\nget a b c\r\n",
                "OK\r\nSTORED\r\nSTORED\r\nSTORED\r\nTOUCHED\r\nOK\r\n" + "".join(value.format(key) for key in "abc")
                + "END\r\nOK\r\n" + value.format("b") + value.format("c") + "END\r\n")
            say(connection, "debugtime 48\r\nget b c\r\ndebugtime 52\r\nget b c\r\n",
                "OK\r\n" + value.format("b") + value.format("c") + "END\r\nOK\r\nEND\r\n")


def recycled(command):
    """Only over the library: what has expired goes first. Items of 2 seconds, many times as many as there is room for,
    take no item that is without end, by whichever call they are stored."""
    endless = [f"endless{i}" for i in range(4000)]
    with running(command, "-t", "1", "--keys", "5000") as port, connect(port) as connection:
        for key in endless:
            connection.sendall(f"set {key} 0 0 1 noreply\r\nx\r\n".encode())
        check(count_there(connection, endless) == 4000, "all have room")
        for verb in ("set", "add"):
            before = stats_of(connection)
            for place in range(100):
                short = [f"{verb}{place}-{i}" for i in range(500)]
                for key in short:
                    connection.sendall(f"{verb} {key} 0 2 1 noreply\r\nx\r\n".encode())
                connection.sendall(b"debugtime 2\r\n")
                read_to(connection, b"OK\r\n")
            counts = stats_of(connection)
            refilled = int(counts["refilled_segments"]) - int(before["refilled_segments"])
            there = count_there(connection, endless)
            check(there == 4000, f"{verb}: {there} of 4,000 endless items are there, after {refilled} segments")
            check(refilled >= 200, f"{verb}: the segments come back: {refilled}")


def given_back(command):
    """Connections that come and go leave no memory behind. Without sanitizers."""
    with running(command, "-t", "1", "-m", "8", "-c", "40") as port, connect(port) as connection:
        sizes = []
        say(connection, "set g 0 0 1\r\nx\r\n", "STORED\r\n")
        for _ in range(3):
            for _ in range(40):
                others = [connect(port) for _ in range(30)]
                for other in others:
                    other.sendall(b"get g\r\nget " + b"g" * 17000)
                    check(read(other, 21) == b"VALUE g 0 1\r\nx\r\nEND\r\n", "a reply, and a line's beginning")
                    other.close()
                alone(connection)
            sizes.append(memory_of(stats_of(connection)["pid"]))
        check(sizes[2] - sizes[1] < 200, f"1,200 connections leave nothing behind: {sizes} KiB")
