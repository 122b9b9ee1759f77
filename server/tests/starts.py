# SPDX-License-Identifier: MIT
"""Tests of how the server starts, what it says, whose rights it has, and how it ends."""

import os
import pwd
import re
import shutil
import signal
import socket
import subprocess
import tempfile
import threading
import time
from pathlib import Path

from talk import (RIGHTS, SERVES, alone, check, connect, free_port, read_to, running, said_by, say, served,
                  shared_folder, start, stats_of, wait_until)

FEW, MORE, MOST = 255, 2**31 - 1, 2**32 - 1
SIZE = "an item's size is at least 1024, as in -I 1024, -I 512k or -I 1m"
HALF = "an item has half of -m at most"
NO_TLS = "there is no TLS; stunnel before the server has it, as deploy/stunnel.conf shows"
BITS = "needs access bits in octal, as 700"


def out_of(name, least, most, text):
    return f'{name}: needs a number from {least} to {most}, and not "{text}"'


# Options that no server starts with, and the line that says why.
BAD_OPTIONS = [
    *[([name, text], out_of(name, least, most, text)) for name, least, most, texts in (
        ("-c", 1, MORE, "0 2147483648 x -1"), ("-t", 1, 64, "0 65 x"), ("-m", 1, MOST, "0 4294967296 m"),
        ("-b", 1, MORE, "0 2147483648"), ("-R", 1, MORE, "0 2147483648"), ("-p", 0, 65535, "65536 -2 x"),
        ("--keys", 1, MOST, "0 4294967296"), ("--time-to-live", 1, MORE, "0 2147483648"),
        ("--keep-from", 0, FEW, "256 x"), ("--idle_timeout", 0, MORE, "x 2147483648")) for text in texts.split()],
    *[(["-I", text], f"-I: {SIZE}")
      for text in ("1000", "1023", "x", "k", "", "0k", "4096m", "4194304k", "4294967296")],
    *[(["-m", "2", "-I", text], f"-I: {HALF}") for text in ("1025k", "1048577", "2m", "4095m")],
    *[(["-o", text], "-o nonesuch: isn't known; -h shows those that are")
      for text in ("nonesuch", "idle_timeout=5,nonesuch", "modern,nonesuch=5")],
    (["-o", "hash_algorithm,idle_timeout"], out_of("-o idle_timeout", 0, MORE, "")),
    (["-o", "idle_timeout=x"], out_of("-o idle_timeout", 0, MORE, "x")),
    (["-o", "idle_timeout=2147483648"], out_of("-o idle_timeout", 0, MORE, "2147483648")),
    *[(["-a", text], f"-a: {BITS}") for text in ("9", "", "1000", "70x", "x")],
    *[(["-B", text], "-B: only the text protocol is served: -B auto or -B ascii") for text in ("binary", "asci")],
    (["-U", "11211"], "-U: there is no UDP: only -U 0"),
    *[(words.split(), f"{named}: isn't known; -h shows those that are") for words, named in (
        ("-x", "-x"), ("-vx", "-x"), ("-m 64 -j1.25", "-j"), ("--memory-limit 64 -kg48", "-g"),
        ("--daemon=1", "--daemon=1"))],
    *[(words.split(), f"{named}: {why}") for words, named, why in (
        ("-M", "-M", "a full cache evicts, and can't answer with an error in place of that"),
        ("-kLM", "-M", "a full cache evicts, and can't answer with an error in place of that"),
        ("--enable-sasl", "-S", "there is no SASL, and without it anybody would be served"),
        ("-Y FILE", "-Y", "there is no authentication, and without it anybody would be served"),
        ("-Z", "-Z", NO_TLS), ("-o modern,ssl_key=FILE", "-o ssl_key", NO_TLS),
        ("-e FILE", "-e", "the content doesn't outlive the server"),
        ("-o ext_threads=2,ext_path=FILE:1G", "-o ext_path", "there is no storage beside memory"),
        ("-o proxy_config=FILE", "-o proxy_config", "there is no proxy"),
        ("-o drop_privileges", "-o drop_privileges",
         "there is no filter of system calls; deploy/segcache-server.service has one"),
        ("-o sock_cookie_id=5", "-o sock_cookie_id", "sockets get no mark"))],
    (["--nonesuch"], "--nonesuch: isn't known; -h shows those that are"),
    (["-p"], "-p: needs an argument; -h shows them all"),
    (["--keys"], "--keys: needs an argument; -h shows them all"),
    (["what"], "what: isn't an option; -h shows them"),
    (["-p", "0", "-P", "/nowhere/pid"], "-p 0: needs a socket by -s"),
]

# Options with a number at its bound, by which a server starts, and what stats settings has of them.
BOUNDS = [
    ("-c 1 -t 1 -m 1 -b 1 -R 1", {"maxconns": "1", "num_threads": "1", "maxbytes": "1048576", "tcp_backlog": "1",
                                  "reqs_per_event": "1"}),
    ("-t 64 -m 2 -I 1m -c 2147483647 -b 2147483647 -R 2147483647 -o idle_timeout=0",
     {"num_threads": "64", "maxconns": "2147483647", "tcp_backlog": "2147483647", "reqs_per_event": "2147483647",
      "idle_timeout": "0"}),
    ("--keys 1 --time-to-live 1 --keep-from 255 -o idle_timeout=2147483647 -m 2 -I 1024k",
     {"keys": "1", "time_to_live": "1", "idle_timeout": "2147483647"}),
    ("--keys 1 --time-to-live 2147483647 --idle_timeout 2147483647 -m 2 -I 1024",
     {"time_to_live": "2147483647", "idle_timeout": "2147483647"}),
]


def ends_with(command, words, status, line, **more):
    """No server starts: the program ends with a status and one line."""
    ran = subprocess.run([*command, *words], capture_output=True, text=True, timeout=60, **more)
    right = line(ran.stderr) if callable(line) else ran.stderr == f"segcache-server: {line}\n"
    check(ran.returncode == status and right and ran.stdout == "",
          f"{words}: {ran.returncode} {ran.stderr!r}, and not {status} {line}")


def settings_of(port):
    """The settings, once the connection is taken: with -c 1 the one that waited for the server has to be gone."""
    for _ in range(200):
        try:
            with connect(port) as connection:
                if settings := stats_of(connection, "settings"):
                    return settings
        except ConnectionResetError:
            pass
        time.sleep(0.05)
    return {}


def bad_options(command):
    """Each gets one line that names it, and no server starts. At its bound a number is taken."""
    for words, line in BAD_OPTIONS:
        ends_with(command, ["-p", str(free_port()), *words], 64, line)
    for word, shown in (("-h", "--memory-limit"), ("--help", "--memory-limit"),
                        ("-V", "segcache-server 1.6.0-segcache\n"), ("--version", "segcache-server 1.6.0-segcache\n")):
        ran = subprocess.run([*command, word], capture_output=True, text=True, timeout=60)
        check(ran.returncode == 0 and shown in ran.stdout, f"{word} shows {shown}")
    text = subprocess.run([*command, "-h"], capture_output=True, text=True, timeout=60).stdout
    check(not re.search("(?i)ext_path|sasl|proxy_config|enable-ssl|no_drop_privileges", text), "-h names what it has")
    groups = re.findall(r"(?m)^\w.+", text)[1:]
    check(groups == ["Where it listens", "Memory and items", "Threads and connections", "The process and its log",
                     "What memcached has and this server hasn't"], f"-h has groups: {groups}")
    shown = set(re.findall(r"(?:^|[ ;])-([A-Za-z])\b", text))
    check(shown == set("plsabmIkCFtcRoudPrAvVhiBUWXfnLNDMSYZe"), f"-h shows all options: {shown}")
    for words, wanted in BOUNDS:
        with running(command, *words.split()) as port:
            settings = settings_of(port)
            check(wanted.items() <= settings.items(), f"{words}: {settings}")


def bad_places(command):
    """Places where no server can listen or write, and what says so."""
    with shared_folder() as folder, running(command) as port:
        file, inner, long_name = Path(folder, "file"), Path(folder, "inner"), "/" + "n" * 107
        file.touch()
        inner.mkdir()
        taken = ",".join(f"127.0.0.{i}" for i in range(1, 10))
        for words, line in ((["-p", str(port), "-l", "127.0.0.1"], f"127.0.0.1, port {port}: Address already in use"),
                            (["-p", "-1", "-l", taken], "127.0.0.9: too many addresses"),
                            (["-s", long_name], f"{long_name}: the name is too long"),
                            (["-s", "/nowhere/s"], "/nowhere/s: No such file or directory"),
                            (["-s", str(file)], f"{file}: the file is there and isn't a socket left over")):
            ends_with(command, words, 71, f"to listen, {line}")
        ends_with(command, ["-p", str(free_port()), "-l", "fooble.invalid"], 71,
                  lambda text: re.fullmatch(r"segcache-server: to listen, fooble.invalid: .+\n", text))
        if command[0].endswith("tested"):
            ends_with(["prlimit", f"--as={512 << 20}", *command], ["-p", "-1", "-m", "4096"], 71,
                      "the cache can't be opened: out of memory")
        ends_with(command, ["-p", "-1", "-P", "/nowhere/pid"], 1, "/nowhere/pid: No such file or directory")
        for name, line in (("/nowhere/ports", "/nowhere/ports.new: No such file or directory"),
                           (str(inner), f"{inner}: Is a directory"),
                           ("/" + "n" * 4092, "/" + "n" * 4092 + ": the name is too long")):
            ends_with(command, ["-p", "-1"], 1, f"to listen, {line}",
                      env={**os.environ, "MEMCACHED_PORT_FILENAME": name})
        check(file.exists(), "what can't be listened at stays")
        with connect(port) as connection:
            say(connection, "mn\r\n", "MN\r\n")


def serving_at(path):
    """A connection by a UNIX socket, once there is one."""
    connection = socket.socket(socket.AF_UNIX)
    check(wait_until(lambda: connection.connect_ex(str(path)) == 0), f"a server listens at {path}")
    return connection


def files(command):
    """A UNIX socket, its access bits, and what a server that was killed leaves."""
    with shared_folder() as folder:
        path = Path(folder, "s")
        for words, bits in ((["-s", str(path), "-a", "666", "-b", "1"], 0o666), (["-p", "0", "-s", str(path)], 0o700),
                            (["--unix-socket", str(path), "--unix-mask", "777", "-b", "1"], 0o777)):
            killed = "-p" not in words
            with start([*command, *words]) as server:
                with serving_at(path) as connection:
                    check(path.stat().st_mode & 0o777 == bits, f"{words}: {path.stat().st_mode:o}")
                    say(connection, "mn\r\n", "MN\r\n")
                    settings = stats_of(connection, "settings")
                    check(settings["domain_socket"] == str(path) and settings["tcpport"] == "0", f"-s: {settings}")
                    ends_with(command, ["-s", str(path)], 71,
                              f"to listen, {path}: the file is there and isn't a socket left over")
                    say(connection, "mn\r\n", "MN\r\n")
                    check(path.is_socket(), "who finds the file in use leaves it")
                    if killed:
                        behind(command, server, path)
                server.send_signal(signal.SIGKILL if killed else signal.SIGTERM)
            check(path.exists() == killed, f"the socket's file is taken away: {words}")


def behind(command, server, path):
    """A server that is behind with its connections keeps its file, too."""
    server.send_signal(signal.SIGSTOP)
    waiting = []
    while True:
        waiting.append(socket.socket(socket.AF_UNIX, socket.SOCK_STREAM | socket.SOCK_NONBLOCK))
        if waiting[-1].connect_ex(str(path)) != 0:
            break
    ends_with(command, ["-s", str(path)], 71, f"to listen, {path}: the file is there and isn't a socket left over")
    for connection in waiting:
        connection.close()
    server.send_signal(signal.SIGCONT)


def background(command, names=("-d", "-P")):
    """A file with the process's number, the background, and a file with the ports."""
    with shared_folder() as folder:
        pid_file, ports = Path(folder, "pid"), Path(folder, "ports")
        environment = {**os.environ, "MEMCACHED_PORT_FILENAME": str(ports)}
        words = [*command, "-p", "-1", "-l", "127.0.0.1,127.0.0.2", *names, str(pid_file)]
        check(subprocess.run(words, env=environment).returncode == 0, "-d ends well once the server serves")
        text = ports.read_text()
        check(re.fullmatch(r"TCP INET: (\d+)\nTCP INET: \1\n", text), f"both addresses have one port: {text}")
        port, pid = int(text.split()[2]), int(pid_file.read_text())
        with connect(port) as connection, socket.create_connection(("127.0.0.2", port)) as other:
            say(other, "mn\r\n", "MN\r\n")
            check(os.getsid(pid) == pid, "-d leaves the terminal")
            check(stats_of(connection)["pid"] == str(pid), "-P has the number of the process")
            links = [Path(f"/proc/{pid}/fd/{i}").readlink() for i in range(3)]
            check(links == [Path("/dev/null")] * 3, f"-d leaves input and outputs: {links}")
        os.kill(pid, signal.SIGTERM)
        check(wait_until(lambda: not pid_file.exists()), "and is taken away")
        with open(Path(folder, "log"), "w+") as log:
            subprocess.run([*words, "-v"], env=environment, stderr=log)
            os.kill(int(pid_file.read_text()), signal.SIGTERM)
            check(wait_until(lambda: not pid_file.exists()), "and with -v")
            text = SERVES.sub("", Path(log.name).read_text())
            check(text == "segcache-server: ends: Terminated\n", f"-d -v goes on with its log: {text}")


def told(command):
    """What is said on standard error: with -v of connections that were turned away, and of the end, with -vv of each
    connection and command, else nothing."""
    for words, wanted in ((["-c", "2"], r""),
                          (["-vv"], r"(?s).*<(\d+) new client connection\n<\1 set told 0 0 1\n<\1 stats settings\n.*"),
                          (["-v", "-c", "2"], r"(?:segcache-server: too many connections: [1-4] refused\n)+"
                           r"segcache-server: ends: Terminated\n")):
        words = [*command, "-p", str(port := free_port()), "-o", "idle_timeout=600", "-b", "7", "-B", "ascii", *words]
        with served(words, port, stderr=subprocess.PIPE, text=True) as server:
            with connect(port) as connection:
                say(connection, "set told 0 0 1\r\nx\r\n", "STORED\r\n")
                settings = stats_of(connection, "settings")
                right = {"idle_timeout": "600", "tcp_backlog": "7", "binding_protocol": "ascii"}
                check(right.items() <= settings.items(), f"the settings are {settings}")
                alone(connection)
                others = [connect(port) for _ in range(5 if "-c" in words else 0)]
                for other in others[-3:]:
                    read_to(other, b"\n")
                    other.close()
                if shutil.which("ss"):
                    shown = subprocess.run(["ss", "-Hltn", f"sport = :{port}"], capture_output=True, text=True).stdout
                    check(shown.split()[2] == "7", f"-b 7: {shown}")
            text = said_by(server)
        check(re.fullmatch(wanted, text), f"{words}: {text}")


# What memcached has and this server hasn't, and whose words are taken. The line at the start names each once.
TUNED = ("-f 1.1 --slab-growth-factor=1.2 -n 64 -L --enable-largepages -D : -N 2 -WX --disable-dumping "
         "-o modern,hashpower=22,no_lru_crawler,lru_crawler_sleep=5,maxconns_fast,no_hashexpand,slab_sizes=8-16 "
         "-o modern,ext_threads=2,no_drop_privileges,idle_timeout=600, --verbose=9 -U 0",
         "segcache-server: without effect here: -f, -n, -L, -D, -N, -o modern, -o hashpower, -o no_lru_crawler, "
         "-o lru_crawler_sleep, -o no_hashexpand, -o slab_sizes, -o ext_threads, -o no_drop_privileges\n"
         "segcache-server: ends: Terminated\n")


def deployed(command):
    """What a memcached's unit says starts this server. -k locks memory, and -r lets core files be written."""
    lower = ["prlimit", "--core=0:unlimited", "--memlock=65536:"]
    for words, line, before in ((TUNED[0], TUNED[1], []), ("-k -r", "", lower),
                                ("--lock-memory --enable-coredumps", "", [])):
        given = [*before, *command, "-p", str(port := free_port()), *words.split()]
        with served(given, port, stderr=subprocess.PIPE, text=True) as server:
            with connect(port) as connection:
                status, pid = rights_of(connection), stats_of(connection)["pid"]
                check(("-o" in words) == (stats_of(connection, "settings")["idle_timeout"] == "600"), words)
                shown, locked = Path(f"/proc/{pid}/limits").read_text(), int(status["VmLck"].split()[0])
                if "-o" not in words:
                    for limit in ("core file size", "locked memory"):
                        check(re.search(rf"Max {limit} +(\w+) +\1 ", shown), f"{words}: as far as may be: {shown}")
                    owner = Path(f"/proc/{pid}/status").stat().st_uid  # root, where no core file may be written
                    check(owner == int(status["Uid"].split()[1]), f"{words}: core files are written for {owner}")
            text = said_by(server)
        unlocked = "segcache-server: -k: memory can't be locked: Cannot allocate memory\n"  # where the limit is too low
        check(text == line or "-o" not in words and text == unlocked, f"{words}: {text}")
        if command[0].endswith(("tested", "tested_standin")):  # sanitizers lock nothing
            check((locked > 1000) == ("-o" not in words and text != unlocked), f"{words}: {locked} KiB are locked")
    if os.geteuid() == 0:
        bounds = ["--memlock=1048576:1048576", "--core=0:0"]
        few = ["setpriv", "--reuid=nobody", "--regid=nogroup", "--clear-groups", "prlimit", *bounds]
        bare = command[:-len(RIGHTS)]
        ends_with([*few, *bare], ["-p", "-1", "-r"], 71, "-r: the limit of core files is 0")
        with served([*few, *bare, "-p", str(port := free_port()), "-k"], port, stderr=subprocess.PIPE, text=True) as it:
            with connect(port) as connection:
                say(connection, "mn\r\n", "MN\r\n")
            text = said_by(it)
        right = "segcache-server: -k: memory can't be locked: Cannot allocate memory\n"
        check(text == (right if "tested" in command[0] else ""), f"-k: {text}")


def told_at_start(command):
    """A line at the start says where, with how many threads, how much memory and how long items are served."""
    with shared_folder() as folder:
        path, port = Path(folder, "s"), free_port()
        for words, where, what in (
                (["-l", "127.0.0.1,127.0.0.2:1" + str(port)[1:]], f"127.0.0.1:{port}, 127.0.0.2:1{str(port)[1:]}",
                 "threads 4, 64 MiB"), (["-s", path, "-t", "2", "-m", "5"], path, "threads 2, 5 MiB"),
                (["-l", "::1", "-I", "1500", "-t", "1"], f"[::1]:{port}", "threads 1, 64 MiB"),
                (["-d", "-P", f"{path}.pid", "--keys", "90", "-I", "9999"], f"127.0.0.1:{port}",
                 "threads 4, room for 90 keys")):
            if "::1" in words and not has_ipv6():
                continue
            log = Path(folder, "log")
            with open(log, "w") as to, start([*command, "-p", str(port), *words], stderr=to) as server:
                check(wait_until(lambda log=log: SERVES.search(log.read_text())), f"{words}: what is served is told")
                text = log.read_text()
                larger = re.match(r"segcache-server: -I 9999: an item has (4314|56) bytes at most here\n", text)
                check(("9999" in words) == (larger is not None), f"{words}: {text}")
                told = re.search(r"(?m)^segcache-server: serves (.+): (.+), data of (\d+) bytes at most\n", text)
                check(told and told[1] == str(where) and told[2] == what, f"{words}: {text}")
                most = int(told[3])
                check(most in (16, 1484 if "-I" in words and not larger else 4048), f"{words}: {most}")
                if "-d" in words:
                    check(wait_until(Path(f"{path}.pid").exists), "-d -P")
                    os.kill(int(Path(f"{path}.pid").read_text()), signal.SIGTERM)
                server.send_signal(signal.SIGTERM)


def rights_of(connection):
    """What the server that this connection goes to may do, as Linux shows it."""
    text = Path(f"/proc/{stats_of(connection)['pid']}/status").read_text()
    return dict(line.split(":", 1) for line in text.splitlines())


def user(command):
    """Root has to name a user. -u gives root's rights up, all of them, and no server has a capability."""
    if os.geteuid() != 0:
        return print("left out: -u: only root can give rights up")
    bare = command[:-len(RIGHTS)]
    ends_with(bare, ["-p", "-1"], 64, "-u: root has to name a user whose rights to take")
    ends_with(command, ["-p", "-1", "-u", "nonesuch"], 71, "nonesuch: there is no such user")
    nobody, capable = pwd.getpwnam("nobody"), "+net_bind_service"
    as_nobody = ["setpriv", f"--reuid={nobody.pw_uid}", f"--regid={nobody.pw_gid}", "--clear-groups"]
    still_root = ["setpriv", f"--euid={nobody.pw_uid}"]
    if not any(name in command[0] for name in ("checked", "refusing")):  # their sanitizer can't look into it
        ends_with([*still_root, *bare], ["-p", "-1"], 64, "-u: root has to name a user whose rights to take")
    kept = ["setpriv", "--securebits", "+no_setuid_fixup", "--inh-caps", capable]
    for before, words, user, group in (([], RIGHTS, nobody.pw_uid, nobody.pw_gid), ([], ["--user", "root"], 0, 0),
                                       (["setpriv", "--groups", "4"], RIGHTS, nobody.pw_uid, nobody.pw_gid),
                                       (kept, RIGHTS, nobody.pw_uid, nobody.pw_gid),
                                       (still_root, RIGHTS, nobody.pw_uid, nobody.pw_gid),
                                       ([*as_nobody, "--inh-caps", capable, "--ambient-caps", capable], [],
                                        nobody.pw_uid, nobody.pw_gid)):
        with running([*before, *bare], *words) as port, connect(port) as connection:
            shown = Path(f"/proc/{stats_of(connection)['pid']}/status").read_text()
            status = dict(line.split(":", 1) for line in shown.splitlines())
            ids = [status["Uid"].split(), status["Gid"].split()]
            check(ids == [[str(user)] * 4, [str(group)] * 4] and status["Groups"].split() == [],
                  f"{before} {words}: {ids} {status['Groups']}")
            left = {name: status[name].strip() for name in ("CapInh", "CapPrm", "CapEff", "CapAmb", "NoNewPrivs")}
            check(int(left["NoNewPrivs"]) == 1 and not any(int(left[name], 16) for name in left if name[0] == "C"),
                  f"{before} {words}: no capability is left: {left}")
    with tempfile.TemporaryDirectory() as folder:
        os.chown(folder, nobody.pw_uid, nobody.pw_gid)
        path = Path(folder, "s")
        with start([*command, "-s", str(path)]) as server:
            with serving_at(path) as connection:
                say(connection, "mn\r\n", "MN\r\n")
            check(path.stat().st_uid == nobody.pw_uid, f"a socket's file is the user's: {path.stat()}")
            server.send_signal(signal.SIGTERM)
            check(server.wait(timeout=60) == 0 and not path.exists(), "who takes it away in the end")
    return None


def addresses(command):
    """-l may come several times, and dead connections are noticed."""
    with running(command, "-l", "127.0.0.2,127.0.0.3", "-l", "127.0.0.4") as port:
        for last in range(1, 5):
            with socket.create_connection((f"127.0.0.{last}", port), timeout=60) as connection:
                say(connection, "mn\r\n", "MN\r\n")
                asks = re.compile(rf" 0{last}00007F:{port:04X} \S+ 01 \S+ 02:")
                is_asked = wait_until(lambda asks=asks: asks.search(Path("/proc/net/tcp").read_text()))
                check(is_asked, "the kernel asks whether a client is there")


def closed_outputs(command):
    """With input and outputs closed, it serves in the background as else."""
    with shared_folder() as folder:
        pid_file = Path(folder, "pid")
        words = [*command, "-l", "127.0.0.1", "-p", str(port := free_port()), "-d", "-P", str(pid_file)]
        ran = subprocess.run(["sh", "-c", 'exec "$@" <&- >&- 2>&-', "sh", *words], timeout=60)
        check(ran.returncode == 0, f"-d ends with {ran.returncode}")
        with connect(port) as connection:
            say(connection, "mn\r\n", "MN\r\n")
            os.kill(int(pid_file.read_text()), signal.SIGTERM)
            check(connection.recv(1) == b"", "it ends")
        check(wait_until(lambda: not pid_file.exists()), "and takes its file away")


def shutdown(command):
    with running(command) as port, connect(port) as connection:
        say(connection, "shutdown\r\n", "ERROR: shutdown not enabled\r\n")
    for words in ("shutdown", "shutdown graceful"):
        with served([*command, "-l", "127.0.0.1", "-p", str(port := free_port()), "-A"], port) as server:
            with connect(port) as connection:
                say(connection, "shutdown x\r\n", "CLIENT_ERROR invalid shutdown mode\r\n")
                connection.sendall(f"{words}\r\n".encode())
                check(connection.recv(1) == b"", "shutdown ends the connection")
            check(server.wait(timeout=60) == 0, "and the server")


def ends(command):
    """SIGINT ends the server as SIGTERM does. SIGHUP, and a reply to who is gone, end nothing. By SIGUSR1 it writes
    what stats tells, and goes on."""
    for end in (signal.SIGINT, signal.SIGTERM):
        words = [*command, "-l", "127.0.0.1", "-p", str(port := free_port())]
        with served(words, port, stderr=subprocess.PIPE, text=True) as server:
            with connect(port) as connection:
                say(connection, "mn\r\n", "MN\r\n")
                ignored = int(re.search(r"SigIgn:\s*(\w+)", Path(f"/proc/{server.pid}/status").read_text())[1], 16)
                check(ignored >> signal.SIGPIPE - 1 & 1 == 1, "SIGPIPE is ignored")
                server.send_signal(signal.SIGHUP)
                say(connection, "mn\r\n", "MN\r\n")
                say(connection, "set s 0 0 1\r\nx\r\nget s\r\n", "STORED\r\nVALUE s 0 1\r\nx\r\nEND\r\n")
                for _ in range(2):
                    server.send_signal(signal.SIGUSR1)
                    lines = iter(server.stderr.readline, "segcache-server: STAT direct_reclaims 0\n")
                    counts = dict(line.split()[2:] for line in lines if " STAT " in line)
                    say(connection, "mn\r\n", "MN\r\n")
                told = stats_of(connection)
                same = {name for name in told if counts.get(name) == told[name]}
                check(counts["get_hits"] == "1" and counts["curr_items"] != "0" and {*told} - same <= {
                    "direct_reclaims", "rusage_user", "rusage_system", "time", "uptime", "cmd_meta", "bytes_read",
                    "bytes_written"}, f"SIGUSR1 writes {counts}, and stats {told}")
                server.send_signal(end)
                check(server.wait(timeout=60) == 0 and connection.recv(1) == b"", f"{end} ends server and connections")


def ask_for_stats(connection):
    """Asks for them again and again, until the server ends."""
    try:
        while connection.recv(1 << 18):
            connection.sendall(b"stats\r\n" * 20)
    except OSError:
        pass


def ends_amid_stats(command):
    """It ends also while workers take each other's counts."""
    for _ in range(10):
        with running(command, "-t", "4") as port:
            connections = [connect(port) for _ in range(8)]
            for connection in connections:
                say(connection, "mn\r\n", "MN\r\n")
                connection.sendall(b"stats\r\n" * 20)
            askers = [threading.Thread(target=ask_for_stats, args=[connection]) for connection in connections]
            for asker in askers:
                asker.start()
            time.sleep(0.3)
        for asker, connection in zip(askers, connections, strict=True):
            asker.join()
            connection.close()


def defaults(command):
    """Without options the server has what -h shows, and listens at one address."""
    with served([*command, "-p", str(port := free_port())], port):
        with socket.socket() as other:
            check(other.connect_ex(("127.0.0.2", port)) != 0, "without -l only 127.0.0.1 is listened at")
        settings = settings_of(port)
        wanted = {"maxbytes": str(64 << 20), "num_threads": "4", "maxconns": "1024", "tcp_backlog": "1024",
                  "reqs_per_event": "256", "idle_timeout": "0", "time_to_live": "0", "verbosity": "0",
                  "flush_enabled": "yes", "cas_enabled": "yes", "shutdown_command": "no",
                  "binding_protocol": "auto-negotiate", "inter": "127.0.0.1"}
        check(wanted.items() <= settings.items(), f"the settings are {settings}, and not {wanted}")


def unopened(command):
    """Only over the stand-in, which has no memory for so many keys: the server says so, and doesn't start."""
    words = ["-l", "127.0.0.1", "-p", str(free_port()), "--keys", "40002"]
    ends_with(command, words, 71, "the cache can't be opened: out of memory")


def too_small(command):
    """Where a thread's share has no room for the longest items, the server says so, and what it says has room has."""
    for words, most in (("-m 1 -t 64", 60), ("-m 1 -t 16", 1000), ("-m 64 -t 32", 3500), ("-m 64 -t 4", None)):
        words_of_it = [*command, "-p", str(port := free_port()), *words.split()]
        with served(words_of_it, port, stderr=subprocess.PIPE, text=True) as server:
            with connect(port) as connection:
                most_data = int(stats_of(connection)["most_data_bytes"])
                told = server.stderr.readline() if most and most < most_data else ""
                found = re.fullmatch(rf"segcache-server: {words}: no item of more than about (\d+) bytes has room\n",
                                     told.replace(" with", ""))
                length = int(found[1]) if found else most_data
                for i in range(50):
                    say(connection, f"set key{i} 0 0 {length}\r\n{'x' * length}\r\n", "STORED\r\n")
            more = said_by(server)
        check((found is not None and length < most) == bool(most and most < most_data) and more == "",
              f"{words}: {told} {more}")


def again(command):
    """A port that a server has just left is free for the next one."""
    port = free_port()
    for _ in range(2):
        with running(command, port=port), connect(port) as connection:
            say(connection, "get a\r\nset a 0 0 1\r\nx\r\n", "END\r\nSTORED\r\n")


def has_ipv6():
    try:
        socket.create_server(("::1", 0), family=socket.AF_INET6).close()
        return True
    except OSError:
        return False


def ports_of_addresses(command):
    """An address can have a port of its own. Brackets stand around one of IPv6 then, and `*` is all addresses."""
    one, two, three = (free_port() for _ in range(3))
    words = [*command, "-p", str(one), "-l", f"127.0.0.2:{two};127.0.0.3,,[127.0.0.4]:{three},[127.0.0.5],*:{two + 1}"]
    with start(words) as server:
        for place in (("127.0.0.2", two), ("127.0.0.3", one), ("127.0.0.4", three), ("127.0.0.5", one),
                      ("127.0.0.6", two + 1)):
            with socket.socket() as connection:
                check(wait_until(lambda it=connection, place=place: it.connect_ex(place) == 0), f"at {place}")
                say(connection, "mn\r\n", "MN\r\n")
        server.send_signal(signal.SIGTERM)
    for text in ("0", "65536", "x", ""):
        ends_with(command, ["-l", f"127.0.0.2:{text}"], 71, "to listen, 127.0.0.2: a port is a number from 1 to 65535")


def seen_by_all(command):
    """All addresses are listened at, up to eight, and of both families."""
    addresses = [f"127.0.0.{i}" for i in range(1, 9)]
    families = [(socket.AF_INET6, "::1"), (socket.AF_INET, "127.0.0.1")][not has_ipv6():]
    anywhere = ["0.0.0.0", "::"] if len(families) == 2 else ["0.0.0.0"]
    for group in (addresses, [address for _, address in families], ["localhost"], anywhere):
        words = [*command, "-p", str(port := free_port()), "--listen", ",".join(group)]
        with served(words, port):
            for address in group:
                with socket.create_connection((address, port), timeout=30) as connection:
                    say(connection, "mn\r\n", "MN\r\n")


def descriptors_had(command):
    """As many descriptors are asked for as -c needs and may be had. Where the threads get none, no server starts."""
    for limits, had, line in (("40:4000", 400, ""), ("1000:4000", 1000, ""), ("400:400", 400, ""),
                              ("40:90", 90, "segcache-server: -c 100: only 90 descriptors may be had\n")):
        words = ["prlimit", f"--nofile={limits}", *command, "-p", str(port := free_port()), "-c", "100", "-t", "1"]
        with served(words, port, stderr=subprocess.PIPE, text=True) as server:
            with connect(port) as connection:
                shown = Path(f"/proc/{stats_of(connection)['pid']}/limits").read_text()
            soft = int(re.search(r"Max open files\s+(\d+)", shown)[1])
            text = said_by(server)
        check(soft == had and text == line, f"--nofile={limits}: {soft} {text}")
    ends_with(["prlimit", "--nofile=12:12", *command], ["-p", "-1", "-t", "16", "-c", "1"], 1,
              lambda text: text == "segcache-server: -c 1: only 12 descriptors may be had\n"
              "segcache-server: a thread can't be had: Too many open files\n")
