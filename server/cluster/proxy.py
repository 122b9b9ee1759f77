# SPDX-License-Identifier: MIT
"""nutcracker before some servers, with the configuration of this folder."""

import re
import subprocess
import sys
import tempfile
from contextlib import contextmanager
from pathlib import Path

HERE = Path(__file__).resolve().parent
sys.path.insert(0, str(HERE.parent / "tests"))

from talk import free_port, wait_for  # noqa: E402


def configuration(ports, listen):
    """The configuration of the folder with these ports, of any number of servers. It has more patience, for machines
    that do other things meanwhile."""
    text = (HERE / "nutcracker.yml").read_text().replace("timeout: 400\n", "timeout: 20000\n")
    lines = [line for line in text.splitlines() if re.match(r"\s+- 127", line)]
    names = [line.split()[-1] for line in lines] + ["fourth"]
    head = text[:text.index(lines[0])].replace("127.0.0.1:22120", f"127.0.0.1:{listen}")
    return head + "".join(f"   - 127.0.0.1:{port}:1 {name}\n" for port, name in zip(ports, names))


@contextmanager
def proxy(ports):
    """A proxy before the servers at these ports: its port."""
    with tempfile.TemporaryDirectory() as folder:
        listen, file, log = free_port(), Path(folder, "nutcracker.yml"), Path(folder, "log")
        file.write_text(configuration(ports, listen))
        words = ["nutcracker", "-c", file, "-o", log, "-p", Path(folder, "pid"), "-s", free_port(), "-a", "127.0.0.1"]
        with subprocess.Popen([str(word) for word in words]) as process:
            try:
                wait_for(listen)
                yield listen
            finally:
                process.terminate()
