# SPDX-License-Identifier: MIT
"""The crates of the repository, by the lines of crates.txt, and the words by which the kit's compiler is called."""

import importlib.machinery
import importlib.util
import subprocess
from pathlib import Path
from typing import NamedTuple

ROOT = Path(__file__).resolve().parent.parent


class Crate(NamedTuple):
    kinds: list  # as `staticlib`
    uses: list  # the libraries that it uses, of the repository and of the kit


def read_crates():
    """The crates by their names, lowest first."""
    lines = [line.split("#")[0] for line in (ROOT / "crates.txt").read_text().splitlines()]
    pairs = [line.split(":") for line in lines if line.strip()]
    return {head.split()[0]: Crate(head.split()[1:], uses.split()) for head, uses in pairs}


def below(name, crates):
    """The crates of the repository below one, each after those that it uses."""
    found = []
    for other in crates[name].uses:
        if other in crates:
            found += [it for it in [*below(other, crates), other] if it not in found]
    return found


def kit_folder():
    said = subprocess.run(["rt", "doc"], check=True, capture_output=True, text=True).stdout
    return Path(said.strip()).parent


def call_of(kit, verb, name):
    """The first words of a call of the compiler, for a crate in the folder at hand."""
    yield from [kit / "bin/rattle", verb, "--crate-name", name, "--links", f"{name}="]
    yield from ["--antt-project", kit / "rattle/logic/antt-project.json", "--logic-built", kit / "logic_built"]
    yield from ["-L", f"dependency={kit / 'rlibs'}"]


def load(script):
    """A script, which has no ending, as a module."""
    loader = importlib.machinery.SourceFileLoader(Path(script).name, str(ROOT / script))
    module = importlib.util.module_from_spec(importlib.util.spec_from_loader(loader.name, loader))
    loader.exec_module(module)
    return module
