"""Has the prover check some functions of a crate, in a copy in which something is changed.

It takes the libraries below the crate as `rt ci`, `rt check` or `rt lib` left them."""

import contextlib
import os
import re
import shutil
import subprocess
import sys
import tempfile
from typing import NamedTuple

import contracts
import edits

NOTE = re.compile(r"note: \S+: .* \(`(\S+)`\)(.*)")
ERROR = re.compile(r"^\./proofs/(\S+)/\w+\.antt:\d+:\d+: error: `([\w+*.-]+)`(.*)", re.M)
GIVEN_UP = ("gave up", "Not every way was tried")
# What the prover says where a proof names what an edit took away, which shows nothing of the goal.
OF_NAMES = ("has no field", "is not in scope", "has no `", "was not admitted")
# The proof of a function whose body is left out: it is left open, so callers take its contract.
OPEN = """use Rattle.{crate}.proofs.{module}.Statement.{{statement}}

pub {name}_spec : {{M : Type 1}} → statement M
{name}_spec 𝓤 𝓛 𝓜 𝓡 w = ?
"""
OF_A_PROOF = ("Answers.antt", "Invariants.antt", "Proof.antt")
WAITS = re.compile(r"^note: `search` has not tried the goals of `(\S+)`, which wait", re.M)


class Said(NamedTuple):
    """What the prover says of a function: the verdict, and whether it waits for that of another.

    The goals that are left are those that cannot be proved, and those at which the search gave up."""

    verdict: str
    refused: list
    given_up: list
    waits: bool

    def goals(self):
        """All goals that are left."""
        return self.refused + self.given_up

    def is_proved(self):
        """Whether the function is proved, given the contracts of those whose bodies are left out."""
        return self.verdict.startswith(("proved", "no holes", "depends on a hole"))


def commands():
    """The words that check each crate, by its name."""
    tool = shutil.which("rt")
    if tool is None:
        sys.exit("there is no toolchain: rt is not on PATH")
    sys.path.insert(1, os.path.dirname(os.path.realpath(tool)))
    import rtlib

    crates = rtlib.crates_below(os.path.abspath("crates"))
    return {crate.name: [*rtlib.guarded(), rtlib.RATTLE, "check", *crate.words(["--jobs", "1"], keeps=False)] for crate in crates}


class Copy:
    """A copy of a crate, which keeps what the prover checked of it."""

    def __init__(self, crate, command):
        self.crate, self.command, self.folder = crate, command, tempfile.mkdtemp()
        os.mkdir(f"{self.folder}/kept")
        self.restore()

    def restore(self):
        """Makes all files those of the crate again."""
        for part in ("src", "specs", "proofs"):
            shutil.rmtree(f"{self.folder}/{part}", ignore_errors=True)
            if os.path.isdir(f"crates/{self.crate}/{part}"):
                shutil.copytree(f"crates/{self.crate}/{part}", f"{self.folder}/{part}")

    def check(self, paths):
        """What the prover says of each function that these edits change, and all that it prints.

        As a function is proved by the contracts of those that it calls, all other bodies are left out."""
        self.restore()
        for path in paths:
            why = edits.put(self.folder, edits.changes(path))
            if why:
                return {}, f"{path}: {why}"
        functions = {name for path in paths for name in edits.functions_of(self.crate, path)}
        self.leave_out(functions)
        return self.run(functions, "--allow-holes")

    def leave_out(self, functions):
        """Leaves out the bodies of all functions but these, and leaves their proofs open."""
        homes = contracts.homes_of(self.crate)
        for file in contracts.sources(self.crate):
            with open(f"{self.folder}/{file}", encoding="utf-8") as source:
                text, paths = contracts.without_bodies(source.read(), contracts.module_of(file), functions, homes)
            with open(f"{self.folder}/{file}", "w", encoding="utf-8") as source:
                source.write(text)
            for path in paths:
                self.leave_open(path)

    def leave_open(self, path):
        """Leaves the proof of a function open."""
        folder = f"{self.folder}/proofs/{path.replace('::', '/')}"
        os.makedirs(folder, exist_ok=True)
        for name in OF_A_PROOF:
            with contextlib.suppress(FileNotFoundError):
                os.remove(f"{folder}/{name}")
        with open(f"{folder}/Proof.antt", "w", encoding="utf-8") as proof:
            proof.write(OPEN.format(crate=self.crate, module=path.replace("::", "."), name=path.rpartition("::")[2]))

    def run(self, functions, *words):
        """What the prover says of these functions and those that they call, and all that it prints."""
        named = [word for name in sorted(functions) for word in ("--only", name)]
        run = subprocess.run(
            [*self.command, "--incremental", "kept", *words, *named],
            cwd=self.folder,
            stdin=subprocess.DEVNULL,
            stdout=subprocess.PIPE,
            stderr=subprocess.STDOUT,
            text=True,
            errors="replace",
            check=False,
        )
        return said_in(run.stdout), run.stdout

    def remove(self):
        """Removes the copy."""
        shutil.rmtree(self.folder, ignore_errors=True)


def said_in(text):
    """What the prover says of each function, by its symbol."""
    at_proofs, waiting, found, goals = {}, set(WAITS.findall(text)), {}, []
    for folder, goal, how in ERROR.findall(text):
        if not any(words in how for words in OF_NAMES):
            at_proofs.setdefault(folder.replace("/", "::"), []).append((goal, how))
    for line in text.splitlines():
        goals += NOTE.findall(line)
        if line.startswith("fn "):
            symbol, _, verdict = line[len("fn ") :].partition(": ")
            own = at_proofs.get(symbol.partition("::")[2], []) + goals
            refused, given_up = ([goal for goal, how in own if any(word in how for word in GIVEN_UP) == is_late] for is_late in (False, True))
            found[symbol] = Said(verdict, refused, given_up, symbol in waiting)
            goals = []
    return found


def of_function(said, function):
    """What is said of the function of this name: of that with the shortest symbol, if its end is that of others too."""
    symbols = [symbol for symbol in said if symbol.endswith(f"::{function}")]
    return said[min(symbols, key=len)] if symbols else None

