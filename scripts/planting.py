"""Runs `rt plant` in the folder of a crate, with more wrong bodies than it makes by itself.

For a function that gives a `Result` there are errors that it does not plant; for one that has a disk, calls of the
disk before and after the real call; and the bodies of trials/plants/CRATE.bodies, a line `CALL: BODY` for each. A
body that calls the disk once too often shows something of the clauses on the disk alone (ON_DISK), and scripts/plants
counts no others: what else the tactics cannot prove of it may hold all the same.
"""

import importlib.machinery
import os
import re
import subprocess
import sys
import types

sys.dont_write_bytecode = True
ON_DISK = {"reads", "counts", "failure", "once", "wrote", "outside", "untouched"}
A_WRITE = "if let Ok(size) = {disk}.seek_end() {{ if size > 0 {{ if {disk}.seek_start(0).is_ok() {{ let _ = {disk}.write_all(&[0]); }} }} }} {call}"
OF_DISK = ("let _ = {disk}.sync(); {call}", "let _ = {disk}.seek_end(); {call}", "let x = {call}; let _ = {disk}.sync(); x", A_WRITE)
ERRORS = ("OutOfMemory", "NoSpaceLeft", "Io(std::io::Error::from(std::io::ErrorKind::Other))")


def calls_the_disk(body):
    """Whether the body calls the disk once too often."""
    return bool(re.search(r"let _ = \w+\.(sync|seek_end)\(\)|\.write_all\(&\[0\]\)", body))


def kit():
    """The planter of the toolchain, as a module."""
    page = subprocess.run(["rt", "doc"], stdout=subprocess.PIPE, text=True, check=True).stdout.split()[0]
    found = types.ModuleType("planter")
    found.__file__ = os.path.join(os.path.dirname(page), "bin", "rt-plant")
    importlib.machinery.SourceFileLoader("planter", found.__file__).exec_module(found)
    return found


def by_hand(path):
    """The bodies that the file of a crate has, by the name of the call."""
    found = {}
    if os.path.exists(path):
        with open(path, encoding="utf-8") as file:
            for line in file:
                name, _, body = line.rstrip("\n").partition(": ")
                if body and not line.startswith("#"):
                    found.setdefault(name, []).append(body)
    return found


def more_bodies(f, gives_error, error):
    """The bodies that are tried beside those of the toolchain: other errors, and the disk called once too often."""
    call, disks = f.call(), [name for name, ty in f.params if ty == ["&", "mut", "D"]]
    found = [f"Err({error}::{ERRORS[0]})"] if gives_error else []
    found += [f"match {call} {{ Ok(x) => Ok(x), Err(_) => Err({error}::{it}) }}" for it in ERRORS if gives_error]
    return found + [text.format(disk=disk, call=call) for disk in disks for text in OF_DISK]


def main(crate, *words):
    planter = kit()
    body_of, first = planter.bodies.Body, planter.bodies.Bodies
    own = by_hand(f"../../trials/plants/{crate}.bodies")
    error = {"gptman_disk": "crate::error::Error", "gptman": "crate::Error"}.get(crate, "gptman::Error")

    class Bodies(first):
        """The toolchain's bodies and more."""

        def by_hand(self):
            return [body_of(text) for text in own.get(self.f.shown.split(" ", 1)[1], [])]

        def over_the_real_one(self, fails):
            name, _, inside = planter.bodies.named(self.resolved(self.f.ret)) if self.f.ret else ("", "", [])
            gives_error = name == "Result" and inside[1:] == [["Error"]]
            return super().over_the_real_one(fails) + [body_of(text) for text in more_bodies(self.f, gives_error, error)] + self.by_hand()

        def giving_up(self):
            return super().giving_up() + (self.by_hand() if self.f.in_trait else [])

    class Source(planter.bodies.Source):
        """The toolchain's reader of sources, which takes a doc comment for the name of a variant."""

        def tokens(self, file):
            rows, data = super().tokens(file)
            return [row for row in rows if not (row[3] == "Literal" and row[4].startswith(("///", "//!")))], data

    planter.bodies.Bodies, planter.bodies.Source = Bodies, Source
    return planter.main("--all", "--max", "20000", "--minutes", "240", *words)


if __name__ == "__main__":
    sys.exit(main(*sys.argv[1:]))
