"""Damages random tables, and judges each command by what the damage left:
`python3 tests/gptedit/damaged.py GPTEDIT [SEED [IMAGES]]`, or a few images in the gate.

Each command has to find a copy that a reader of its own finds good. Without one no command but `salvage` is done, and
its layout makes the table again where a header with at most one wrong byte and all entries are left. That a refusal
leaves every byte is counted of each run (`runs.py`).
"""
import os
import random
import sys
import tempfile
import uuid

sys.path.insert(1, os.path.join(os.path.dirname(os.path.abspath(__file__)), ".."))
from harness import table  # noqa: E402
from harness.runs import set_environment  # noqa: E402
from harness.tally import Tally  # noqa: E402
from makers import EDITS, IMAGE, SIZE, WRITES, entry, make  # noqa: E402
from runs import Program  # noqa: E402

IMAGES = 60
READS = [["show", IMAGE], ["dump", IMAGE], ["free", IMAGE], ["check", IMAGE]]
CHANGES = [words for words in EDITS if words[0] not in ("resize", "sort")]


class Damaged:
    """An image with a table, the bytes of both copies, and the image once some of these are lost."""

    def __init__(self, program, random_):
        self.program, self.random = program, random_
        self.sector = random_.choice([512, 512, 4096])
        numbers = {1, *random_.sample(range(2, 57), random_.choice([0, 1, 4, 20]))}
        entries = {number: entry(2048 + at * 64, 2111 + at * 64, f"p{number}", str(uuid.UUID(int=number)))
                   for at, number in enumerate(sorted(numbers))}
        self.size = SIZE * self.sector // 512
        self.found = make(program, entries, self.size, self.sector, count=random_.choice([56, 128, 260]))
        self.pieces = table.copies_of(self.found, self.size, self.sector)
        self.whole = program.bytes_of(IMAGE)
        self.what = f"{self.sector}, {self.found.count}"
        for _ in range(random_.choice([1, 1, 2, 2, 3])):
            self.damage()
        self.bytes = program.bytes_of(IMAGE)

    def damage(self):
        """Makes some bytes of a header or of entries zeros, others, or one of them wrong in a bit."""
        at, data = self.random.choice(self.pieces)
        begin = at + self.random.randrange(len(data))
        length = min(self.random.choice([1, 1, 4, 16, len(data)]), at + len(data) - begin)
        kind = self.random.choice(["a bit", "zeros", "others"])
        raw = {"a bit": bytes([self.whole[begin] ^ 1 << self.random.randrange(8)]), "zeros": bytes(length),
               "others": self.random.randbytes(length)}[kind]
        self.program.put(IMAGE, begin, raw)
        self.what += f"; {kind} in {len(raw)} bytes from byte {begin}"

    def wrong(self, piece):
        """How many bytes of a header or of entries are wrong."""
        at, data = piece
        return sum(one != other for one, other in zip(data, self.bytes[at:at + len(data)]))

    def is_left(self):
        """Whether a header with at most one wrong byte and all entries are left."""
        primary, entries, others, backup = map(self.wrong, self.pieces)
        return min(primary, backup) < 2 and 0 in (entries, others)


def try_good(tally, program, damaged):
    """A good copy is left: commands show it, change it or name `repair`, which makes both copies of it."""
    found, what = damaged.found, damaged.what
    shown = program.json("show", IMAGE, "--json").get("partitiontable", {}).get("partitions", [])
    tally.equals(f"the partitions that are shown ({what})", [one.guid for one in found.entries.values()],
                 [one["uuid"].lower() for one in shown])
    both = table.read(program.file(IMAGE), damaged.sector)
    status, out, err = program.run("check", IMAGE)
    tally.equals(f"check ({what}): {out!r} {err!r}", 0 if both else 1, status)
    tally.holds(f"check names repair ({what}): {out!r}", both or f"gptedit repair {IMAGE}" in out)
    before = program.state(IMAGE)
    ended = program.run(*damaged.random.choice(CHANGES))
    tally.holds(f"a change is done, or names repair ({what}): {ended}", ended[0] == 0 and
                table.read(program.file(IMAGE), damaged.sector) or f"gptedit repair {IMAGE}" in ended[2])
    program.restore(IMAGE, before)
    ended = program.run("repair", IMAGE)
    tally.equals(f"the table after repair ({what}): {ended}", found, table.read(program.file(IMAGE), damaged.sector))


def try_none(tally, program, damaged):
    """No good copy is left: `salvage` prints what is, and all else is refused."""
    what = damaged.what
    for words in READS + WRITES:
        ended = program.run(*words)
        tally.equals(f"{words} without a good copy ({what}): {ended}", 3, ended[0])
    status, out, err = program.run("salvage", IMAGE)
    if not damaged.is_left():
        tally.holds(f"salvage ends ({what}): {err!r}", status in (0, 3))
        return
    tally.equals(f"salvage ({what}): {err!r}", 0, status)
    program.write("found.toml", out.encode())
    ended = program.run("apply", IMAGE, "found.toml", "--create", "--overwrite", "--sector", str(damaged.sector))
    tally.equals(f"the table that salvage found ({what}): {ended} {out!r}", damaged.found,
                 table.read(program.file(IMAGE), damaged.sector))


def play(tally, program, seed, images):
    """Judges so many images. Gives in how many a good copy, and in how many none, was left."""
    random_, good = random.Random(seed), 0
    for number in range(images):
        damaged = Damaged(program, random_)
        damaged.what = f"seed {seed}, image {number}: {damaged.what}"
        is_good = any(table.read_copies(program.file(IMAGE), damaged.sector))
        (try_good if is_good else try_none)(tally, program, damaged)
        good += is_good
    return good, images - good


def try_damaged(tally, program):
    """A few images."""
    good, none = play(tally, program, 1, IMAGES)
    return f"{good} images with a good copy, {none} without"


SUBJECTS = {"random damage": try_damaged}


def main():
    """Judges the images of a seed."""
    set_environment()
    seed, images = (list(map(int, sys.argv[2:4])) + [1, IMAGES][len(sys.argv) - 2:])[:2]
    tally = Tally()
    with tempfile.TemporaryDirectory() as folder:
        good, none = play(tally, Program(os.path.realpath(sys.argv[1]), folder, tally), seed, images)
    print(f"seed {seed}: {good} images with a good copy, {none} without")
    return tally.end()


if __name__ == "__main__":
    sys.exit(main())
