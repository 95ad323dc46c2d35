#!/usr/bin/env python3
"""Tells who can read the table of a disk after a stop in the middle of an `add`.

usage: trials/readers.py [--program GPTIMG]

Twelve images are made as a stop may leave them (readers_stops.py), and each is read by gptimg and by those of
these that are installed: partitioning programs and libraries, Linux with and without the option `gpt` on its
command line, the boot loaders GRUB and U-Boot, and the UEFI firmware EDK2 (readers_programs.py,
readers_machines.py). Each reader has images of its own. It is told whether it sees the partitions of the
table by the rules of the format, and how many images it repaired, of those that it changed.

Two things have to hold: gptimg reads each image, and Linux sees the partitions of each once the script
repair.sh of docs/GUIDE.md ran in its first file system. The last line is 'N passed, M failed'.
"""

import argparse
import os
import re
import shutil
import subprocess
import sys
import tempfile
from dataclasses import dataclass

sys.path.insert(1, os.path.join(os.path.dirname(os.path.abspath(__file__)), "..", "tests"))
from harness.tally import Tally  # noqa: E402
import guest  # noqa: E402
from readers_machines import Linux, machines  # noqa: E402
from readers_programs import programs  # noqa: E402
from readers_stops import OLD, SECTOR, STOPS, make_images, read  # noqa: E402

TOP = os.path.dirname(os.path.dirname(os.path.abspath(__file__)))

# The readers that have to read each image, by their names.
JUDGED = ("gptimg", "Linux after repair.sh")


@dataclass(frozen=True)
class Row:
    """What a reader saw of each image, how many it changed, and how many of these it repaired."""

    name: str
    seen: list
    changed: int
    repaired: int

    def right(self):
        """For each state, whether the partitions seen are those of the table."""
        return [places == stop.table() for places, stop in zip(self.seen, STOPS)]

    def words(self):
        """The words of its row: the images with a good primary copy, each other one, the repaired ones."""
        good = [right for right, stop in zip(self.right(), STOPS) if stop.has_good_primary()]
        broken = [
            word_for(places, stop) for places, stop in zip(self.seen, STOPS) if not stop.has_good_primary()
        ]
        return [self.name, f"{sum(good)} of {len(good)}", *broken, f"{self.repaired} of {self.changed}"]


def word_for(places, stop):
    """A word for what was seen of the image that a stop left."""
    if places == stop.table():
        return "all"
    return {(): "none", OLD: "old ones"}.get(places, "wrong ones")


def head():
    """The words over the rows."""
    broken = [stop.name.removeprefix("primary ") for stop in STOPS if not stop.has_good_primary()]
    return ["", "primary good", *broken, "repaired"]


def lines_of(rows):
    """The lines of the table, with columns as wide as their words."""
    table = [head(), *(row.words() for row in rows)]
    widths = [max(len(words[column]) for words in table) for column in range(len(table[0]))]
    for number, words in enumerate(table):
        yield "| " + " | ".join(word.ljust(width) for word, width in zip(words, widths)) + " |"
        if number == 0:
            yield "|" + "|".join("-" * (width + 2) for width in widths) + "|"


def file_of_guide(name):
    """The file of this name in docs/GUIDE.md: the block that begins with `# NAME`."""
    with open(f"{TOP}/docs/GUIDE.md", encoding="utf-8") as guide:
        return re.search(rf"^```bash\n# {re.escape(name)}\n(.*?)^```$", guide.read(), re.M | re.S).group(1)


def is_repaired(program, image, stop):
    """Whether both copies of an image are good, and are the table that this stop left."""
    words = [program, image, str(SECTOR), "check"]
    checked = subprocess.run(words, capture_output=True, check=False)
    return checked.returncode == 0 and programs(program)[0].read(image) == stop.table()


def row_of(reader, program, images):
    """Has a reader read copies of the images."""
    with tempfile.TemporaryDirectory() as folder:
        own = [shutil.copy(image, folder) for image in images]
        seen = reader.read_all(own, folder)
        changed = [it for it in zip(own, images, STOPS) if read(it[0]) != read(it[1])]
        repaired = sum(is_repaired(program, image, stop) for image, _, stop in changed)
    return Row(reader.name, seen, len(changed), repaired)


def version_of(reader):
    """What is read with: the kernel, or the Debian package and its version, as far as that is known."""
    if isinstance(reader, Linux):
        return guest.version_of(guest.newest_kernel())
    if not reader.package or not shutil.which("dpkg-query"):
        return "this one"
    words = ["dpkg-query", "-W", "-f", "${Version}", reader.package]
    told = subprocess.run(words, capture_output=True, text=True, check=False).stdout
    return f"{reader.package} {told or 'of unknown version'}"


def rows_of(readers, program, images):
    """The row of each reader that is there. Prints a line for each."""
    for reader in readers:
        missing = reader.missing()
        if missing:
            print(f"left out: {reader.name}, as there is no {missing}", flush=True)
            continue
        print(f"reads: {reader.name}, {version_of(reader)}", flush=True)
        yield row_of(reader, program, images)


def judge(tally, rows):
    """Counts whether those that have to read each image read it right."""
    for row in rows:
        for places, stop in zip(row.seen, STOPS) if row.name in JUDGED else []:
            tally.equals(f"what {row.name} reads, {stop.name}", stop.table(), places)


def main():
    """Reads the words, and has all readers read."""
    words = argparse.ArgumentParser(description=__doc__.split("\n", maxsplit=1)[0])
    words.add_argument("--program", default=f"{TOP}/gptimg")
    program = os.path.realpath(words.parse_args().program)
    readers = programs(program) + machines(program, file_of_guide("repair.sh"))
    with tempfile.TemporaryDirectory() as folder:
        rows = list(rows_of(readers, program, make_images(program, folder)))
    print(*lines_of(rows), sep="\n")
    tally = Tally()
    judge(tally, rows)
    return tally.end()


if __name__ == "__main__":
    sys.exit(main())
