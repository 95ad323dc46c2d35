"""The twelve states that the readers are tried on: an image as a stop in an `add` may leave it.

An `add` writes the backup copy, syncs, and then writes the primary copy. A stop leaves what is not yet
synced old, new, garbage or torn, each part of a copy by itself. What was read is a tuple of places, each a
first and a last sector, in order.
"""

import random
import subprocess
from dataclasses import dataclass

SECTOR = 512
IMAGE_BYTES = 16 << 20
HEADER_BYTES = SECTOR
ENTRIES_BYTES = 128 * 128
TYPE = "a2a0d0ebe5b9334487c068b6b72699c7"

# The places of the two partitions, of which the `add` lays the second, and the two tables.
FIRST, SECOND = (2048, 10239), (10240, 18431)
OLD, NEW = (FIRST,), (FIRST, SECOND)

# Where each part of a table stands, as its first byte and its length, in the order of a Stop's parts.
PARTS = (
    (IMAGE_BYTES - HEADER_BYTES, HEADER_BYTES),
    (IMAGE_BYTES - HEADER_BYTES - ENTRIES_BYTES, ENTRIES_BYTES),
    (SECTOR, HEADER_BYTES),
    (2 * SECTOR, ENTRIES_BYTES),
)


@dataclass(frozen=True)
class Stop:
    """What a stop left: of the backup copy and of the primary one, the header and the entries.

    Each is "old", "new", "garbage", "zero", or "torn": its first sector new, its second one garbage.
    """

    name: str
    backup: tuple
    primary: tuple

    def has_good_primary(self):
        """Whether the primary copy is whole, the old one or the new one."""
        return self.primary in (("old", "old"), ("new", "new"))

    def table(self):
        """The table by the rules of the format: the primary copy's where it is whole, else the backup's."""
        whole = self.primary if self.has_good_primary() else self.backup
        return OLD if whole == ("old", "old") else NEW


STOPS = (
    Stop("before the add", ("old", "old"), ("old", "old")),
    Stop("backup header garbage", ("garbage", "old"), ("old", "old")),
    Stop("backup entries torn", ("old", "torn"), ("old", "old")),
    Stop("backup copy garbage", ("garbage", "garbage"), ("old", "old")),
    Stop("backup copy new", ("new", "new"), ("old", "old")),
    Stop("primary header garbage", ("new", "new"), ("garbage", "old")),
    Stop("primary header zero", ("new", "new"), ("zero", "old")),
    Stop("primary header new, entries old", ("new", "new"), ("new", "old")),
    Stop("primary header old, entries new", ("new", "new"), ("old", "new")),
    Stop("primary entries torn", ("new", "new"), ("new", "torn")),
    Stop("primary copy garbage", ("new", "new"), ("garbage", "garbage")),
    Stop("after the add", ("new", "new"), ("new", "new")),
)


def part_left(old, new, fate, chance):
    """The bytes of a part after the stop, of those before the `add` and those after it."""
    if fate == "torn":
        return new[:SECTOR] + chance.randbytes(SECTOR) + old[2 * SECTOR:]
    return {"old": old, "new": new, "zero": bytes(len(old)), "garbage": chance.randbytes(len(old))}[fate]


def image_left(stop, old, new):
    """The bytes of an image after the stop, of those before the `add` and those after it."""
    image = bytearray(old)
    chance = random.Random(7)
    for (first, length), fate in zip(PARTS, stop.backup + stop.primary):
        part = slice(first, first + length)
        image[part] = part_left(old[part], new[part], fate, chance)
    return bytes(image)


def run(program, path, *words):
    """Runs a command of gptimg, which has to be done."""
    subprocess.run([program, path, str(SECTOR), *words], capture_output=True, check=True)


def add(program, path, number, place):
    """Adds a partition at this place."""
    first, last = place
    unique = f"{number:02x}" * 16
    run(program, path, "add", str(number), TYPE, unique, str(last - first + 1), "first", str(first), "data")


def make_images(program, folder):
    """Makes an image for each state, and gives their paths in the order of the states."""
    path = f"{folder}/disk.img"
    with open(path, "wb") as file:
        file.truncate(IMAGE_BYTES)
    run(program, path, "new", "11" * 16)
    run(program, path, "mbr", "plain")
    add(program, path, 1, FIRST)
    old = read(path)
    add(program, path, 2, SECOND)
    new = read(path)
    left = [image_left(stop, old, new) for stop in STOPS]
    return [write(f"{folder}/{number:02}.img", image) for number, image in enumerate(left)]


def read(path):
    """The bytes of a file."""
    with open(path, "rb") as file:
        return file.read()


def write(path, content):
    """Writes a file, and gives its path."""
    with open(path, "wb") as file:
        file.write(content)
    return path
