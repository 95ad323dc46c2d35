"""Every command on tables of many shapes: sectors of several sizes, up to 10,000 entries, odd reserved bytes.

The tables are made from docs/FORMAT.md alone. Of their entries the first ones are used, in reverse order: each has one
sector, and one is free behind it. Ten sectors are free behind the last one.
"""
import os
import subprocess
from typing import NamedTuple

from given import DISK, ONE, SAME, THREE, TWO
from harness import table


class Shape(NamedTuple):
    """A table on an image: the bytes of a sector, the entries, those of them that are used, the reserved bytes of the
    headers as a number, the first and the last usable sector, and the first of the ten."""

    sector: int
    entries: int
    used: int
    reserved: int
    first: int
    last: int
    gap: int

    def size(self):
        """The length of the image."""
        return (self.last + self.first) * self.sector

    def place(self, number):
        """The sector of a used entry."""
        return self.first + 2 * (self.used - number)

    def image(self):
        """The bytes of the image."""
        entries = {number: table.Entry(guid_in(ONE), guid_in(unique_of(number)), self.place(number), self.place(number),
                                       0, "a partition") for number in range(1, self.used + 1)}
        made = table.Table(guid_in(DISK), *table.bounds(self.size(), self.sector, self.entries), self.entries, entries)
        return table.laid(bytes(self.size()), table.copies_of(made, self.size(), self.sector, reserved=self.reserved))

    def shown(self):
        """The lines that `show` prints. The entries stand at every second sector, so two is the greatest alignment."""
        lines = [f"sector {self.sector} form primary disk {DISK} usable {self.first}..{self.last} entries "
                 f"{self.entries} align {2 - self.first % 2}"]
        for number in range(1, self.used + 1):
            place = self.place(number)
            lines.append(f"{number} {ONE} {unique_of(number)} {place}..{place} 0000000000000000 a partition")
        return "\n".join(lines)

    def free(self):
        """The lines that `free 1` prints: a sector behind each used one, and ten at the end."""
        return "\n".join([*(f"{place} 1" for place in range(self.first + 1, self.gap, 2)), f"{self.gap} 10"])


def guid_in(digits):
    """The text of a GUID that has these digits."""
    return table.guid_text(bytes.fromhex(digits))


def unique_of(number):
    """The digits of the GUID of an entry: its number, the least byte first."""
    return number.to_bytes(16, "little").hex()


def shape_of(sector, entries, used, reserved=0):
    """The shape with these counts."""
    first = 2 - (-128 * entries // sector)
    gap = first + 2 * used - 1
    return Shape(sector, entries, used, reserved, first, gap + 9, gap)


def try_shapes(tally, program):
    """The commands on each shape, and new tables with sectors of each size."""
    for sector in 512, 520, 1024, 2048, 3000, 4096:
        try_shape(program, shape_of(sector, 128, 126))
        try_shape(program, shape_of(sector, 1024, 1022))
        try_shape(program, shape_of(sector, 10000, 9998 if sector == 512 else 1100))
    try_shape(program, shape_of(512, 128, 126, 0x00000001))
    try_shape(program, shape_of(520, 1024, 100, 0x00800200))
    try_shape(program, shape_of(4096, 128, 100, 0xffffffff))
    try_each_size(tally, program)


def try_shape(program, shape):
    """Tries the commands on a table of this shape. Where the size is looked for, they are tried with `auto` too."""
    program.write("shape.img", shape.image())
    program.copy("shape.img", "again.img")
    try_shape_with(program, shape, "shape.img", str(shape.sector))
    if shape.sector in (512, 4096):
        try_shape_with(program, shape, "again.img", "auto")
    for name in "shape.img", "again.img":
        os.remove(program.file(name))


def try_shape_with(program, shape, image, size):
    """The same on this image, where the size is said so to the commands that may look for it."""
    sector = str(shape.sector)
    program.says(0, shape.shown(), image, size, "show")
    program.says(0, shape.free(), image, size, "free", "1")
    try_additions(program, shape, image, size)
    program.says(0, "ok", image, size, "sort")
    program.says(0, "ok", image, size, "grow")
    program.says(0, "ok", image, sector, "mbr", "plain")
    program.says(0, "ok", image, sector, "mbr", "bootable")
    program.says(0, SAME, image, sector, "check")
    try_new(program, shape, image, size)


def try_additions(program, shape, image, size):
    """Entries in the ten sectors: at the first place, at the last, and where it fits best."""
    one, other, gap, last = str(shape.used + 1), str(shape.used + 2), shape.gap, shape.last

    def add(number, unique, count, place, name, wanted):
        program.says(0, f"{number} {wanted}", image, size, "add", number, ONE, unique, count, place, "1", name)
    add(one, TWO, "2", "first", "Bar", f"{gap}..{gap + 1}")
    add(other, THREE, "2", "last", "Baz", f"{last - 1}..{last}")
    program.says(0, "ok", image, size, "remove", one)
    add(one, TWO, "3", "best", "Bar", f"{gap}..{gap + 2}")


def try_new(program, shape, image, size):
    """A new table over the one that is there."""
    array, sectors = -(-16384 // shape.sector), os.path.getsize(program.file(image)) // shape.sector
    program.says(0, "ok", image, str(shape.sector), "new", DISK)
    program.says(0, SAME, image, str(shape.sector), "check")
    program.says(0, f"sector {shape.sector} form primary disk {DISK} usable {array + 2}..{sectors - array - 2} "
                 "entries 128 align 2048", image, size, "show")


def try_each_size(tally, program):
    """A new table with sectors of each size from 512 to 4096 bytes."""
    program.make_zeros("each.img", 102400)
    sizes = range(512, 4097)
    with open(program.file("each.out"), "wb") as out:
        for size in sizes:
            for words in ["new", DISK], ["check"]:
                subprocess.run([program.path, "each.img", str(size), *words], cwd=program.folder, check=False,
                               stdin=subprocess.DEVNULL, stdout=out, stderr=subprocess.STDOUT)
    tally.equals("new and check with sectors of each size", f"ok\n{SAME}\n" * len(sizes), program.text("each.out"))
