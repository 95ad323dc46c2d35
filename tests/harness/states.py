"""The states that a stop may leave.

A disk holds what was synced. Each write since then may be on it, or not, or in part: each of its
sectors is old, new or garbage by itself, and the writes may have come to the disk in any order.

Not every mixture is tried, as there are too many. At each moment these are:

- all writes not yet synced old, all new, all garbage;
- one of them garbage, or torn, or the other way, where all others are old, and where all are new.
  A torn write has 1, half, or all but one of its sectors new, from its begin or from its end,
  with or without a sector of garbage at the edge; or each sector by chance;
- mixtures of all writes by chance, as many as asked for.
"""
import random

from harness import table

SECTOR = 512
OLD, NEW, GARBAGE = "o", "n", "g"
GARBAGE_SECTOR = bytes([7]) * SECTOR


class Image:
    """The bytes of an image, with sectors that were changed."""

    def __init__(self, base, changed=None):
        self.base = base
        self.size = len(base)
        self.changed = dict(changed or {})

    def copy(self):
        """An image of its own with the same bytes."""
        return Image(self.base, self.changed)

    def sector(self, number):
        """The 512 bytes of a sector."""
        if number in self.changed:
            return self.changed[number]
        return self.base[number * SECTOR:(number + 1) * SECTOR]

    def read(self, at, count):
        """These bytes, fewer where the image ends before."""
        first, begin = divmod(at, SECTOR)
        last = min(-(-(at + count) // SECTOR), -(-self.size // SECTOR))
        return b"".join(self.sector(number) for number in range(first, last))[begin:begin + count]

    def put(self, at, data):
        """Writes bytes from byte `at` on."""
        number = at // SECTOR
        for part in parts_of(at, data):
            begin = at % SECTOR if number == at // SECTOR else 0
            old = self.sector(number)
            self.changed[number] = old[:begin] + part + old[begin + len(part):]
            number += 1

    def sectors(self):
        """How many whole sectors there are."""
        return self.size // SECTOR

    def key(self):
        """What is the same of two images exactly where their bytes are."""
        return frozenset((n, b) for n, b in self.changed.items()
                         if b != self.base[n * SECTOR:(n + 1) * SECTOR])

    def table(self):
        """The table by the rules of the format: that of the copy in sector 1, or where it has a fault that of the copy
        in the last sector. It is the GUID of the disk and the bytes of the entries, so it is the same in both
        copies, and where it was only fitted to another length."""
        found = table.copy_at(self, SECTOR, 1) or table.copy_at(self, SECTOR, self.sectors() - 1)
        return found and (found.guid, found.array)


def parts_of(at, data):
    """The bytes of a write, cut where a sector ends."""
    parts = []
    while data:
        room = SECTOR - at % SECTOR
        parts.append(data[:room])
        at, data = at + room, data[room:]
    return parts


def listing(found):
    """The used partitions of a table that an image has: number -> first sector, last sector, name."""
    return {number: (entry.first, entry.last, entry.name) for number, entry in table.entries_in(found[1]).items()}


class Write:
    """Bytes that were written, from byte `at` on."""

    def __init__(self, at, data):
        self.at = at
        self.data = data
        self.parts = parts_of(at, data)

    def lay(self, image, fates):
        """Writes each sector's part as its fate says. Garbage spoils the whole sector."""
        at = self.at
        for part, fate in zip(self.parts, fates):
            if fate == NEW:
                image.put(at, part)
            elif fate == GARBAGE:
                image.put(at // SECTOR * SECTOR, GARBAGE_SECTOR)
            at += len(part)


class Enumeration:
    """The states of a run, moment by moment. The choice by chance is the same each time."""

    def __init__(self, base, events, mixtures=40, garbage=True, seed=1):
        self.synced = Image(base)
        self.events = events
        self.mixtures = mixtures
        self.garbage = garbage
        self.chance = random.Random(seed)
        self.pending = []

    def states(self):
        """Gives each state as the number of its moment, what was going on, and the image."""
        yield from self.moment(0, "before the first call")
        for number, event in enumerate(self.events, 1):
            if isinstance(event, Write):
                self.pending.append(event)
                text = "in or after the write of %d bytes at %d" % (len(event.data), event.at)
            else:
                self.sync()
                text = "after " + event
            yield from self.moment(number, text)

    def sync(self):
        """All that was written is on the disk."""
        for write in self.pending:
            write.lay(self.synced, NEW * len(write.parts))
        self.pending.clear()

    def moment(self, number, text):
        """The states of one moment."""
        for fates in self.all_fates():
            image = self.synced.copy()
            for write, own in zip(self.pending, fates):
                write.lay(image, own)
            yield number, "%s: %s" % (text, " ".join(map(short, fates)) or "all synced"), image

    def all_fates(self):
        """The fates that are tried now: for each pending write a letter for each of its sectors."""
        sizes = [len(write.parts) for write in self.pending]
        letters = OLD + NEW + GARBAGE if self.garbage else OLD + NEW
        if not sizes:
            yield []
            return
        for letter in letters:
            yield [letter * size for size in sizes]
        for index, size in enumerate(sizes):
            for rest in OLD, NEW:
                for own in self.others(size, letters, rest):
                    yield [own if i == index else rest * s for i, s in enumerate(sizes)]
        for _ in range(self.mixtures if len(sizes) > 1 else min(self.mixtures, 4)):
            yield [self.by_chance(size, letters) for size in sizes]

    def others(self, size, letters, rest):
        """The fates of a write other than the one that the rest has."""
        return [letter * size for letter in letters if letter != rest] + self.torn(size)

    def by_chance(self, size, letters):
        """A write that is whole or torn by chance."""
        kind = self.chance.choice(letters + "t")
        if kind != "t":
            return kind * size
        return "".join(self.chance.choice(letters) for _ in range(size))

    def torn(self, size):
        """The ways in which a write of this many sectors is torn."""
        if size < 2:
            return []
        ways = []
        for count in sorted({1, size // 2, size - 1}):
            ways.append(NEW * count + OLD * (size - count))
            ways.append(OLD * count + NEW * (size - count))
            if self.garbage:
                ways.append(NEW * count + GARBAGE + OLD * (size - count - 1))
        ways.append("".join(self.chance.choice(OLD + NEW) for _ in range(size)))
        if self.garbage:
            ways.append("".join(self.chance.choice(OLD + NEW + GARBAGE) for _ in range(size)))
        return ways


def short(fates):
    """The fates of a write in few letters: one where all are the same."""
    return fates[0] if len(set(fates)) == 1 else fates
