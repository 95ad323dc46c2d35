"""Runs a program from a start, and judges each state that a stop in the middle of it may leave.

The tables on the way are the one at the start, and the one after each command of the program. A
state loses the table where none of them is read from it: nothing is read, or some other table, which is told
as between.

It is judged twice. By the format: the copy in sector 1 is taken where it is right, else the one in
the last sector. And by the program itself, which lists the state's partitions: whether it looks for
copies elsewhere, or wants more than a right copy, counts there.
"""
import os

from harness import recording, table
from harness.states import SECTOR, Enumeration, Image, Write, listing

DISK = table.guid_text(bytes([0xD1] * 16))
LINUX = "0fc63daf-8483-4772-8e79-3d69d8477de4"
SIZE = 16 << 20
GROWN = 24 << 20
PARTITIONS = [(2048, 10239, "part1"), (10240, 26623, "part2")]
EDGE = 128


def image_of(partitions, size=SIZE):
    """The bytes of an image with a table. A partition is its first sector, its last sector and its name."""
    entries = {number: table.Entry(LINUX, table.guid_text(bytes([number] * 16)), first, last, 0, name)
               for number, (first, last, name) in enumerate(partitions, 1)}
    found = table.Table(DISK, *table.bounds(size), 128, entries)
    return table.image_of(found, size)


def starts():
    """The starts: name -> the bytes of the image."""
    good = image_of(PARTITIONS)
    nothing = bytes(SECTOR)
    return {
        "both good": good,
        "primary header zeroed": table.laid(good, [(SECTOR, nothing)]),
        "primary entries damaged": table.laid(good, [(2 * SECTOR, bytes([good[1024] ^ 255]))]),
        "backup header zeroed": table.laid(good, [(SIZE - SECTOR, nothing)]),
        "after growth": good + bytes(GROWN - SIZE),
    }


class Trial:
    """One program from one start."""

    def __init__(self, program, start, base, folder):
        self.program = program
        self.start = start
        self.base = base
        self.path = os.path.join(folder, "disk.img")
        self.log = os.path.join(folder, "log")
        self.events = []
        self.tables = [Image(base).table()]

    def result(self, mixtures):
        """What came of it, as a dictionary."""
        result = {"program": self.program.name, "start": self.start}
        try:
            fault = self.record()
        except recording.Unseen as unseen:
            fault = "not judged: it uses %s" % unseen
        if fault:
            return dict(result, fault=fault)
        result.update(
            writes=sum(isinstance(event, Write) for event in self.events),
            syncs=sum(not isinstance(event, Write) for event in self.events),
            calls=" ".join("%d+%d" % (event.at, len(event.data)) if isinstance(event, Write) else
                           event for event in self.events))
        result.update(self.judge(mixtures))
        return result

    def record(self):
        """Runs the program's commands. Tells why there is nothing to judge, or nothing."""
        with open(self.path, "wb") as file:
            file.write(self.base)
        for command in self.program.commands(self.start, self.path):
            status, printed, events = recording.record(
                command, self.program.words, self.path, self.log)
            self.events += events
            if status:
                wrote = any(isinstance(event, Write) for event in self.events)
                told = " ".join(printed.replace(self.path, "IMAGE").split())
                return "%s: %s" % ("failed" if wrote else "refused", told[:200])
            with open(self.path, "rb") as file:
                final = file.read()
            self.tables.append(Image(final).table())
        return self.fault_of(final)

    def fault_of(self, final):
        """Whether the record misses something, or the program did not do what it is to do."""
        image = Image(self.base)
        for event in self.events:
            if isinstance(event, Write):
                image.put(event.at, event.data)
        if Image(final, image.changed).key() or len(final) != len(self.base):
            return "not judged: the record does not give the image that it left"
        if None in self.tables or len(listing(self.tables[-1])) != self.program.leaves:
            return "not judged: there are not the new partitions"
        return None

    def judge(self, mixtures):
        """Counts the states and moments that lose the table."""
        found = self.states(mixtures, True)
        lost = {key for key, (_, image, _) in found.items() if self.is_lost(image)}
        unread = {key for key, (_, image, _) in found.items() if self.is_unread(image)}
        mild = self.states(mixtures, False)
        return {
            "states": len(found), "lost": len(lost), "lost_by_own_reading": len(unread),
            "between": sum(found[key][1].table() is not None for key in lost),
            "moments": len(self.events) + 1,
            "moments_that_lose": len(set().union(*(found[key][2] for key in lost))),
            "states_without_garbage": len(mild),
            "lost_without_garbage": sum(self.is_lost(image) for _, image, _ in mild.values()),
            "examples": [found[key][0] for key in found if key in lost][:3],
        }

    def states(self, mixtures, garbage):
        """The states that differ: key -> what was going on, the image, and its moments."""
        found = {}
        for moment, text, image in Enumeration(self.base, self.events, mixtures, garbage).states():
            found.setdefault(image.key(), (text, image, set()))[2].add(moment)
        return found

    def is_lost(self, image):
        """Whether the format's reading gives none of the tables on the way."""
        return image.table() not in self.tables

    def is_unread(self, image):
        """Whether the program itself lists none of them."""
        self.lay(image)
        listed = self.program.read(self.path)
        return not any(agrees(listed, listing(found)) for found in self.tables)

    def lay(self, image):
        """Writes the state to the file. Only what lies near an end, or was written, can differ."""
        count = image.sectors()
        numbers = {*range(EDGE), *range(count - EDGE, count), *self.touched()}
        with open(self.path, "r+b") as file:
            for number in sorted(numbers):
                file.seek(number * SECTOR)
                file.write(image.sector(number))

    def touched(self):
        """The sectors that are written in this trial."""
        for event in self.events:
            if isinstance(event, Write):
                first = event.at // SECTOR
                yield from range(first, first + len(event.parts))


def agrees(listed, wanted):
    """Whether a program's listing is that of a table. A name that it does not tell may be any."""
    if listed is None or listed.keys() != wanted.keys():
        return False
    return all(listed[n][:2] == wanted[n][:2] and listed[n][2] in (None, wanted[n][2])
               for n in wanted)
