"""Reports whether a crash in any command of gptedit can lose the table: changes.py GPTEDIT [--mixtures N].

Each command that changes a table runs under strace, from every start of the other trial and from tables that
are not in the layout that gptedit writes. Of each state that a crash may leave (tests/harness/states.py) the table
is read by the format: it has to be the old table or the new one. A command that is refused may not write. The last
line is 'N passed, M failed'.
"""
import argparse
import os
import sys
import tempfile

sys.path.insert(1, os.path.join(os.path.dirname(os.path.abspath(__file__)), "..", "..", "tests"))
from harness import recording, table  # noqa: E402
from harness.states import SECTOR, Enumeration, Image, Write  # noqa: E402
from harness.tally import Tally  # noqa: E402
import judging  # noqa: E402

LAYOUT = """[[partition]]
number = 1
name = "renamed"
[[partition]]
number = 3
type = "linux"
start = "26624s"
size = "1MiB"
"""
SCRIPT = "label: gpt\nstart=4096, size=2048, name=only\n"
SHAPE = "label: gpt\ntable-length: 256\nstart=4096, size=2048, name=only\n"

# The name of each command, its words, and what it reads.
COMMANDS = {
    "new": (["new", "IMAGE", "--overwrite"], ""),
    "new of 56 entries": (["new", "IMAGE", "--overwrite", "--entries", "56"], ""),
    "new of 256 entries": (["new", "IMAGE", "--overwrite", "--entries", "256"], ""),
    "add": (["add", "IMAGE", "--type", "linux", "--size", "1MiB"], ""),
    "set": (["set", "IMAGE", "1", "--name", "other"], ""),
    "resize": (["resize", "IMAGE", "2", "max"], ""),
    "remove": (["remove", "IMAGE", "2"], ""),
    "sort": (["sort", "IMAGE"], ""),
    "randomize": (["randomize", "IMAGE"], ""),
    "apply": (["apply", "IMAGE", "-"], LAYOUT),
    "apply --replace": (["apply", "IMAGE", "-", "--replace", "--overwrite"], SCRIPT),
    "apply --fit --replace": (["apply", "IMAGE", "-", "--fit", "--replace", "--overwrite"], SHAPE),
    "apply --create": (["apply", "IMAGE", "-", "--create", "--overwrite"], SCRIPT),
    "grow": (["grow", "IMAGE"], ""),
    "repair": (["repair", "IMAGE"], ""),
    "repair --bounds": (["repair", "IMAGE", "--bounds", "--overwrite"], ""),
    "repair --fit": (["repair", "--fit", "IMAGE"], ""),
    "wipe": (["wipe", "IMAGE", "--overwrite"], ""),
}


END = judging.SIZE // SECTOR - 1
ARRAY_BYTES = 128 * 128


def spoiled(image, at, data):
    """The image with other bytes from byte `at` on."""
    return table.laid(image, [(at, data)])


def with_field(image, field, value, copies=(1, END)):
    """The image with another field in the headers in these sectors, whose checksums are right."""
    return table.laid(image, [(at, table.with_fields(image[at:at + 92], (*field, value)))
                              for at in (sector * SECTOR for sector in copies)])


def moved(image, array_at):
    """The image with the primary entries in other sectors, as sgdisk -j has them."""
    array = image[2 * SECTOR:2 * SECTOR + ARRAY_BYTES]
    image = table.laid(image, [(2 * SECTOR, bytes(ARRAY_BYTES)), (array_at * SECTOR, array)])
    image = with_field(image, table.ARRAY_AT, array_at, [1])
    return with_field(image, table.FIRST, array_at + ARRAY_BYTES // SECTOR)


def other_starts():
    """Tables that gptedit would not write so: name -> the bytes of the image."""
    good, backup = judging.image_of(judging.PARTITIONS), END * SECTOR
    low = with_field(good, table.LAST, 27000)
    return {
        "nothing": bytes(judging.SIZE),
        "primary entries elsewhere": moved(good, 40),
        "primary entries elsewhere, backup header zeroed": spoiled(moved(good, 40), backup, bytes(512)),
        "a low last usable sector, zeros after it": low,
        "a low last usable sector, data after it": spoiled(low, 27001 * SECTOR, b"DATA" * 4096),
        "a high first usable sector": with_field(good, table.FIRST, 2048),
        "a long backup": good + bytes(judging.GROWN - judging.SIZE) + good[-33 * SECTOR:],
        "cut": good[:-4096 * SECTOR],
        "both copies damaged": spoiled(spoiled(good, 1024, b"?"), backup + 56, b"?"),
    }


class Trial:
    """A command from a start."""

    def __init__(self, gptedit, command, base, folder):
        words, self.text = COMMANDS[command]
        self.path = os.path.join(folder, "disk.img")
        self.log = os.path.join(folder, "log")
        self.words = [gptedit] + [self.path if word == "IMAGE" else word for word in words]
        self.base = base
        self.may_vanish = command == "wipe"

    def fault(self, mixtures):
        """What is wrong, or nothing; and how many states there are."""
        with open(self.path, "wb") as file:
            file.write(self.base)
        status, printed, events = recording.record(self.words, self.text, self.path, self.log)
        with open(self.path, "rb") as file:
            final = file.read()
        if status:
            return ("refused with status %d, and wrote" % status if final != self.base or any(
                isinstance(event, Write) for event in events) else None), 0
        replayed = Image(self.base)
        for event in events:
            if isinstance(event, Write):
                replayed.put(event.at, event.data)
        if len(final) != len(self.base) or Image(final, replayed.changed).key():
            return "the record does not give the image that it left", 0
        if events and isinstance(events[-1], Write):
            return "its last write is not synced: %s" % printed, 0
        return self.lost(events, final, mixtures)

    def lost(self, events, final, mixtures):
        """A state that gives neither the old table nor the new one, or nothing; and how many there are."""
        old, new = Image(self.base).table(), Image(final).table()
        if new is None and not self.may_vanish:
            return "no table after status 0", 0
        allowed, seen = [old, new], {}
        for _, text, image in Enumeration(self.base, events, mixtures).states():
            key = image.key()
            if key not in seen:
                seen[key] = text
                if image.table() not in allowed:
                    return "lost %s" % text, len(seen)
        return None, len(seen)


def main():
    """Tries each command from each start."""
    parser = argparse.ArgumentParser(prog="changes", description=__doc__,
                                     formatter_class=argparse.RawDescriptionHelpFormatter)
    parser.add_argument("gptedit", help="the program gptedit")
    parser.add_argument("--mixtures", type=int, default=40, help="mixtures by chance for each moment (40)")
    chosen = parser.parse_args()
    tally, states, refused = Tally(), 0, 0
    with tempfile.TemporaryDirectory() as folder:
        folder = os.path.realpath(folder)
        for start, base in {**judging.starts(), **other_starts()}.items():
            for command in COMMANDS:
                fault, count = Trial(os.path.abspath(chosen.gptedit), command, base, folder).fault(chosen.mixtures)
                states += count
                refused += count == 0 and fault is None
                tally.equals("%s from %s" % (command, start), None, fault)
    print("%d states read; %d commands were refused or wrote nothing" % (states, refused))
    return tally.end()


if __name__ == "__main__":
    sys.exit(main())
