"""Images that rows start from, made from the format, and what is counted of a run over them."""
import os
import struct
import uuid

from harness import table
from harness.runs import run
from commands import DISK, ESP, LINUX, MIB, ROOT

IMAGE = "disk.img"
SIZE = 16 * MIB
REFUSED, NO_TABLE, BUSY = (1,), (3,), (4,)
ADD = ["add", IMAGE, "--type", "linux", "--size", "1MiB"]

# The commands that change a table, over a table with partition 1 (`grow` and `repair` are beside them).
EDITS = [ADD, ["set", IMAGE, "1", "--name", "x"], ["resize", IMAGE, "1", "2MiB"], ["remove", IMAGE, "1"],
         ["sort", IMAGE], ["randomize", IMAGE]]
WRITES = EDITS + [["grow", IMAGE], ["repair", IMAGE]]


def entry(first, last, name="one", guid=ESP, kind=LINUX, attributes=0):
    """An entry."""
    return table.Entry(kind, guid, first, last, attributes, name)


ONE = {1: entry(2048, 4095)}
TWO = {1: entry(2048, 4095), 2: entry(8192, 16383, "two", ROOT)}


def numbered(count, first=2048, sectors=64):
    """Entries one after another, each with a GUID of its own."""
    return {n: entry(first + (n - 1) * sectors, first + n * sectors - 1, f"p{n}", str(uuid.UUID(int=n))) for n in
            range(1, count + 1)}


def of(entries, size=SIZE, sector=512, count=128, first=None, last=None):
    """A table with these entries for a disk of this length."""
    usual = table.bounds(size, sector, count)
    return table.Table(DISK, usual[0] if first is None else first, usual[1] if last is None else last, count, entries)


def make(program, entries, size=SIZE, sector=512, name=IMAGE, places=None, **others):
    """An image with this table, made from the format."""
    found = of(entries, size, sector, **others)
    program.make_image(name, size)
    table.put(program.file(name), table.pieces_of(found, size, sector, **(places or {})))
    return found


def tool(program, *words, text="", name=None):
    """Runs another program on an image, and gives its status."""
    del name
    return run(words, text, errors="replace", cwd=program.folder).status


def refused(tally, program, words, *texts, statuses=REFUSED, lifts=None):
    """Counts whether words are refused with one of these statuses, and each of these texts is in the reason.
    The image stays, as each run is compared. `lifts` is an option with which they are not refused."""
    before = program.state(words[1])
    status, out, err = program.run(*words)
    what = "gptedit " + " ".join(words)
    if words[0] in ("sort", "grow") and status == 0 and "unchanged" in out:
        return  # where nothing is written nothing need be refused
    if program.state(words[1]) != before:
        program.restore(words[1], before)
    tally.holds(f"{what} is refused with {statuses}, not {status}: {out!r} {err!r}", status in statuses)
    for text in texts:
        tally.holds(f"{what} says {text!r}, and not {err!r}", text in err)
    if lifts:
        tally.holds(f"{what} names {lifts}: {err!r}", lifts in err)
        lifted = program.run(*words, lifts)
        tally.equals(f"{what} {lifts}: {lifted}", 0, lifted[0])
        program.restore(words[1], before)


def goes(tally, program, words, text=""):
    """Counts whether words are done, and gives what was printed."""
    status, out, err = program.run(*words, text=text)
    tally.equals(f"gptedit {' '.join(words)}: {out!r} {err!r}", 0, status)
    return out + err


def holds(tally, program, what, entries, sector=512, name=IMAGE):
    """Counts whether both copies hold these entries."""
    found = table.read(program.file(name), sector)
    tally.equals(f"the entries after {what}", entries, found and found.entries)


def put_dos(program, kinds=((0x83, 63, 30000),), mark=0x80, name=IMAGE):
    """A DOS partition table in sector 0: each entry is its type, its first sector and its length."""
    raw = b"".join(bytes([mark if i == 0 else 0, 0, 1, 0, kind, 0, 0, 0]) + struct.pack("<II", first, count)
                   for i, (kind, first, count) in enumerate(kinds))
    program.put(name, 446, raw.ljust(64, b"\0") + b"\x55\xaa")


def mbr_of(program, name=IMAGE):
    """The 66 bytes of sector 0 that are an MBR."""
    return program.bytes_of(name)[446:512]


def ext4(size):
    """The bytes from byte 1024 on of an ext4 file system of so many bytes, of its superblock the length alone."""
    raw = bytearray(1024)
    struct.pack_into("<II", raw, 0, 64, size // 1024)
    struct.pack_into("<IIII", raw, 20, 1, 0, 0, 8192)
    struct.pack_into("<II", raw, 32, 8192, 8192)
    struct.pack_into("<I", raw, 40, 64)
    raw[56:58] = b"\x53\xef"
    struct.pack_into("<HH", raw, 58, 1, 1)
    struct.pack_into("<I", raw, 76, 1)
    struct.pack_into("<IHH", raw, 84, 11, 256, 0)
    struct.pack_into("<III", raw, 92, 0x3c, 0x2c2, 0x46b)
    return bytes(raw)


def set_field(program, at, value, headers=None, name=IMAGE, form="<Q"):
    """Sets a field of headers of an image with sectors of 512 bytes, and their checksums."""
    for header in headers or (512, os.path.getsize(program.file(name)) - 512):
        program.set_fields(name, header, (at, form, value))


def break_both(program, name=IMAGE, size=SIZE):
    """Flips a bit of the entries of both copies."""
    program.flip(name, 1024 + 60)
    program.flip(name, size - 33 * 512 + 60)
