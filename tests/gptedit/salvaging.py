"""What `salvage` finds where a header is in one copy and the entries are in the other, and what it then advises."""
import re

from harness import table
from commands import DISK, ROOT
from makers import IMAGE, MIB, ONE, SIZE, TWO, entry, goes, make

APPLY = "apply --create --overwrite"
COPY = "copy the disk"


class Places:
    """The first bytes of both headers and of both arrays of entries, and the length of an array."""

    def __init__(self, found, size, sector):
        end, count = size // sector - 1, -(-found.count * 128 // sector)
        self.sector, self.length = sector, count * sector
        self.headers = {"primary": sector, "backup": end * sector}
        self.entries = {"primary": 2 * sector, "backup": (found.last + 1) * sector}


def lose(program, places, headers=(), entries=()):
    """Clears these headers, and writes something else over these entries."""
    for place in headers:
        program.put(IMAGE, places.headers[place], bytes(places.sector))
    for place in entries:
        program.put(IMAGE, places.entries[place], b"\xa5\0\xc3" * (places.length // 3))


def salvaged(tally, program, what):
    """What `salvage` prints of an image in which something is."""
    status, out, err = program.run("salvage", IMAGE)
    tally.equals(f"salvage of {what}: {out!r} {err!r}", 0, status)
    return out


def is_written(tally, program, what, out, found, sector=512, size=SIZE):
    """Counts whether the layout is advised to be written, and makes this table."""
    tally.holds(f"the layout of {what} is to be written: {out!r}", APPLY in out)
    program.write("found.toml", out.encode())
    goes(tally, program, ["apply", IMAGE, "found.toml", "--create", "--overwrite", "--sector", str(sector)])
    got = table.read(program.file(IMAGE), sector)
    tally.equals(f"the table after salvage of {what}", found, got)
    tally.equals(f"the length after salvage of {what}", size, program.state(IMAGE)[0])


def try_mixed(tally, program):
    """The header of one copy and the entries of the other make the table."""
    for sector in 512, 4096:
        size = SIZE * sector // 512
        for count, last in (128, None), (56, None), (128, SIZE // 512 - 100):
            for good, other in ("primary", "backup"), ("backup", "primary"):
                found = make(program, TWO, size, sector, count=count, last=last)
                places = Places(found, size, sector)
                lose(program, places, [other], [good])
                what = f"a {good} header and {other} entries ({sector}, {count}, {last})"
                out = salvaged(tally, program, what)
                at = places.entries[other] // sector
                tally.holds(f"{what}: a comment says where the entries were: {out!r}",
                            re.search(rf"^#.* entries .*sector {at}\b", out, re.M))
                tally.holds(f"{what}: nothing is left to be lost: {out!r}", COPY not in out)
                is_written(tally, program, what, out, found, sector, size)


def try_bad_other_header(tally, program):
    """The same where the other header is there, and some of its bytes are not."""
    found = make(program, TWO)
    places = Places(found, SIZE, 512)
    lose(program, places, [], ["primary"])
    program.put(IMAGE, places.headers["backup"] + 24, b"\x11\x22\x33\x44\x55\x66\x77\x88" * 4)
    out = salvaged(tally, program, "a broken backup header")
    is_written(tally, program, "a broken backup header", out, found)


def try_wrong_byte(tally, program):
    """A header with one wrong byte, without the other header, gives the whole table."""
    for sector, count in (512, 56), (512, 260), (4096, 260):
        size = SIZE * sector // 512
        for good, other in ("primary", "backup"), ("backup", "primary"):
            for byte in 3, 9, 13, 17, 20, 26, 42, 60, 74, 82, 90:
                found = make(program, TWO, size, sector, count=count)
                places = Places(found, size, sector)
                lose(program, places, [other])
                program.flip(IMAGE, places.headers[good] + byte)
                what = f"a {good} header with another byte {byte} ({sector}, {count})"
                out = salvaged(tally, program, what)
                is_written(tally, program, what, out, found, sector, size)


def try_grown(tally, program):
    """The entries of the backup copy are where the disk ended when the table was written."""
    found = make(program, TWO)
    lose(program, Places(found, SIZE, 512), ["backup"], ["primary"])
    program.set_length(IMAGE, SIZE + MIB)
    out = salvaged(tally, program, "a disk that grew")
    tally.holds(f"both partitions of a disk that grew are found: {out!r}",
                all(f'name = "{one.name}"' in out for one in TWO.values()))


def try_no_header(tally, program):
    """Entries without a header, at one of the usual places or at both."""
    for lost in [], ["primary"], ["backup"]:
        found = make(program, TWO)
        lose(program, Places(found, SIZE, 512), ["primary", "backup"], lost)
        what = f"no header, without the entries of {lost}"
        out = salvaged(tally, program, what)
        guid = f'guid = "{DISK}"\n'
        program.write("found.toml", out.replace("[disk]\n", "[disk]\n" + guid).encode())
        goes(tally, program, ["apply", IMAGE, "found.toml", "--create", "--overwrite"])
        tally.equals(f"the table after salvage of {what}", found, table.read(program.file(IMAGE)))


def put_entries(program, places, place, entries):
    """Writes other entries at the place of a copy."""
    program.put(IMAGE, places.entries[place], table.array_of(entries, 128))


def try_differing(tally, program):
    """Entries at both places that differ: those that the layout does not have are printed, and the advice says that
    they are overwritten."""
    more = {**TWO, 3: entry(20480, 24575, "three", "00000000-0000-4000-8000-000000000003")}
    for headers in [], ["primary"], ["backup"]:
        found = make(program, ONE)
        places = Places(found, SIZE, 512)
        lose(program, places, [place for place in places.headers if place not in headers])
        put_entries(program, places, "primary", {1: entry(2048, 4095), 2: entry(6144, 8191, "new", ROOT)})
        put_entries(program, places, "backup", more)
        what = f"entries that differ, with the headers {headers}"
        out = salvaged(tally, program, what)
        for name in "one", "two", "new", "three":
            tally.holds(f"{what}: {name} is printed: {out!r}", f'name = "{name}"' in out)
        tally.holds(f"{what}: the disk is to be copied first: {out!r}", COPY in out)


def try_lost(tally, program):
    """A good header whose entries are found nowhere: no command is advised that overwrites what is left."""
    for headers in ["primary"], ["backup"], ["primary", "backup"]:
        found = make(program, TWO)
        places = Places(found, SIZE, 512)
        lost = [place for place in places.headers if place not in headers]
        lose(program, places, lost, ["primary", "backup"])
        out = salvaged(tally, program, f"headers {headers} without entries")
        tally.holds(f"no command is advised without entries: {out!r}", APPLY not in out and COPY in out)
    found = make(program, TWO)
    places = Places(found, SIZE, 512)
    lose(program, places, ["backup"], ["backup"])
    program.put(IMAGE, places.entries["primary"], b"\xa5" * 128)
    out = salvaged(tally, program, "entries of which some are lost")
    tally.holds(f"the entry that is left is printed: {out!r}", 'name = "two"' in out)
    tally.holds(f"the advice says that others are overwritten: {out!r}", COPY in out)


def try_empty(tally, program):
    """A table without partitions is written as any other."""
    found = make(program, {})
    lose(program, Places(found, SIZE, 512), ["backup"], ["primary"])
    out = salvaged(tally, program, "a table without partitions")
    tally.holds(f"the layout without partitions is advised: {out!r}", COPY not in out)
    is_written(tally, program, "a table without partitions", out, found)


def try_count(tally, program):
    """The message that no copy is good counts the entries of each copy where they are."""
    for good, other in ("primary", "backup"), ("backup", "primary"):
        found = make(program, TWO)
        lose(program, Places(found, SIZE, 512), [other], [good])
        err = program.run("show", IMAGE)[2]
        counts = (2, 0) if other == "primary" else (0, 2)
        text = "the primary copy still has {} readable entries, and the backup {}".format(*counts)
        tally.holds(f"the entries of the {other} copy are counted as such: {err!r}", text in err)


SUBJECTS = {"a header and the other's entries": try_mixed, "a broken other header": try_bad_other_header,
            "a wrong byte of a header": try_wrong_byte,
            "entries before the old end": try_grown, "entries without a header": try_no_header,
            "entries that differ": try_differing, "entries that are lost": try_lost,
            "salvage of no partitions": try_empty, "entries that are counted": try_count}
