"""Prints rows for `test_rows` with their answers: random tables, places, checks, edits and damage.

The answers are those of a model of its own, made of sets of sectors and of bytes, after docs/FORMAT.md and the
definitions of the library. It shares no code with the library, and is slow.
"""
import random
import struct
import zlib

MOST = 2 ** 64 - 1
CAP = 16384


def row(call, answer):
    """Prints a row."""
    print(f"{call} -> {answer}")


class Entry:
    """An entry: type, GUID, sectors, attributes, and the units of a name."""

    def __init__(self, kind=bytes(16), guid=bytes(16), first=0, last=0, attributes=0, name=""):
        self.kind, self.guid, self.first, self.last = kind, guid, first, last
        self.attributes, self.name = attributes, name

    def used(self):
        return self.kind != bytes(16)

    def encoded(self):
        units = self.name.encode("utf-16-le")[:72].ljust(72, b"\0")
        return self.kind + self.guid + struct.pack("<QQQ", self.first, self.last, self.attributes) + units

    def words(self):
        return (f"type=@{self.kind[0]:02x} guid=@{self.guid[0]:02x} first={self.first} last={self.last} "
                f"attributes={self.attributes} text={self.name}")


class Table:
    """A table: its header's fields, its entries, and the alignment."""

    def __init__(self, sector=512, first=34, last=66, own=1, other=99, at=2, count=8, guid=b"\xff" * 16):
        self.sector, self.first, self.last, self.own, self.other = sector, first, last, own, other
        self.at, self.guid, self.align = at, guid, 2048
        self.entries = [Entry() for _ in range(count)]

    def used(self):
        return [(number, entry) for number, entry in enumerate(self.entries, 1) if entry.used()]

    def told(self):
        text = "".join(f" {number} {entry.name} {entry.first}..{entry.last}" for number, entry in self.used())
        return f"{len(self.entries)}:{text}"

    def shown(self):
        return f"{self.sector} {self.own}/{self.other}/{self.at} {self.first}..{self.last} align {self.align}"

    # ---- places

    def free(self):
        """The free sectors."""
        covered = set()
        for _, entry in self.used():
            covered.update(range(entry.first, min(entry.last, self.last) + 1))
        return {sector for sector in range(max(1, self.first), self.last + 1) if sector not in covered}

    def slots(self):
        """Of each run of free sectors, what is left from its first multiple of the alignment on."""
        free, slots = self.free(), []
        for start in sorted(free):
            if start - 1 not in free:
                end = start
                while end + 1 in free:
                    end += 1
                aligned = next((sector for sector in range(start, end + 1) if sector % self.align == 0), None)
                if aligned is not None:
                    slots.append((aligned, end - aligned + 1))
        return slots

    def starts(self, size):
        """All starts of places for so many sectors."""
        free, size = self.free(), max(1, size)
        return [start for start in sorted(free)
                if start % self.align == 0 and all(start + step in free for step in range(size))]

    def best(self, size):
        fitting = [(length, start) for start, length in self.slots() if length >= max(1, size)]
        return min(fitting)[1] if fitting else None

    def maximum(self):
        return max((length - length % self.align for _, length in self.slots()), default=None)

    def covers(self, sector):
        return next((number for number, entry in self.used() if entry.first <= sector <= entry.last), None)

    # ---- the checks before a write

    def fault(self, size):
        """Why it may not be written to a disk of so many bytes, or nothing."""
        used = [entry for _, entry in self.used()]
        if len({entry.guid for entry in used}) < len(used):
            return "ConflictPartitionGUID"
        if any(entry.first > entry.last for entry in self.entries):
            return "InvalidPartitionBoundaries"
        sectors = [range(entry.first, entry.last + 1) for entry in used]
        if any(one.start < other.stop and other.start < one.stop
               for index, one in enumerate(sectors) for other in sectors[:index]):
            return "InvalidPartitionBoundaries"
        if any(part.start < self.first or part.stop - 1 > self.last for part in sectors):
            return "InvalidPartitionBoundaries"
        if self.first > self.last + 1:
            return "InvalidPartitionBoundaries"
        return self.room_fault(size)

    def room_fault(self, size):
        at = self.last + 1 if self.at == 2 else 2
        if at > MOST:
            return "Overflow"
        length = 128 * len(self.entries)
        ranges = [(self.own, 92), (self.other, 92), (self.at, length), (at, length)]
        ends = [sector * self.sector + count for sector, count in ranges if count]
        if any(end > MOST for end in ends):
            return "Overflow"
        return "NoSpaceLeft" if any(end > size for end in ends) else None

    # ---- bytes

    def array(self):
        return b"".join(entry.encoded() for entry in self.entries)

    def header(self, own, other, at):
        def packed(checksum):
            return struct.pack("<8s4sII4sQQQQ16sQIII", b"EFI PART", b"\0\0\1\0", 92, checksum, bytes(4), own, other,
                               self.first, self.last, self.guid, at, len(self.entries), 128, zlib.crc32(self.array()))
        return packed(zlib.crc32(packed(0)))

    def lay(self, image):
        """Both copies, over this image."""
        other_at = self.last + 1 if self.at == 2 else 2
        for own, other, at in (self.own, self.other, self.at), (self.other, self.own, other_at):
            put(image, own * self.sector, self.header(own, other, at))
            put(image, at * self.sector, self.array())


def put(image, at, data):
    """Bytes over others."""
    image[at:at + len(data)] = data


def aligned(entries, first):
    """The alignment of entries that are read."""
    starts = [entry.first for entry in entries if entry.used()]
    if not starts:
        return 2048
    if not any(starts) or starts == [first]:
        return 1
    return next(number for number in range(CAP, 0, -1) if all(start % number == 0 for start in starts))


def read_copy(image, at, sector):
    """The table of the copy whose header is at this byte, or its fault."""
    raw = bytes(image[at:at + 92])
    if len(raw) < 92:
        return "Io"
    (mark, revision, length, checksum, _, own, other, first, last, guid, place, count, size,
     array_sum) = struct.unpack("<8s4sII4sQQQQ16sQIII", raw)
    if mark != b"EFI PART":
        return "InvalidSignature"
    if revision != b"\0\0\1\0":
        return "InvalidRevision"
    if length != 92:
        return "InvalidHeaderSize"
    computed = zlib.crc32(raw[:16] + bytes(4) + raw[20:])
    if checksum != computed:
        return f"InvalidChecksum({checksum}, {computed})"
    if count and size != 128:
        return f"InvalidPartitionEntrySize({size})"
    if count and place * sector > MOST:
        return "Overflow"
    array = bytes(image[place * sector:place * sector + 128 * count]) if count else b""
    if len(array) < 128 * count:
        return "Io"
    if array_sum != zlib.crc32(array):
        return f"InvalidPartitionEntryArrayChecksum({array_sum}, {zlib.crc32(array)})"
    table = Table(sector, first, last, own, other, place, 0, guid)
    for index in range(count):
        kind, unique, start, end, bits, units = struct.unpack("<16s16sQQQ72s", array[128 * index:128 * index + 128])
        name = units.decode("utf-16-le").split("\0")[0]
        table.entries.append(Entry(kind, unique, start, end, bits, name))
    table.align = aligned(table.entries, first)
    return table


def read(image, sector):
    """The table that an image holds, or the fault."""
    primary = read_copy(image, sector, sector)
    if isinstance(primary, Table):
        return primary
    if len(image) < sector:
        return "InvalidSignature"
    backup = read_copy(image, (len(image) // sector - 1) * sector, sector)
    if isinstance(backup, Table):
        return backup
    if primary == backup == "InvalidSignature":
        return "InvalidSignature"
    return f"ReadError({primary}, {backup})"


# ---- the rows


def none_or(value):
    return "no" if value is None else value


def random_entry(draw, first, last, number):
    """An entry around these bounds, which may end before it starts."""
    start = draw.randrange(max(0, first - 4), last + 4)
    end = start + draw.choice((-1, 0, 1, 2, 5, 9))
    return Entry(bytes([10]) * 16, bytes([number]) * 16, start, max(0, end), draw.randrange(3), f"p{number}")


def begin(table):
    """Rows that make the table t of an empty one, e."""
    count = len(table.entries)
    row(f"parts t of=e length={count}", "ok")
    row(f"set t count={count} first={table.first} last={table.last} own={table.own} other={table.other} "
        f"entries={table.at} align={table.align}", "ok")
    for number, entry in table.used():
        row(f"put t number={number} {entry.words()}", "ok")


def place_rows(draw):
    print("# Places.")
    for _ in range(30):
        first = draw.choice((0, 1, 5, 34))
        table = Table(first=first, last=first + draw.randrange(40), count=6)
        table.align = draw.choice((1, 1, 2, 3, 7, 8))
        for number in draw.sample(range(1, 7), draw.randrange(5)):
            table.entries[number - 1] = random_entry(draw, table.first, table.last, number)
        begin(table)
        size = draw.choice((0, 1, 2, 3, 5, 8, 13))
        starts = table.starts(size)
        row("free t", table.slots())
        row(f"first t size={size}", starts[0] if starts else "no")
        row(f"last t size={size}", starts[-1] if starts else "no")
        row(f"best t size={size}", none_or(table.best(size)))
        most = table.maximum()
        row("maximum t", "NoSpaceLeft" if most is None else most)
        sector = draw.randrange(table.first, table.last + 3)
        row(f"at t sector={sector}", none_or(table.covers(sector)))
        row("fits t size=51200", table.fault(51200) or "ok")


def fit_rows(draw):
    print("# Headers that are fitted to disks.")
    for _ in range(20):
        sector, count = draw.choice((512, 1000, 4096)), draw.choice((1, 4, 33, 128))
        sectors, is_backup = draw.randrange(1, 120), draw.random() < 0.4
        size = sectors * sector + draw.randrange(sector)
        taken = -(-128 * count // sector)
        row(f"disk d size={size}", "ok")
        row("parts t of=e length=0", "ok")
        own = (7, 1, 5) if is_backup else (1, 7, 2)
        row(f"set t sector={sector} count={count} own={own[0]} other={own[1]} entries={own[2]}", "ok")
        if sectors < taken + 2:
            row("fit t on=d", "Overflow")
            continue
        last = sectors - taken - 2
        places = f"{sectors - 1}/1/{last + 1}" if is_backup else f"1/{sectors - 1}/2"
        row("fit t on=d", "ok")
        row("show t", f"{sector} {places} {2 + taken}..{last} align 2048")


def damage_rows(draw):
    print("# Images with some bytes changed.")
    for turn in range(30):
        table = Table(count=draw.choice((1, 5, 40)))
        taken = -(-128 * len(table.entries) // 512)
        table.first, table.last = 2 + taken, 100 - taken - 2
        free = iter(range(table.first, table.last - 8, 8))
        for number in draw.sample(range(1, len(table.entries) + 1), min(len(table.entries), draw.randrange(4))):
            start = next(free)
            table.entries[number - 1] = Entry(bytes([10]) * 16, bytes([number]) * 16, start, start + 3, 1, f"q{number}")
        image = bytearray(51200)
        table.lay(image)
        begin(table)
        row("disk d size=51200", "ok")
        row("write t on=d", f"99/1/{table.last + 1}")
        for _ in range(draw.randrange(1, 4)):
            at = draw.choice((0, 50688 - 512)) + 512 + draw.choice((0, 8, 12, 20, 24, 40, 56, 72, 80, 84, 88, 91))
            if draw.random() < 0.3:
                at = draw.choice((2, table.last + 1)) * 512 + draw.randrange(128 * len(table.entries))
            value = draw.randrange(256)
            image[at] = value
            row(f"poke d at={at} bytes={value:02x}", "ok")
        found = read(image, 512)
        if isinstance(found, str):
            row("read u on=d sector=512", found)
        else:
            row("read u on=d sector=512", "ok")
            row("show u", found.shown())
            row("used u", found.told())


def edited(table, edit):
    """Makes one edit, or gives its fault."""
    kind, number, entry = edit
    if kind in ("put", "remove") and not 1 <= number <= len(table.entries):
        return f"InvalidPartitionNumber({number})"
    if kind == "put":
        table.entries[number - 1] = entry
    elif kind == "remove":
        table.entries[number - 1] = Entry()
    elif kind == "sort":
        table.entries.sort(key=lambda one: (not one.used(), one.first if one.used() else 0))
    else:
        table.guid = bytes([number]) * 16
    return None


def random_edit(draw, table, turn):
    kind = draw.choice(("put", "put", "put", "remove", "sort", "guid"))
    number = draw.choice((0, 9)) if draw.random() < 0.1 else draw.randrange(1, len(table.entries) + 1)
    entry = random_entry(draw, table.first, table.last, turn + 1)
    return kind, number, entry


def edit_row(edit):
    kind, number, entry = edit
    row({"put": f"edit put number={number} {entry.words()}", "remove": f"edit remove number={number}",
         "sort": "edit sort", "guid": f"edit guid guid=@{number:02x}"}[kind], "ok")


def edit_rows(draw):
    print("# Lists of edits.")
    for _ in range(20):
        table = Table(first=4, last=96, count=8)
        begin(table)
        row("disk d size=51200", "ok")
        row("write t on=d", "99/1/97")
        done, fault, on_disk = 0, None, table.told()
        edits = [random_edit(draw, table, turn) for turn in range(draw.randrange(1, 6))]
        for edit in edits:
            edit_row(edit)
        for edit in edits:
            fault = edited(table, edit) or table.fault(51200)
            if fault:
                break
            done, on_disk = done + 1, table.told()
        row("commit t on=d", f"{done} {fault or 'none'}")
        row("used t", table.told())
        row("read u on=d sector=512", "ok")
        row("used u", on_disk)


def mbr_rows(draw):
    print("# Protective MBRs.")
    for _ in range(10):
        sector = draw.choice((1, 100, 512, 4096))
        size = draw.choice((draw.randrange(600), draw.randrange(2 ** 24), draw.randrange(2 ** 45)))
        if size < sector:
            answer = "Overflow"
        elif size < 512:
            answer = "NoSpaceLeft"
        else:
            count = min(size // sector - 1, 2 ** 32 - 1)
            entry = bytes((0, 0, 2, 0, 0xEE, 255, 255, 255)) + struct.pack("<II", 1, count)
            answer = (entry + bytes(48) + b"\x55\xaa").hex()
        row(f"mbr_bytes size={size} sector={sector}", answer)


def main():
    draw = random.Random(20261127)
    row("disk d size=51200", "ok")
    row("new e on=d sector=512 guid=@ff", "ok")
    for rows in place_rows, fit_rows, damage_rows, edit_rows, mbr_rows:
        rows(draw)


if __name__ == "__main__":
    main()
