"""Reads and makes GUID partition tables, from docs/FORMAT.md alone. It shares no code with the program."""
import os
import struct
import uuid
import zlib
from typing import NamedTuple

HEADER = struct.Struct("<8s4sII4sQQQQ16sQIII")
SECTORS = (512, 1024, 2048, 4096)

# Where some fields of a header stand, and their formats.
FIRST, LAST, ARRAY_AT, COUNT, ARRAY_CRC = (40, "<Q"), (48, "<Q"), (72, "<Q"), (80, "<I"), (88, "<I")


class Entry(NamedTuple):
    """A used entry. GUIDs are texts in lower case."""

    type: str
    guid: str
    first: int
    last: int
    attributes: int
    name: str


class Table(NamedTuple):
    """A table: what both of its copies have alike. Entries are by their numbers."""

    guid: str
    first: int
    last: int
    count: int
    entries: dict


class Copy(NamedTuple):
    """A copy of a table as its header has it: the sectors of this header and of the other one, the usable sectors,
    the GUID of the disk, the first sector of the entries, how many there are, and their bytes."""

    own: int
    other: int
    first: int
    last: int
    guid: str
    at: int
    count: int
    array: bytes


class File:
    """The bytes of a file that is open."""

    def __init__(self, descriptor):
        self.descriptor = descriptor
        self.size = os.fstat(descriptor).st_size or os.lseek(descriptor, 0, os.SEEK_END)

    def read(self, at, count):
        """These bytes, fewer where the file ends before."""
        return os.pread(self.descriptor, count, at) if at < 1 << 62 else b""


def guid_text(raw):
    """The text of a GUID as it stands on a disk."""
    return str(uuid.UUID(bytes_le=raw))


def guid_bytes(text):
    """A GUID as it stands on a disk."""
    return uuid.UUID(text).bytes_le


def read_entry(raw):
    """The entry of these 128 bytes, or None where it is unused."""
    if raw[:16] == bytes(16):
        return None
    first, last, attributes = struct.unpack("<QQQ", raw[32:56])
    name = raw[56:].decode("utf-16-le", "surrogatepass").split("\0")[0]
    return Entry(guid_text(raw[:16]), guid_text(raw[16:32]), first, last, attributes, name)


def entries_in(array):
    """The used entries of these bytes, by their numbers."""
    entries = {number + 1: read_entry(array[number * 128:number * 128 + 128]) for number in range(len(array) // 128)}
    return {number: entry for number, entry in entries.items() if entry}


def entry_bytes(entry):
    """The 128 bytes of an entry."""
    name = entry.name.encode("utf-16-le", "surrogatepass")[:72].ljust(72, b"\0")
    return guid_bytes(entry.type) + guid_bytes(entry.guid) + struct.pack(
        "<QQQ", entry.first, entry.last, entry.attributes) + name


def copy_at(image, sector, own):
    """The copy whose header is in this sector, wherever that says its parts are; None where it has a fault."""
    raw = image.read(own * sector, 92)
    if own < 1 or len(raw) < 92:
        return None
    (signature, revision, size, checksum, _, this, that, first, last, disk, at, count, length,
     array_checksum) = HEADER.unpack(raw)
    if (signature, revision, size) != (b"EFI PART", b"\0\0\1\0", 92) or count and length != 128 or count > 1 << 17:
        return None
    array = image.read(at * sector, count * 128) if at * sector < image.size else b""
    if zlib.crc32(raw[:16] + bytes(4) + raw[20:]) != checksum or len(array) < count * 128:
        return None
    if zlib.crc32(array) != array_checksum:
        return None
    return Copy(this, that, first, last, guid_text(disk), at, count, array)


def read_copy(image, sector, own, other):
    """The table of the copy whose header is in the sector `own`, or None where it has a fault or is not in the
    form of its place."""
    found = copy_at(image, sector, own)
    if not found or (found.own, found.other) != (own, other) or found.at != (2 if own == 1 else found.last + 1):
        return None
    return Table(found.guid, found.first, found.last, found.count, entries_in(found.array))


def read_copies(path, sector=512):
    """The tables of the primary and of the backup copy of an image, each None where it has a fault."""
    descriptor = os.open(path, os.O_RDONLY)
    try:
        image = File(descriptor)
        end = image.size // sector - 1
        return read_copy(image, sector, 1, end), read_copy(image, sector, end, 1)
    finally:
        os.close(descriptor)


def read(path, sector=512):
    """The table of an image whose copies are both good and one table; else None."""
    primary, backup = read_copies(path, sector)
    return primary if primary == backup else None


def ranges_in(image, sector):
    """The ranges of bytes of both copies of a table, by each copy that is good."""
    end, ranges = image.size // sector - 1, []
    for own in (1, end):
        found = copy_at(image, sector, own)
        if not found:
            continue
        for header in (found.own, found.other, own):
            ranges.append((header * sector, header * sector + 92))
        for array in (found.at, found.last + 1 if found.at == 2 else 2):
            ranges.append((array * sector, array * sector + found.count * 128))
    return ranges


def usual_ranges(size, sector, count=128):
    """The ranges of bytes of both copies of a new table."""
    end, array = size // sector - 1, -(-count * 128 // sector)
    return [(sector, sector + 92), (2 * sector, 2 * sector + count * 128),
            (end * sector, end * sector + 92), ((end - array) * sector, (end - array) * sector + count * 128)]


def signature_places(size):
    """Where a header begins that some size of a sector finds."""
    return sorted({sector for sector in SECTORS} | {(size // sector - 1) * sector for sector in SECTORS})


def bounds(size, sector=512, count=128):
    """The first and the last usable sector of a new table."""
    array = -(-count * 128 // sector)
    return 2 + array, size // sector - array - 2


def array_of(entries, count):
    """The bytes of all entries."""
    raw = bytearray(count * 128)
    for number, entry in entries.items():
        raw[number * 128 - 128:number * 128] = entry_bytes(entry)
    return bytes(raw)


def header_bytes(own, other, found, at, array, reserved=0, header_size=92):
    """The bytes of a header with both checksums."""
    def packed(checksum):
        return HEADER.pack(b"EFI PART", b"\0\0\1\0", header_size, checksum, struct.pack("<I", reserved), own, other,
                           found.first, found.last, guid_bytes(found.guid), at, found.count, 128, zlib.crc32(array)
                           ).ljust(header_size, b"\0")
    return packed(zlib.crc32(packed(0)))


def with_fields(header, *fields):
    """The header with other fields, each its place, its format and its value, and with the right checksum."""
    raw = bytearray(header)
    for at, form, value in (*fields, (16, "<I", 0)):
        struct.pack_into(form, raw, at, value)
    struct.pack_into("<I", raw, 16, zlib.crc32(raw))
    return bytes(raw)


def mbr_bytes(size, sector=512, status=0):
    """The 66 bytes of a protective MBR."""
    count = min(size // sector - 1, 0xffffffff)
    partition = struct.pack("<8B2I", status, 0, 2, 0, 0xee, 255, 255, 255, 1, count)
    return partition.ljust(64, b"\0") + b"\x55\xaa"


def copies_of(found, size, sector=512, primary_at=2, backup_at=None, header_size=92, reserved=0):
    """The bytes of both copies of a table on a disk of this length, each with where it is."""
    end, array = size // sector - 1, array_of(found.entries, found.count)
    backup_at = found.last + 1 if backup_at is None else backup_at
    return [(sector, header_bytes(1, end, found, primary_at, array, reserved, header_size)),
            (primary_at * sector, array), (backup_at * sector, array),
            (end * sector, header_bytes(end, 1, found, backup_at, array, reserved, header_size))]


def pieces_of(found, size, sector=512, **how):
    """The same with the protective MBR before them."""
    return [(446, mbr_bytes(size, sector)), *copies_of(found, size, sector, **how)]


def laid(image, pieces):
    """The image with these pieces over other bytes."""
    image = bytearray(image)
    for at, data in pieces:
        image[at:at + len(data)] = data
    return bytes(image)


def image_of(found, size, sector=512, **how):
    """The bytes of an image with this table and a protective MBR."""
    return laid(bytes(size), pieces_of(found, size, sector, **how))


def put(path, pieces):
    """Writes these pieces to a file."""
    with open(path, "r+b") as file:
        for at, data in pieces:
            file.seek(at)
            file.write(data)
