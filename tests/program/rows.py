"""Makes the images that the rows of rows.txt leave, from docs/FORMAT.md alone."""
import hashlib

from harness import table

FFS, ONES, TWOS, THREES = (table.guid_text(bytes([byte]) * 16) for byte in (0xFF, 0x11, 0x22, 0x33))

# The first 16 digits of the SHA-256 of each image, and the row that leaves it, in the order of the rows.
IMAGES = []


def entry(unique, first, last, name, kind=ONES):
    """An entry."""
    return table.Entry(kind, unique, first, last, 0, name)


def lay(image, entries, sector=512, disk=FFS):
    """The image with both copies of a table of 128 entries, of which these are used."""
    made = table.Table(disk, *table.bounds(len(image), sector), 128, entries)
    return table.laid(image, table.copies_of(made, len(image), sector))


def put(image, at, data):
    """The image with these bytes over others."""
    return table.laid(image, [(at, data)])


def mbr(image, status):
    """The image with a protective MBR for sectors of 512 bytes."""
    return put(image, 446, table.mbr_bytes(len(image), status=status))


def tell(row, image):
    """Notes an image, and gives it back."""
    IMAGES.append((hashlib.sha256(image).hexdigest()[:16], row))
    return image


foo, bar = entry(TWOS, 34, 43, "Foo"), entry(THREES, 60, 64, "Bar")
new = tell("512 new $disk", lay(bytes(51200), {}))
with_foo = tell("512 add 1 .. Foo", lay(new, {1: foo}))
tell("512 add 2 .. Bar", lay(new, {1: foo, 2: bar}))
tell("512 remove 1", lay(new, {2: bar}))
ordered = tell("512 sort", lay(new, {1: bar}))
tell("512 mbr plain", mbr(ordered, 0))

twos = put(with_foo, 0, b"\2" * 512)
tell("512 mbr plain, over bytes 2", mbr(twos, 0))
tell("512 mbr bootable, over bytes 2", mbr(twos, 0x80))

foo_4096, bar_4096 = entry(TWOS, 6, 15, "Foo"), entry(THREES, 18, 37, "Bar")
wide = tell("4096 new $disk", lay(bytes(409600), {}, 4096))
tell("auto add 1 .. Foo", lay(wide, {1: foo_4096}, 4096))
tell("auto add 128 .. Bar", lay(wide, {1: foo_4096, 128: bar_4096}, 4096))
tell("auto remove 1", lay(wide, {128: bar_4096}, 4096))
tell("auto sort", lay(wide, {1: bar_4096}, 4096))

tell("512 add 0128 .. X", lay(new, {1: foo, 128: entry(table.guid_text(bytes(16)), 66, 66, "X")}))
tell("00512 new 0011..", lay(bytes(51200), {}, disk=table.guid_text(bytes.fromhex("00112233445566778899aabbccddeeff"))))
other, kind, *guids = (table.guid_text(bytes([byte]) * 16) for byte in (0x0D, 0x0A, 0x0B, 0x0C))
pair = {1: entry(guids[0], 34, 43, "Foo", kind), 2: entry(guids[1], 48, 52, "Bar", kind)}
tell("512 new 0d0d..", lay(bytes(51200), {}, disk=other))
tell("512 add 1 .. Foo, its type 0a0a..", lay(bytes(51200), {1: pair[1]}, disk=other))
tell("512 add 2 .. Bar, its type 0a0a..", lay(bytes(51200), pair, disk=other))
tell("512 add 2 .. a\\tb", lay(new, {2: entry(TWOS, 34, 43, "a\tb")}))
tell("512 add 1 .. abXcd", lay(new, {1: entry(TWOS, 34, 43, "abXcd")}))
tell("512 new $three", lay(with_foo, {}, disk=THREES))
tell("512 grow, made longer", lay(with_foo + bytes(51200), {1: foo}))
tell("512 grow, cut", lay(with_foo[:50688], {1: foo}))
tell("512 grow, without a primary header", lay(put(with_foo, 512, bytes(92)), {1: foo}))
