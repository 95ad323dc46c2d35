"""`apply` of a backup of sgdisk. What a backup holds is from sgdisk(8) and from a file that sgdisk writes; the tables
that are made again are compared by sgdisk, sfdisk and a reader of their own."""
import os
import struct

from harness import table
from harness.runs import run, there
from commands import DISK, EFI, MIB, ROOT, start
from makers import entry, numbered
from refusals import refused

SIZE = 64 * MIB
BACKUP = "table.backup"
LONG = "the longest name has 36 UTF-16 units"
# Half a surrogate pair in a name.
HALF = "half \ud83d pair"

# The tables that are saved: a program, and its words before the image.
TABLES = [
    ("sgdisk", ["-n", "1:2048:4095", "-c", "1:one", "-t", "1:ef00"]),
    ("sgdisk", ["-a", "1", "-n", "3:34:47", "-n", "1:100000:100099", "-n", "7:2048:+1M", "-c", f"7:{LONG}",
                "-t", "3:8200"]),
    ("sgdisk", ["-a", "1", "-n", "1:40:40", "-c", "1:größe 名前", "-A", "1:set:60", "-A", "1:set:0",
                "-A", "1:set:63"]),
    ("sgdisk", ["-o"]),
    ("sgdisk", ["-S", "256", "-n", "200:4096:8191", "-c", "200:far"]),
    ("sgdisk", ["-a", "1", *(f"-n={number}:{2048 + number * 64}:{2111 + number * 64}" for number in range(1, 129))]),
    ("gptedit", ["new", "--entries", "8"]),
    ("gptedit", ["add", "--type", "efi", "--size", "1MiB", "--name", LONG, "--attributes", "required,60"]),
    ("gptedit", ["add", "--type", "swap", "--size", "rest", "--number", "77"]),
    ("sfdisk", ["label: gpt\nfirst-lba: 2048\nstart=4096, size=2048, name=\"x\", attrs=\"GUID:48,63\"\n"
                "size=1M, type=U\n"]),
]


def make(program, maker, words):
    """Makes disk.img with a table by this program."""
    program.make_zeros("disk.img", SIZE)
    if maker == "gptedit":
        start(program, False, SIZE)
        first = ["--overwrite"] if words[0] == "new" else []
        return program.run(words[0], "disk.img", *words[1:], *first).status
    if maker == "sfdisk":
        return run(["sfdisk", "-q", "--no-reread", "disk.img"], words[0], cwd=program.folder).status
    return run(["sgdisk", *words, "disk.img"], cwd=program.folder).status


def told(program, numbers):
    """What sgdisk tells of each partition, and sfdisk of the table."""
    words = ["sgdisk", *(f"-i{number}" for number in numbers), "disk.img"]
    return [run(words, cwd=program.folder), run(["sfdisk", "-d", "disk.img"], cwd=program.folder)]


def parts(path, sector=512):
    """The blocks of a backup as sgdisk(8) lists them, from an image: the MBR, both headers and the entries."""
    with open(path, "rb") as file:
        image = file.read()
    last = len(image) // sector - 1
    at, count = struct.unpack_from("<QI", image, sector + 72)
    return [image[:512], image[sector:sector + 512], image[last * sector:last * sector + 512],
            image[at * sector:at * sector + count * 128]]


def write(program, *pieces):
    """Writes a backup of these pieces."""
    program.write(BACKUP, b"".join(pieces))


def try_tables(tally, program):
    """A table is saved by sgdisk, removed, and made again."""
    if not there("sgdisk", "sfdisk"):
        return "sgdisk or sfdisk is not installed: left out"
    for maker, words in TABLES:
        what = f"{maker} {' '.join(words)[:60]!r}"
        tally.equals(f"the status of {what}", 0, make(program, maker, words))
        path = program.file("disk.img")
        if os.path.exists(program.file(BACKUP)):
            os.remove(program.file(BACKUP))
        ended = run(["sgdisk", "-b", BACKUP, "disk.img"], cwd=program.folder)
        tally.equals(f"{what}: sgdisk --backup: {ended}", 0, ended.status)
        with open(program.file(BACKUP), "rb") as file:
            saved = file.read()
        _, *others = parts(path)
        tally.equals(f"{what}: the form of a backup", [part[:92] for part in others[:2]] + others[2:],
                     [saved[512:604], saved[1024:1116], saved[1536:]])
        found = table.read(path)
        before = told(program, found.entries)
        tally.equals(f"{what}: over its own table", (0, "unchanged\n", ""), program.run("apply", "disk.img", BACKUP))
        program.make_zeros("disk.img", SIZE)
        ended = program.run("apply", "--create", "disk.img", BACKUP)
        tally.equals(f"{what}: apply --create: {ended}", 0, ended.status)
        tally.equals(f"{what}: the table", found, table.read(path))
        tally.equals(f"{what}: as sgdisk and sfdisk tell it", before, told(program, found.entries))
    return None


def try_sectors(tally, program):
    """Backups of disks with other sizes of a sector, which are in blocks of 512 bytes too, and a name that is not
    UTF-16."""
    for sector in table.SECTORS:
        entries = {1: entry(1024, 2047, HALF), 9: entry(4096, 4096, LONG, ROOT, EFI, 1 << 63 | 5)}
        found = table.Table(DISK, *table.bounds(SIZE, sector), 128, entries)
        program.write("disk.img", table.image_of(found, SIZE, sector))
        write(program, *parts(program.file("disk.img"), sector))
        program.make_zeros("disk.img", SIZE)
        given = [] if sector in (512, 4096) else ["--sector", str(sector)]
        ended = program.run("apply", "--create", *given, "disk.img", BACKUP)
        tally.equals(f"apply --create with sectors of {sector}: {ended}", 0, ended.status)
        tally.equals(f"the table with sectors of {sector}", found, table.read(program.file("disk.img"), sector))
        other = 512 if sector == 4096 else 4096
        program.make_zeros("disk.img", SIZE)
        refused(tally, program, ["apply", "--create", "--sector", str(other), "disk.img", BACKUP],
                f"sector-size is {sector} in the backup, but {other} on the disk")


def try_others(tally, program):
    """A backup over a table with another header, and of a table that omits a partition of it."""
    found = table.Table(DISK, *table.bounds(SIZE), 128, {1: entry(2048, 4095)})
    program.write("disk.img", table.image_of(found, SIZE))
    write(program, *parts(program.file("disk.img")))
    for key, other, text in [("count", 64, "entries is 128 in the backup, but 64 on the disk"),
                             ("first", 2048, "first-usable is 34 in the backup, but 2048 on the disk"),
                             ("last", 99999, "last-usable is 131038 in the backup, but 99999 on the disk")]:
        program.write("disk.img", table.image_of(found._replace(**{key: other}), SIZE, backup_at=SIZE // 512 - 33))
        refused(tally, program, ["apply", "disk.img", BACKUP], text + "\n--replace sets it")
        program.run("apply", "disk.img", BACKUP, "--replace")
        tally.equals(f"the table after the backup with another {key}", found, table.read(program.file("disk.img")))
    both = {1: entry(2048, 4095), 2: entry(8192, 9999, "two", ROOT)}
    program.write("disk.img", table.image_of(found._replace(entries=both), SIZE))
    refused(tally, program, ["apply", "disk.img", BACKUP], "partition 2 (8192..9999")
    ended = program.run("apply", "--replace", "disk.img", BACKUP)
    tally.equals(f"apply --replace: {ended}", 0, ended.status)
    tally.equals("the table after apply --replace", found, table.read(program.file("disk.img")))
    program.make_zeros("disk.img", SIZE // 2)
    ended = program.run("apply", "--create", "disk.img", BACKUP)
    tally.equals(f"a shorter disk: {ended}", 1, ended.status)


def try_damage(tally, program):
    """A backup whose signatures, headers or entries are damaged, or that is cut off."""
    found = table.Table(DISK, *table.bounds(SIZE), 128, numbered(3))
    program.write("disk.img", table.image_of(found, SIZE))
    good = b"".join(parts(program.file("disk.img")))
    program.make_zeros("disk.img", SIZE)
    words = ["apply", "--create", "disk.img", BACKUP]
    signature, checksum = "is damaged: the signature is wrong", "damaged: the checksum is wrong"
    for at, text in [(512, f"its primary header {signature}"), (572, f"its primary header is {checksum}"),
                     (1024, f"its backup header {signature}"), (1040, f"its backup header is {checksum}"),
                     (1536, f"its entries are {checksum}"), (len(good) - 1, f"its entries are {checksum}")]:
        write(program, good[:at], bytes([good[at] ^ 1]), good[at + 1:])
        refused(tally, program, words, text)
    # sgdisk leaves what a longer file had after the end of the backup.
    write(program, good, b"x" * 512)
    ended = program.run(*words)
    tally.equals(f"more bytes after the entries: {ended}", (0, found),
                 (ended.status, table.read(program.file("disk.img"))))
    program.make_zeros("disk.img", SIZE)
    write(program, good[:512], bytes(1024), good[1536:])
    refused(tally, program, words, "")
    for length, part in [(520, "primary header is"), (600, "primary header is"), (604, "backup header is"),
                         (1024, "backup header is"), (1115, "backup header is"), (1116, "entries are"),
                         (1536, "entries are"), (1537, "entries are"), (len(good) - 1, "entries are")]:
        write(program, good[:length])
        refused(tally, program, words, f"its {part} damaged: the file is too short")
    # The checksum of a header that counts more entries than the file has, and than gptedit reads.
    for count, text in [(32768, "its entries are damaged: the file is too short"),
                        (32769, "its primary header counts 32769 entries\ngptedit reads at most 32768"),
                        (1 << 31, "its primary header counts 2147483648 entries\ngptedit reads at most 32768")]:
        header = table.with_fields(good[512:604], (80, "<I", count))
        write(program, good[:512], header, good[604:])
        refused(tally, program, words, text)
    header = table.with_fields(good[512:604], (84, "<I", 256))
    write(program, good[:512], header, good[604:])
    refused(tally, program, words, "its entries are damaged: ")
    # A whole image is none.
    program.write(BACKUP, table.image_of(found, 2 * MIB))
    refused(tally, program, words, "its backup header is damaged: the signature")


SUBJECTS = {"tables": try_tables, "sectors": try_sectors, "others": try_others, "damage": try_damage}
