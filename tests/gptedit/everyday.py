"""Everyday disks: no rule may refuse them."""
import random
import struct

from harness import table
from harness.runs import there
from commands import BOOT_CODE, DISK, ESP, MIB, ROOT
from makers import ADD, IMAGE, ONE, SIZE, TWO, WRITES, entry, goes, holds, make, mbr_of, put_dos, tool


def all_go(tally, program, name, start, words=None):
    """Counts whether each of these words goes through on a fresh copy of an image."""
    start()
    before = program.state(IMAGE)
    for one in words or WRITES:
        program.restore(IMAGE, before)
        goes(tally, program, one)
        tally.holds(f"{name}: both copies are one after {one}", any(
            table.read(program.file(IMAGE), sector) for sector in (512, 4096)))
    program.restore(IMAGE, before)
    return program.run("check", IMAGE)


def try_zero_sector(tally, program):
    """A sector 0 of zeros, as `cgpt create` leaves it."""
    def start():
        make(program, ONE)
        program.put(IMAGE, 0, bytes(512))
    ended = all_go(tally, program, "zeros", start)
    tally.holds(f"check names repair: {ended}", ended[0] == 1 and f"gptedit repair {IMAGE}" in ended[1])
    if not there("cgpt"):
        return "cgpt is not installed"

    def start_theirs():
        program.make_zeros(IMAGE, SIZE)
        tool(program, "cgpt", "create", IMAGE)
        tool(program, "cgpt", "add", "-i", "1", "-b", "2048", "-s", "2048", "-t", "data", "-l", "one", IMAGE)
    ended = all_go(tally, program, "cgpt", start_theirs)
    tally.holds(f"check names repair: {ended}", ended[0] == 1 and f"gptedit repair {IMAGE}" in ended[1])
    return None


def try_hybrid(tally, program):
    """sgdisk's hybrid MBR."""
    if not there("sgdisk"):
        return "sgdisk is not installed: left out"

    def start():
        make(program, TWO)
        tool(program, "sgdisk", "-h", "1", IMAGE)
    start()
    mbr = mbr_of(program)
    tally.holds("sgdisk makes a hybrid MBR", mbr[4] == 0xee or mbr[20] == 0xee)
    ended = all_go(tally, program, "a hybrid MBR", start)
    tally.holds(f"check of a hybrid MBR: {ended}", ended[0] == 0)
    start()
    goes(tally, program, ADD)
    tally.equals("the hybrid MBR after add", mbr, mbr_of(program))
    return None


def try_windows(tally, program):
    """The length that Windows writes."""
    def start():
        make(program, ONE)
        program.put(IMAGE, 458, b"\xff" * 4)
    tally.equals("check of Windows's MBR", 0, all_go(tally, program, "Windows", start)[0])


def try_iso(tally, program):
    """Images of isohybrid and grub-mkrescue are read, and changed with --overwrite."""
    def start(kinds, mark):
        make(program, {1: entry(64, 4095)})
        program.put(IMAGE, 0x8000, b"\1CD001\1" + bytes(73) + struct.pack("<I", SIZE // 2048 - 60))
        if kinds:
            put_dos(program, kinds, mark)
    for kinds, mark in [(((0, 0, SIZE // 512), (0xef, 64, 512)), 0x80), (((0x17, 0, SIZE // 512),), 0x80),
                        (((0xee, 1, SIZE // 512 - 1),), 0x80), (((0xcd, 1, SIZE // 512 - 1),), 0x80)]:
        start(kinds, mark)
        tally.holds(f"show of an image of {kinds}", "64" in goes(tally, program, ["show", IMAGE]))
        goes(tally, program, ["dump", IMAGE])
        mbr = mbr_of(program)
        goes(tally, program, ADD + ["--overwrite"])
        tally.equals(f"the MBR of {kinds} after add --overwrite", mbr, mbr_of(program))


def try_boot_code(tally, program):
    """Boot code in the MBR, with a BIOS boot partition."""
    core = b"CORE.IMG OF GRUB" * 65536
    kind = "21686148-6449-6e6f-744e-656564454649"

    def start():
        make(program, {1: entry(34, 2047, "bios", ESP, kind)})
        program.put(IMAGE, 34 * 512, core[:2014 * 512])
        program.put(IMAGE, 446, b"\x80")
    words = [one for one in WRITES if one[0] != "resize"]
    tally.equals("check of a BIOS boot partition", 0, all_go(tally, program, "a BIOS boot partition", start, words)[0])
    start()
    goes(tally, program, ADD)
    image = program.bytes_of(IMAGE)
    tally.equals("boot code and core after add", (BOOT_CODE, core[:2014 * 512], 0x80),
                 (image[:446], image[34 * 512:2048 * 512], image[446]))


def try_counts(tally, program):
    """56 entries, and others."""
    for count in 56, 128, 4, 256:
        ended = all_go(tally, program, f"{count} entries", lambda count=count: make(program, ONE, count=count))
        tally.equals(f"check of {count} entries", 0, ended[0])
        goes(tally, program, ADD)
        tally.equals(f"the number of entries after add to {count}", count, table.read(program.file(IMAGE)).count)


def try_wiped(tally, program):
    """A disk that was wiped or shredded."""
    random_ = random.Random(16)
    for name, data in {"zeros": bytes(SIZE), "shredded": random_.randbytes(SIZE), "ones": b"\xff" * SIZE,
                       "a pattern": b"\xaa" * SIZE}.items():
        program.write(IMAGE, data)
        goes(tally, program, ["new", IMAGE, "--guid", DISK])
        holds(tally, program, f"new on a disk of {name}", {})
        goes(tally, program, ADD)
        program.write(IMAGE, data)
        program.write("disk.toml", b'[[partition]]\ntype = "linux"\nsize = "rest"\n')
        goes(tally, program, ["apply", IMAGE, "disk.toml", "--create"])


def try_clone(tally, program):
    """A larger used disk as the target of a clone, which is then grown."""
    for old in 512, 4096:
        def start(old=old):
            make(program, {1: entry(256, 511, "old", ROOT)}, 2 * SIZE, old)
            program.put(IMAGE, SIZE + 4 * MIB, random.Random(1).randbytes(2 * SIZE - 5 * MIB - SIZE))
            made = table.pieces_of(table.Table(DISK, 34, SIZE // 512 - 34, 128, ONE), SIZE)
            table.put(program.file(IMAGE), made)
        start()
        goes(tally, program, ["show", IMAGE])
        goes(tally, program, ["grow", IMAGE])
        found = table.read(program.file(IMAGE))
        tally.equals(f"a clone over a disk of sectors of {old} bytes, grown", (ONE, 2 * SIZE // 512 - 34),
                     found and (found.entries, found.last))
        goes(tally, program, ["resize", IMAGE, "1", "max"])
        tally.equals("check of a grown clone", 0, program.run("check", IMAGE)[0])


def try_first(tally, program):
    """First usable sector 2048 and 32768."""
    for first in 2048, 32768:
        one = {1: entry(first, first + 2047)}
        size = 64 * MIB

        def start(first=first, one=one, size=size):
            make(program, one, size, first=first)
            program.put(IMAGE, 34 * 512, b"U-BOOT! " * 1000)
        tally.equals(f"check of first-usable {first}", 0, all_go(tally, program, f"first-usable {first}", start)[0])
        start()
        program.set_length(IMAGE, 2 * size)
        goes(tally, program, ["grow", IMAGE])
        goes(tally, program, ADD)
        found = table.read(program.file(IMAGE))
        tally.equals(f"first-usable {first} after grow and add", (first, True), found and (
            found.first, all(one.first >= first for one in found.entries.values())))


def try_rewritten(tally, program):
    """A header rewritten by the install of a boot loader, then repair."""
    for begin, data in (512, b"BOOT0" * 90), (512, b"SPL LOADER BYTES" * 512), (1024, b"\xfc\x48" * 600):
        make(program, ONE)
        program.put(IMAGE, begin, data)
        ended = program.run("check", IMAGE)
        tally.holds(f"check names repair: {ended}", ended[0] == 1 and f"gptedit repair {IMAGE}" in ended[1])
        goes(tally, program, ["repair", IMAGE])
        holds(tally, program, "repair of a rewritten header", ONE)


SUBJECTS = {"everyday: zeros in sector 0": try_zero_sector, "everyday: sgdisk's hybrid MBR": try_hybrid,
            "everyday: Windows's MBR": try_windows, "everyday: isohybrid and grub-mkrescue": try_iso,
            "everyday: a BIOS boot partition": try_boot_code, "everyday: numbers of entries": try_counts,
            "everyday: wiped disks": try_wiped, "everyday: a clone that is grown": try_clone,
            "everyday: first usable sectors": try_first, "everyday: a rewritten header": try_rewritten}
