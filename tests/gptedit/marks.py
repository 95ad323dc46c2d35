"""Marks of contents at the start and at the end of a disk, as util-linux's libblkid and the formats have them, and
boot sectors that are no MBR."""
import random

from harness import table
from commands import DISK

IMAGE = "disk.img"
SIZE = 8 << 20
LONGER = 12 << 20
MD = b"\xfc\x4e\x2b\xa9\x01\0\0\0"
LUKS2_SECOND = b"SKUL\xba\xbe\0\2"
UFS2 = b"\x19\x01\x54\x19"

# What `new` names, and the mark: the byte at which it is, and what is there.
STARTS = [
    ("ReFS", 3, b"ReFS\0\0\0\0"), ("romfs", 0, b"-rom1fs-"), ("JFS", 32768, b"JFS1"),
    ("UDF", 34816, b"\0NSR02\x01"), ("UDF", 38912, b"\0NSR03\x01"),
    ("reiser4", 65536, b"ReIsEr4\0"), ("OCFS2", 1024, b"OCFSV2"), ("OCFS2", 8192, b"OCFSV2"),
    ("GFS2", 65536, b"\x01\x16\x19\x70\0\0\0\x01"),
    ("bcachefs", 4120, bytes.fromhex("c68573f666ce90a9d96a60cf803df7ef")),
    ("bcache device", 4120, bytes.fromhex("c68573f64e1a45ca8265f57f48ba6d81")),
    ("UFS", 8192 + 1372, b"\x54\x19\x01\0"), ("UFS", 65536 + 1372, UFS2), ("UFS", 262144 + 1372, UFS2),
    ("VxFS", 1024, b"\xf5\xfc\x01\xa5"), ("BeFS", 544, b"1SFB"),
    ("LUKS1", 0, b"LUKS\xba\xbe\0\x01"), ("LUKS2", 0, b"LUKS\xba\xbe\0\x02"), ("BitLocker", 3, b"-FVE-FS-"),
    ("LUKS2", 16384, LUKS2_SECOND), ("LUKS2", 4 << 20, LUKS2_SECOND), ("Ceph", 0, b"bluestore block device"),
    ("dm-integrity", 0, b"integrt\0"), ("dm-verity", 0, b"verity\0\0"),
    ("Stratis", 516, b"!Stra0tis\x86\xff\x02^\x41rh"), ("RAID", 0, MD), ("RAID", 4096, MD), ("VDO", 0, b"dmvdo001"),
    ("Oracle ASM", 32, b"ORCLDISK"), ("UBI", 0, b"UBI#\x01\0\0\0"), ("VMFS volume", 1 << 20, b"\x0d\xd0\x01\xc0"),
    ("VMFS file system", 2 << 20, b"\x5e\xf1\xab\x2f"), ("SGI", 0, b"\x0b\xe5\xa9\x41"),
    ("Amiga", 0, b"RDSK\0\0\0\x40"), ("zonefs", 0, b"SFOZ"), ("APFS", 32, b"NXSB"),
    ("Rockchip", 32768, b"RKNS"), ("Amlogic", 528, b"@AML"), ("Allwinner", 8196, b"eGON.BT0"),
    ("Allwinner", 131076, b"eGON.BT0"), ("i.MX", 1024, b"\xd1\0\x20\x40"), ("BSD disklabel", 512, b"WEV\x82"),
    ("U-Boot", 0, b"\x27\x05\x19\x56"), ("device tree", 0, b"\xd0\x0d\xfe\xed"),
    ("ZFS", 131072 + 1024, b"\x0c\xb1\xba\0\0\0\0\0")]

# The same at the end: how many bytes before it.
ENDS = [
    ("DRBD", 4096 - 60, b"\x83\x74\x02\x6d"), ("Intel RAID", 1024, b"Intel Raid ISM Cfg Sig. 1.3.00"),
    ("DDF RAID", 512, b"\xde\x11\xde\x11"), ("NVIDIA RAID", 1024, b"NVIDIA  "), ("LSI RAID", 512, b"$XIDE$"),
    ("Adaptec RAID", 512, b"\x37\xfc\x4d\x1e"), ("GEOM", 512, b"GEOM::MIRROR\0\0\0\0"),
    ("Android Verified Boot", 64, b"AVBf\0\0\0\x01"), ("RAID", 65536, b"\xfc\x4e\x2b\xa9\0\0\0\0"), ("RAID", 8192, MD)]

# Sectors that end with 55 AA and are no MBR: boot marks that there are none of, and text among the entries.
BOOT_SECTORS = [random.Random(46).randbytes(446) + b"\x33" + bytes(range(1, 64)) + b"\x55\xaa",
                b"\xeb\x3c\x90LOADER" + bytes(437) + b"Missing operating system".ljust(64, b"!") + b"\x55\xaa"]


def refused(tally, program, what, words):
    """Counts that a command is refused, names this and what lifts it, and leaves the image."""
    before = program.state(IMAGE)
    status, out, err = program.plain(*words)
    tally.holds(f"{words[0]} over {what}: {(status, out, err)}", status == 1 and not out and what in err and
                "--overwrite" in err and program.state(IMAGE) == before)


def try_starts(tally, program):
    """A new table needs --overwrite where a mark is at the start."""
    for what, at, mark in STARTS:
        program.make_zeros(IMAGE, SIZE)
        program.put(IMAGE, at, mark)
        refused(tally, program, what, ["new", IMAGE])
    return f"{len(STARTS)} marks"


def try_ends(tally, program):
    """So it is at the end, and a table is not fitted to a disk whose end is somebody's."""
    for what, back, mark in ENDS:
        program.make_zeros(IMAGE, SIZE)
        program.put(IMAGE, SIZE - back, mark)
        refused(tally, program, what, ["new", IMAGE])
        program.make_zeros(IMAGE, LONGER)
        entries = {1: table.Entry("0fc63daf-8483-4772-8e79-3d69d8477de4", DISK, 2048, 4095, 0, "")}
        found = table.Table(DISK, *table.bounds(SIZE), 128, entries)
        table.put(program.file(IMAGE), table.pieces_of(found, SIZE))
        program.put(IMAGE, LONGER - back, mark)
        if 512 - 92 < back <= 33 * 512:  # else no byte of the mark is where the copy goes
            refused(tally, program, what, ["grow", IMAGE])
    return f"{len(ENDS)} marks"


def try_boot_sectors(tally, program):
    """A sector 0 that ends with 55 AA and is no MBR stays, and `check` says so."""
    for sector in BOOT_SECTORS:
        program.make_zeros(IMAGE, SIZE)
        program.put(IMAGE, 0, sector)
        refused(tally, program, "a boot sector", ["new", IMAGE])
        tally.equals("new --overwrite over a boot sector", 0, program.plain("new", IMAGE, "--overwrite")[0])
        tally.equals("its code", sector[:446], program.bytes_of(IMAGE)[:446])
        program.put(IMAGE, 0, sector)
        status, out, _ = program.run("check", IMAGE)
        tally.holds(f"check names a boot sector, and no command: {out}", status == 1 and "boot sector" in out and
                    "`" not in out)
        for words in ["repair"], ["set", "1"], ["grow"]:
            program.plain(words[0], IMAGE, *words[1:], *(["--name", "x"] if words[0] == "set" else []))
            tally.holds(f"{words[0]} leaves a boot sector", program.bytes_of(IMAGE)[:512] == sector)


SUBJECTS = {"marks at the start": try_starts, "marks at the end": try_ends, "boot sectors": try_boot_sectors}
