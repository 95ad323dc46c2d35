"""What is refused, with what would be right, and that the image stays byte for byte."""
import struct

import commands
from harness import table
from commands import DISK, ESP, MIB, ROOT, start

# What a disk may begin with that `new` is not to lose: its name, where its bytes stand, and the bytes.
CONTENTS = [
    ("an ext2, ext3 or ext4 file system", 0x400, struct.pack("<7I", 16, 64, 0, 32, 5, 1, 0) + struct.pack("<I", 8192) +
     struct.pack("<I", 8192) + bytes(20) + b"\x53\xef"),
    ("an XFS file system", 0, b"XFSB"),
    ("a Btrfs file system", 0x10040, b"_BHRfS_M"), ("an F2FS file system", 0x400, b"\x10\x20\xf5\xf2"),
    ("an NTFS file system", 3, b"NTFS    "), ("an exFAT file system", 3, b"EXFAT   "),
    ("a FAT file system", 54, b"FAT16   "), ("a FAT file system", 82, b"FAT32   "),
    ("a SquashFS file system", 0, b"hsqs"), ("an EROFS file system", 0x400, b"\xe2\xe1\xf5\xe0"),
    ("an ISO 9660 file system", 0x8001, b"CD001"), ("swap space", 4086, b"SWAPSPACE2"),
    ("a volume encrypted with LUKS1", 0, b"LUKS\xba\xbe\0\x01"),
    ("a volume encrypted with LUKS2", 0, b"LUKS\xba\xbe\0\x02"),
    ("a physical volume of LVM", 512, b"LABELONE" + bytes(16) + b"LVM2 001"),
    ("a member of a RAID array", 4096, b"\xfc\x4e\x2b\xa9\x01\0\0\0")]

# A DOS partition table: an entry of a type, a start and a length, and the signature.
DOS = bytes(4) + b"\x83" + bytes(3) + struct.pack("<II", 63, 4096) + bytes(48) + b"\x55\xaa"

# Formats that are not a disk byte for byte.
FORMATS = [("qcow2", 0, b"QFI\xfb"), ("VMDK", 0, b"KDMV"), ("VMDK", 0, b"COWD"),
           ("VMDK", 0, b"# Disk DescriptorFile"), ("VDI", 64, b"\x7f\x10\xda\xbe"), ("VHD", 0, b"conectix"),
           ("VHDX", 0, b"vhdxfile"), ("gzip (compressed)", 0, b"\x1f\x8b\x08\x08")]

ADD = ["add", "disk.img", "--type", "linux"]

# Words over the image of `start`, and what is told of them.
ROWS = [
    (ADD + ["--size", "1GiB"], "partition 2 does not fit into a free range"),
    (ADD + ["--size", "1MiB", "--number", "1"], 'partition 1 (2048..133119 64 MiB efi "ESP") already exists'),
    (ADD + ["--size", "1MiB", "--number", "129"], "entry 129 does not exist; the last entry is 128"),
    (ADD + ["--size", "0s"], "the partition would have a size of zero"),
    (ADD + ["--size", "1MiB", "--align", "0s"], "the alignment must not be zero; use for example 1MiB"),
    (ADD + ["--size", "1MiB", "--align", "100B"], "100B is not a whole number of sectors of 512 bytes"),
    (ADD + ["--size", "1MiB", "--start", "3B"], "3B is not a whole number of sectors of 512 bytes"),
    (ADD + ["--size", "1MiB", "--start", "2048s"], "partitions would overlap"),
    (ADD + ["--size", "1MiB", "--start", "0s"], "outside the usable sectors, 34..262110"),
    (ADD + ["--size", "1MiB", "--start", "262110s"], "outside the usable sectors, 34..262110"),
    (ADD + ["--size", "2s", "--start", "262110s"], "outside the usable sectors, 34..262110"),
    (ADD + ["--size", "2s", "--start", "33s"], "outside the usable sectors, 34..262110"),
    (ADD + ["--size", "1s", "--start", "133119s"], "partitions would overlap"),
    (ADD + ["--size", "2s", "--start", "18446744073709551615s"], "partition 2 would end past 2^64 sectors"),
    (ADD + ["--size", "1MiB", "--guid", ESP], "two partitions would have the same GUID"),
    (["set", "disk.img", "2", "--name", "x"], "entry 2 is not used"),
    (["set", "disk.img", "500", "--name", "x"], "entry 500 does not exist; the last entry is 128"),
    (["set", "disk.img", "1", "--type", "00000000-0000-0000-0000-000000000000"], "partition 1 has no type"),
    (["resize", "disk.img", "2", "1MiB"], "entry 2 is not used"),
    (["resize", "disk.img", "1", "1GiB"], "outside the usable sectors, 34..262110"),
    (["resize", "disk.img", "1", "0s"], "the partition would have a size of zero"),
    (["resize", "disk.img", "1", "3B"], "3B is not a whole number"),
    (["remove", "disk.img", "2"], "entry 2 is not used"),
    (["remove", "disk.img", "1", "1"], "entry 1 is named twice; name it once"),
    (["remove", "disk.img", "4294967295"], "entry 4294967295 does not exist; the last entry is 128"),
    (["free", "disk.img", "--align", "0s"], "the alignment must not be zero; use for example 1MiB"),
    (["new", "disk.img"], "there is a GUID partition table with 1 partition, which would be lost"),
    (["show", "none.img"], "No such file or directory"), (["new", "."], ""), (["new", "/dev/null"], ""),
    (["apply", "disk.img", "none.toml"], "No such file or directory"), (["apply", "disk.img", "."], ""),
]


def refused(tally, program, words, text, name="disk.img", wanted=1):
    """Counts whether these words are refused with this status and text, and the image stays."""
    before = program.state(name)
    status, out, err = program.run(*words)
    what = "gptedit " + " ".join(words)
    tally.equals(f"the status of {what}", (wanted, ""), (status, out))
    tally.holds(f"{what} says {text!r}, and not {err!r}", err.startswith("gptedit: ") and text in err)
    tally.holds(f"{what} leaves the image", program.state(name) == before)


def try_words(tally, program):
    """What is asked for and cannot be had."""
    start(program)
    for words, text in ROWS:
        refused(tally, program, words, text)
    program.run("add", "disk.img", "--type", "linux", "--size", "1MiB", "--start", "133120s")
    refused(tally, program, ["resize", "disk.img", "1", "65MiB"], "partitions would overlap")


def try_contents(tally, program):
    """What `new` is not to lose, and that it is lost where it is forced."""
    for name, at, mark in CONTENTS:
        program.make_zeros("disk.img", 4 * MIB)
        program.put("disk.img", at, mark)
        refused(tally, program, ["new", "disk.img"], f"there is {name}, which would be lost")
        refused(tally, program, ["new", "disk.img", "--dry-run"], f"there is {name}, which would be lost")
        tally.equals(f"new --force over {name}", 0, program.run("new", "disk.img", "--force")[0])
        tally.holds(f"a table stands after new --force over {name}", table.read(program.file("disk.img")))
    program.make_zeros("disk.img", 4 * MIB)
    program.put("disk.img", 446, DOS)
    for words in ["new", "disk.img"], ["new", "disk.img", "--dry-run"]:
        refused(tally, program, words, "there is an MBR with partitions, which would be lost", wanted=3)
    tally.equals("new --force over a DOS partition table", 0, program.run("new", "disk.img", "--force")[0])


def try_formats(tally, program):
    """Images that are not a disk byte for byte."""
    for name, at, mark in FORMATS:
        start(program)
        program.put("disk.img", at, mark)
        for words in (["new", "disk.img", "--force"], ADD + ["--size", "1MiB", "--force"], ["show", "disk.img"]):
            refused(tally, program, words, f"the format of the image is {name}, not raw")


def try_tables(tally, program):
    """Images without a table, short ones, and tables that stand elsewhere."""
    for size in (0, 1, 511, 512, 4096, 34303):
        program.make_image("disk.img", size)
        for words in (["new", "disk.img"], ["show", "disk.img"], ["repair", "disk.img"], ["grow", "disk.img"]):
            refused(tally, program, words, "", wanted=1 if words[0] == "new" else 3)
    program.make_image("disk.img", 4 * MIB)
    for words in (["show", "disk.img"], ADD + ["--size", "1s"], ["dump", "disk.img"], ["sort", "disk.img"]):
        refused(tally, program, words, "copy the disk before anything is written to it", wanted=3)
    program.write("early.toml", b'[[partition]]\ntype = "linux"\nstart = "5s"\nsize = "1MiB"\n')
    words = ["apply", "disk.img", "early.toml", "--create"]
    refused(tally, program, words, "lie outside the usable sectors, 34..8158\n")
    tally.holds("where there is no table, no command that reads one is named", "`" not in program.run(*words)[2])
    start(program)
    with open(program.file("disk.img"), "r+b") as file:
        file.truncate(64 * MIB)
    for words in (ADD + ["--size", "1s"], ["repair", "disk.img"], ["remove", "disk.img", "1"]):
        refused(tally, program, words, "the table is for a disk of another length")
    refused(tally, program, ["grow", "disk.img"], "copy the image again, or run `truncate -s 134217728 disk.img`")
    tally.equals("the status of check of an image that was cut", 1, program.run("check", "disk.img")[0])


def try_two_tables(tally, program):
    """Two copies that are two tables: the primary one is taken, and told to be."""
    start(program)
    backup = program.bytes_of("disk.img")[-33 * 512:]
    program.run("set", "disk.img", "1", "--name", "other", "--guid", ROOT)
    program.put("disk.img", 128 * MIB - len(backup), backup)
    tally.equals("check of two tables", (1, "the copies are different tables; repair keeps the primary one: "
                 "`gptedit repair disk.img`\n", ""), program.run("check", "disk.img"))
    program.run("repair", "disk.img")
    entry = commands.ESP_ENTRY._replace(name="other", guid=ROOT)
    commands.holds_table(tally, program, "repair of two tables", {1: entry})
    tally.equals("the GUID of the disk is kept", DISK, table.read(program.file("disk.img")).guid)


SUBJECTS = {"what cannot be had": try_words, "contents that new would lose": try_contents,
            "other formats": try_formats, "other tables": try_tables, "two tables": try_two_tables}
