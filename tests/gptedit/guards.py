"""What no command may cost: rows for disks that another program left, each compared byte by byte."""
import json
import struct

from harness import table
from commands import DISK, ESP, LINUX, MIB, ROOT, start
from makers import set_field

ADD = ["add", "disk.img", "--type", "linux", "--size", "1MiB"]

# The commands that change a table, over a table with partition 1.
CHANGES = [ADD, ["set", "disk.img", "1", "--name", "x"], ["resize", "disk.img", "1", "max"],
           ["remove", "disk.img", "1"], ["sort", "disk.img"], ["grow", "disk.img"], ["repair", "disk.img"],
           ["randomize", "disk.img"]]


def leaves(tally, program, words, text, wanted=1):
    """Counts whether these words are refused with this status and text, and every byte stays; a dry run too."""
    before = program.state("disk.img")
    for more in [], ["--dry-run"]:
        status, out, err = program.run(*words, *more)
        what = "gptedit " + " ".join(words + more)
        tally.equals(f"the status of {what}", (wanted, ""), (status, out))
        tally.holds(f"{what} says {text!r}, and not {err!r}", text in err)
        tally.holds(f"{what} leaves the image", program.state("disk.img") == before)


def spans(program):
    """The first and last sectors of the partitions of disk.img, by their numbers."""
    found = table.read(program.file("disk.img"))
    return {number: (entry.first, entry.last) for number, entry in found.entries.items()}


def add_at(program, first, last, guid=ROOT):
    """Adds a partition from one sector to another."""
    program.run("add", "disk.img", "--type", LINUX, "--start", f"{first}s", "--size", f"{last - first + 1}s",
                "--guid", guid)


def try_max(tally, program):
    """`resize max` never lowers an end, and takes what is free up to a multiple of 1 MiB."""
    rows = [(2048, 131038, None, 131038), (2048, 9999, 10000, 9999), (2048, 9999, 20001, 18431),
            (2048, 9999, 10239, 9999), (2048, 9999, 10240, 10239), (2048, 131037, None, 131037),
            (2048, 4095, None, 129023), (2048, 129023, None, 129023)]
    for first, last, other, wanted in rows:
        start(program, False, 64 * MIB)
        add_at(program, first, last)
        if other:
            add_at(program, other, other + 99, guid=ESP)
        before = program.bytes_of("disk.img") if wanted == last else None
        ended = program.run("resize", "disk.img", "1", "max")
        tally.equals(f"resize max of {first}..{last} before {other}", (0, (first, wanted)),
                     (ended[0], spans(program)[1]))
        if before:
            tally.equals("what is printed of no change", "unchanged\n", ended[1])
            tally.holds("no byte is written", program.bytes_of("disk.img") == before)
        again = program.run("resize", "disk.img", "1", "max")
        tally.equals("resize max again", (0, "unchanged\n"), again[:2])


def try_twice(tally, program):
    """`apply` a second time has status 0 and writes nothing, with `--replace` too."""
    layouts = ['[[partition]]\ntype="linux"\nstart="1MiB"\nsize="rest"\n',
               '[[partition]]\ntype="efi"\nsize="1MiB"\n[[partition]]\ntype="linux"\nstart="4MiB"\nsize="rest"\n',
               '[[partition]]\ntype="linux"\nsize="rest"\n', "label: gpt\nstart=2048\n", "label: gpt\n2048,+\n",
               "label: gpt\nstart=2048, size=+\n", "label: gpt\n,\n", "label: gpt\nsize=1MiB\nsize=2MiB\n"]
    for text in layouts:
        start(program, False, 16 * MIB)
        program.write("layout", text.encode())
        tally.equals(f"the status of apply of {text!r}", 0, program.run("apply", "disk.img", "layout")[0])
        before = program.bytes_of("disk.img")
        for more in [], ["--replace"]:
            ended = program.run("apply", "disk.img", "layout", *more)
            tally.equals(f"apply again {more} of {text!r}", (0, "unchanged\n", ""), ended)
            tally.holds("no byte is written", program.bytes_of("disk.img") == before)
    start(program, False, 64 * MIB)
    add_at(program, 2048, 131038)
    program.write("layout", b'[[partition]]\nnumber=1\nstart="2048s"\nsize="rest"\n')
    program.run("apply", "disk.img", "layout", "--replace")
    tally.equals("apply --replace of rest keeps the end", {1: (2048, 131038)}, spans(program))


def try_bounds(tally, program):
    """`grow` keeps the first usable sector where that is legal, and the last one follows the end."""
    for first, wanted in (34, 34), (2048, 2048), (32768, 32768), (0, 34):
        start(program, False, 64 * MIB)
        set_field(program, 40, first)
        before = program.bytes_of("disk.img")
        if first >= 34:
            tally.equals("grow of a disk of the same length", (0, "unchanged\n"), program.run("grow", "disk.img")[:2])
            tally.holds("no byte is written", program.bytes_of("disk.img") == before)
        with open(program.file("disk.img"), "r+b") as file:
            file.truncate(128 * MIB)
        tally.equals(f"the status of grow where first-usable is {first}", 0, program.run("grow", "disk.img")[0])
        tally.equals("the table after grow", table.Table(DISK, wanted, 262110, 128, {}),
                     table.read(program.file("disk.img")))


def try_dos(tally, program):
    """A DOS disk with a boot loader behind its MBR, and an old backup copy of a table at its end."""
    start(program, False, 16 * MIB)
    add_at(program, 2048, 4095)
    program.put("disk.img", 0, bytes(62 * 512))
    mbr = bytes(446) + bytes([0x80, 0, 1, 0, 0x83, 0, 0, 0]) + struct.pack("<II", 63, 30000) + bytes(48) + b"\x55\xaa"
    program.put("disk.img", 0, mbr + b"CORE OF A LOADER" * (61 * 32))
    for words in CHANGES:
        leaves(tally, program, words, "DOS partition table", 3)
    leaves(tally, program, ["new", "disk.img"], "which would be lost", 3)
    status, out, _ = program.run("check", "disk.img")
    tally.holds("check reports the DOS disk", status == 1 and "the disk has a DOS partition table" in out)
    tally.holds("check names no command", "gptedit" not in out)
    tally.equals("show still prints the table", 0, program.run("show", "disk.img")[0])


def try_headers(tally, program):
    """`new` needs --force where a header or a protective MBR is left, whatever else is broken."""
    for sector in 512, 1024, 2048, 4096:
        program.make_image("disk.img", 4 * MIB)
        for at in sector, 4 * MIB - sector:
            program.make_image("disk.img", 4 * MIB)
            program.put("disk.img", at, b"EFI PART")
            leaves(tally, program, ["new", "disk.img"], "the header of a GUID partition table" if sector == 512 else
                   f"a GUID partition table with sectors of {sector} bytes")
    start(program, False, 4 * MIB)
    add_at(program, 2048, 4095)
    for at in 1024 + 60, 4 * MIB - 33 * 512 + 60:
        program.put("disk.img", at, b"?")
    leaves(tally, program, ["new", "disk.img"], "the header of a GUID partition table")
    for words in ["show"], ["check"], ["add", "--type", "linux", "--size", "1MiB"], ["repair"]:
        ended = program.run(words[0], "disk.img", *words[1:])
        statuses = (1, 3) if words[0] == "check" else (3,)
        tally.holds(f"{words} of two broken copies does not name new: {ended}", ended[0] in statuses and
                    "gptedit new" not in ended[1] + ended[2])
    for at in 512, 4 * MIB - 512:
        program.put("disk.img", at, bytes(512))
    leaves(tally, program, ["new", "disk.img"], "a protective MBR")
    program.put("disk.img", 0, bytes(512))
    tally.equals("new where no header and no MBR is left", 0, program.run("new", "disk.img")[0])


def try_footer(tally, program):
    """A fixed VHD: a raw disk and a footer behind it."""
    start(program, False, 16 * MIB)
    image = program.bytes_of("disk.img") + b"conectix" + bytes(504)
    program.write("disk.img", image)
    leaves(tally, program, ["grow", "disk.img"], "the footer of a fixed VHD")
    found = json.loads(program.run("check", "disk.img", "--json")[1])
    tally.holds("check does not name grow", all(row["command"] != "grow" for row in found["findings"]))


def try_sizes(tally, program):
    """Sectors below 512, above 4096 or of another size are no size of a sector."""
    start(program, False, 4 * MIB)
    before = program.state("disk.img")
    for size in "92", "128", "256", "500", "511", "513", "8192", "65536":
        for words in ["new"], ["show"], ["repair"], ["check"], ["grow"]:
            status = program.run(words[0], "disk.img", "--sector", size)[0]
            tally.equals(f"the status of {words[0]} --sector {size}", 2, status)
    tally.holds("the image stays", program.state("disk.img") == before)


SUBJECTS = {"resize max": try_max, "apply twice": try_twice, "bounds after growth": try_bounds,
            "a DOS disk": try_dos, "headers that new would lose": try_headers, "a footer": try_footer,
            "sizes of a sector": try_sizes}
