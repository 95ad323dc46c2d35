"""`add --script`, beside `sfdisk --append` on the same image where sfdisk is installed. What each script means is from
sfdisk(8) and docs/gptedit.1."""
import fcntl
import json
import os
import re
import shutil
from typing import NamedTuple

from harness import table
from harness.runs import run
from commands import DISK, ESP, LINUX, MIB, ROOT, SWAP
from makers import IMAGE, SIZE, entry, make, refused
from uses import Loop, can_loop, start

THEIRS = "theirs.img"
OTHER = "99999999-5544-4766-8899-aabbccddeeff"
# Partitions 1 and 3, with free sectors 2 to 4 MiB and 5 to 15 MiB.
HELD = {1: entry(2048, 4095), 3: entry(8192, 10239, "three", ROOT)}
ADD = ["add", IMAGE, "--script", "-"]
GUIDS = [f"c0ffee00-0000-4000-8000-0000000001{n:02}" for n in range(100)]
LEGACY_BOOT = 1 << 2


class Case(NamedTuple):
    """A script, the partitions that it adds, and what sfdisk makes of it: `same`, or why that is another table or none."""

    script: str
    added: dict
    theirs: str = "same"
    marked: tuple = ()


def part(at, size=1, kind=LINUX, bits=0, name=""):
    """A partition of `size` MiB that begins at `at` MiB."""
    return table.Entry(kind, "", at * 2048, (at + size) * 2048 - 1, bits, name)


CASES = [
    Case("size=1M\n", {2: part(5)}),
    Case("start=4096, size=2048\n", {2: part(2)}),
    Case("start=2MiB, size=1MiB, type=S, name=\"swap\"\n", {2: part(2, 1, SWAP, 0, "swap")}),
    Case(",1M,U\n", {2: part(5, 1, "c12a7328-f81f-11d2-ba4b-00a0c93ec93b")}),
    Case("size=1M\nsize=2M\nsize=1M\n", {2: part(5), 4: part(6, 2), 5: part(8)}),
    Case("start=4096, size=1M\n,3M\n,,S\n", {2: part(2), 4: part(5, 3), 5: part(8, 7, SWAP)}),
    Case("-\n", {2: part(5, 10)}),
    Case("size=+\n", {2: part(5, 10)}),
    Case("start=4096\n", {2: part(2, 2)}),
    Case("disk.img5 : size=1M\nsize=1M\n", {5: part(5), 2: part(6)}),
    Case("size=1M\n/dev/sda4 : size=1M\nsize=1M\n", {2: part(5), 4: part(6), 5: part(7)}),
    Case("128: size=1M\n", {128: part(5)}),
    Case("disk.img2 : start=4096, size=2048, attrs=\"RequiredPartition GUID:60\"\n", {2: part(2, 1, LINUX, 1 | 1 << 60)}),
    # Headers of a dump of another disk.
    Case(f"label: gpt\nlabel-id: {OTHER}\ndevice: /dev/sdx\nunit: sectors\nfirst-lba: 4096\nlast-lba: 20000\n"
         "table-length: 64\nsector-size: 512\n\nsize=1M\n", {2: part(5)}),
    Case("label: gpt\n", {}),
    Case("label: gpt\n\n# nothing\n\n", {}),
    Case("size=1M\nwrite\nsize=1M\n", {2: part(5)}),
    # What sfdisk makes otherwise.
    Case("size=1M\ndisk.img2 : size=1M\n", {4: part(5), 2: part(6)}, "the first line takes the entry that the second one names"),
    Case("grain: 4M\nsize=4M\n", {2: part(8, 4)}, "it ignores the grain"),
    Case("size=1M, bootable\nsize=1M\n", {2: part(5, 1, LINUX, LEGACY_BOOT), 4: part(6)}, "it ignores the mark", (1,)),
    Case("disk.img9 : size=1M\n,1M,,*\n", {9: part(5), 2: part(6, 1, LINUX, LEGACY_BOOT)}, "it ignores the mark", (2,)),
]

# Scripts that are refused, the text and what sfdisk does: whether it refuses too.
REFUSED = [
    ("disk.img3 : size=1M\n", "partition 3 (8192..10239 1 MiB linux \"three\") already exists", True),
    ("disk.img1 : size=1M\n", "partition 1 (2048..4095 1 MiB linux \"one\") already exists", True),
    ("disk.img2 : size=1M\ndisk.img2 : size=1M\n", "line 2: number of ", True),
    ("disk.img200 : size=1M\n", "entry 200 does not exist; the last entry is 128", True),
    ("disk.img0 : size=1M\n", "line 1: number of ", None),
    ("start=2048, size=2048\n", "partitions would overlap", True),
    ("start=4096, size=1M\nstart=4096, size=1M\n", "partitions would overlap", True),
    ("size=1G\n", "partition 2 does not fit into a free range", False),
    ("size=9M\nsize=9M\n", "partition 4 does not fit into a free range", False),
    ("start=1, size=1M\n", "outside the usable sectors", True),
    (f"size=1M, uuid={ESP}\n", "two partitions would have the same GUID", False),
    ("sector-size: 4096\nsize=1M\n", "sector-size is 4096 in the layout, but 512 on the disk", False),
    ("label: dos\nsize=1M\n", "line 1: label of ", False),
    ("size=1MB\n", "line 1: size of ", None),
    ("size=1M, colour=red\n", "line 1: \"colour\" is not a key", True),
    ("[[partition]]\nsize = \"1MiB\"\n", "it is not a script of sfdisk", None),
    ("[disk]\n", "`gptedit apply` takes layouts in TOML", None),
    ("hello\n", "it is not a script of sfdisk", None),
    ("", "it is not a script of sfdisk", None),
]


def with_guids(script, first=0):
    """The script with a GUID for each line of a partition that has `=` and no GUID, so that both programs make the same
    bytes; None if a line has none."""
    lines, guids = [], iter(GUIDS[first:])
    for line in script.splitlines():
        if "=" in line and "uuid" not in line:
            line += f", uuid={next(guids)}"
        elif line[:1] in ",-":
            return None
        lines.append(line)
    return "".join(f"{line}\n" for line in lines)


def bare(found):
    """The entries of a table without their GUIDs."""
    return found and {number: one._replace(guid="") for number, one in found.entries.items()}


def append(program, script, name=THEIRS):
    """What sfdisk does of a script."""
    return run(["sfdisk", "-q", "--no-reread", "--no-tell-kernel", "--append", name], script, errors="replace", cwd=program.folder)


def note_of(marked):
    """What is printed of marked lines."""
    return "".join(f"line {line}: bootable sets the attribute legacy-boot\n" for line in marked)


def try_scripts(tally, program):
    """Scripts that add partitions, and what sfdisk adds."""
    tool, others, equal = shutil.which("sfdisk"), 0, 0
    for one in CASES:
        what = f"the script {one.script[-60:]!r}"
        make(program, HELD)
        make(program, HELD, name=THEIRS)
        ended = program.run(*ADD, text=one.script)
        tally.equals(f"the status and the notes of {what}: {ended}", (0, note_of(one.marked)), (ended[0], ended[2]))
        found = table.read(program.file(IMAGE))
        wanted = {number: entry._replace(guid="") for number, entry in {**HELD, **one.added}.items()}
        tally.equals(f"the entries of {what}", wanted, bare(found))
        tally.equals(f"the rest of the table of {what}", (DISK, 34, 128), (found.guid, found.first, found.count))
        drawn = [entry.guid for number, entry in found.entries.items() if number not in HELD]
        tally.equals(f"{what}: random GUIDs", len(drawn), len({guid for guid in drawn if guid[14] == "4"}))
        tally.equals(f"{what}: what was there", HELD, {number: found.entries[number] for number in HELD})
        if not tool:
            continue
        status = append(program, one.script)[0]
        theirs = bare(table.read(program.file(THEIRS)))
        if one.theirs != "same":
            tally.holds(f"sfdisk makes another table of {what}: {one.theirs}", status != 0 or theirs != wanted)
            others += 1
            continue
        tally.equals(f"sfdisk --append of {what}", (0, wanted), (status, theirs))
        equal += equal_bytes(tally, program, with_guids(one.script))
    return f"{len(CASES)} scripts" + (f", {equal} byte for byte as sfdisk, {others} of which sfdisk makes another table" if tool else
                                      "; sfdisk is not installed: its tables are left out")


def equal_bytes(tally, program, script):
    """Counts whether a script in which each line has a GUID makes the same image as sfdisk, byte for byte."""
    if script is None or "=" not in script:
        return 0
    make(program, HELD)
    shutil.copyfile(program.file(IMAGE), program.file(THEIRS))
    ended = program.run(*ADD, text=script), append(program, script)
    tally.equals(f"the status of {script!r}: {ended}", [0, 0], [one[0] for one in ended])
    tally.holds(f"the image of {script!r} is that of sfdisk --append", program.bytes_of(IMAGE) == program.bytes_of(THEIRS))
    return 1


def try_refused(tally, program):
    """Scripts that are refused: the image stays, in a dry run too."""
    tool = shutil.which("sfdisk")
    for script, text, theirs in REFUSED:
        what = f"the script {script[:60]!r}"
        make(program, HELD)
        make(program, HELD, name=THEIRS)
        ended = program.run(*ADD, text=script)
        tally.equals(f"the status of {what}: {ended}", (1, ""), ended[:2])
        tally.holds(f"{what} says {text!r}: {ended[2]}", ended[2].startswith("gptedit: ") and text in ended[2])
        told = json.loads(program.run(*ADD, "--json", text=script)[1])
        tally.holds(f"{what} as JSON: {told}", text in told["error"]["message"])
        if tool and theirs is not None:
            tally.equals(f"sfdisk refuses {what}", theirs, append(program, script)[0] != 0)
    return f"{len(REFUSED)} scripts"


def try_files(tally, program):
    """A file, and files that are not scripts."""
    make(program, HELD)
    program.write("more.sfdisk", b"size=1M\n")
    tally.equals("a script in a file", 0, program.run("add", IMAGE, "--script", "more.sfdisk")[0])
    tally.equals("its entry", part(5), bare(table.read(program.file(IMAGE)))[2])
    refused(tally, program, ["add", IMAGE, "--script", "none"], "none")
    program.write("bad", b"size=1M\n\xff\n")
    refused(tally, program, ["add", IMAGE, "--script", "bad"], "UTF-8")
    program.write("backup", bytes(512) + b"EFI PART" + bytes(4096))
    refused(tally, program, ["add", IMAGE, "--script", "backup"], "`gptedit apply` takes layouts in TOML and backups of sgdisk")
    program.make_zeros(IMAGE, SIZE)
    ended = program.run("add", IMAGE, "--script", "more.sfdisk")
    tally.equals(f"without a table: {ended}", 3, ended[0])


def try_twice(tally, program):
    """The same script again adds again."""
    make(program, HELD)
    for count in 1, 2, 3:
        tally.equals(f"time {count}", 0, program.run(*ADD, text="size=1M\n")[0])
        tally.equals(f"partitions after time {count}", 2 + count, len(table.read(program.file(IMAGE)).entries))
    make(program, HELD)
    tally.equals("a named entry", 0, program.run(*ADD, text="disk.img2 : size=1M\n")[0])
    ended = program.run(*ADD, text="disk.img2 : size=1M\n")
    tally.holds(f"a named entry again: {ended}", ended[0] == 1 and "partition 2" in ended[2])
    make(program, {n: entry(2048 + n * 8, 2055 + n * 8, f"p{n}", GUIDS[n]) for n in range(1, 9)}, count=8)
    ended = program.run(*ADD, text="size=1M\n")
    tally.holds(f"no entry is left: {ended}", ended[0] == 1 and "all 8 entries of the table are used" in ended[2])


def try_options(tally, program):
    """The options of a change, with a script."""
    make(program, HELD)
    found = program.json(*ADD, "--json", "--backup", "saved", text="size=1M\nsize=1M\n")
    tally.equals("changes", [("added", 2), ("added", 4)], [(one["kind"], one["number"]) for one in found["changes"]])
    tally.holds("a backup", os.path.getsize(program.file("saved")) > 0)
    make(program, HELD)
    ended = program.plain(*ADD, "--dry-run", text="size=1M\n")
    tally.equals("a dry run", (0, "a dry run, nothing is written:\n+ 2 10240..12287 1 MiB linux \"\"\n"), ended[:2])
    tally.equals("the image after it", HELD, table.read(program.file(IMAGE)).entries)
    # A longer disk: the partition is placed in the table that is fitted to it.
    make(program, HELD)
    program.set_length(IMAGE, 2 * SIZE)
    ended = program.run(*ADD, text="size=20M\n")
    tally.equals(f"more than the table has: {ended}", 1, ended[0])
    ended = program.run(*ADD, "--fit", text="size=20M\n")
    tally.equals(f"the same with --fit: {ended}", 0, ended[0])
    tally.equals("its entry", part(5, 20), bare(table.read(program.file(IMAGE)))[2])


def try_usage(tally, program):
    """Options for one partition, and others that have no effect."""
    make(program, HELD)
    for more in ["--type", "linux"], ["--size", "1MiB"], ["--name", "x"], ["--guid", OTHER], ["--attributes", "required"], \
            ["--number", "4"], ["--start", "2MiB"], ["--end", "3MiB"], ["--place", "last"], ["--align", "1MiB"]:
        ended = program.run(*ADD, *more, text="size=1M\n")
        tally.holds(f"--script with {more}: {ended}", ended[0] == 2 and
                    "the argument '--script' cannot be used with 'an option for one partition'" in ended[2])
    ended = program.run("add", IMAGE, "--size", "1MiB")
    tally.equals("without a type", (2, "", "error: --type is missing\n"), ended)
    one = ["add", IMAGE, "--type", "linux"]
    for words in ["--start", "2MiB", "--size", "1MiB", "--place", "first"], ["--start", "10%", "--size", "rest", "--place", "best"]:
        ended = program.run(*one, *words)
        tally.holds(f"{words}: {ended}", ended[0] == 2 and "the argument '--place' cannot be used with '--start'" in ended[2])
    for words in ["--start", "2MiB", "--size", "1MiB"], ["--start", "4096s", "--size", "2048s"], ["--start", "2MiB", "--end", "3MiB"], \
            ["--start=-2048s", "--size", "1024s"], ["--start", "4096s", "--end=-0s"]:
        ended = program.run(*one, *words, "--align", "4MiB")
        tally.holds(f"{words} --align: {ended}", ended[0] == 2 and
                    "the argument '--align' cannot be used with 'an exact --start and size'" in ended[2])
    # What is rounded uses the alignment: the place differs from that of the default.
    for words in ["--start", "70%", "--size", "1MiB"], ["--start", "2MiB", "--size", "10%"], ["--start", "2MiB", "--size", "1.9MB"], \
            ["--start", "10240s", "--size", "rest"], ["--start=-1.5MiB", "--size", "1MiB"], ["--start", "10240s", "--end=-1KiB"]:
        places = []
        for more in [], ["--align", "4KiB"]:
            make(program, HELD)
            ended = program.run(*one, *words, *more)
            tally.equals(f"{words + more}: {ended}", 0, ended[0])
            made = table.read(program.file(IMAGE)).entries[2]
            places.append((made.first, made.last))
        tally.holds(f"{words}: the alignment has an effect: {places}", places[0] != places[1])


def try_busy(tally, program):
    """A locked image, and a device in use."""
    make(program, HELD)
    with open(program.file(IMAGE), "rb") as holder:
        fcntl.flock(holder, fcntl.LOCK_EX)
        for more in [], ["--dry-run"]:
            ended = program.plain(*ADD, "--lock", "fail", *more, text="size=1M\n")
            tally.equals(f"a locked image {more}: {ended}", 4, ended[0])
    tally.equals("the image", HELD, table.read(program.file(IMAGE)).entries)
    if not can_loop(program):
        return "no loop devices for this user: left out"
    os.makedirs(program.file("at"), exist_ok=True)
    start(program)
    with Loop(program) as loop:
        if not loop.mounts_first(program.file("at")):
            return "no mounts for this user: left out"
        words = ["add", loop.path, "--script", "-"]
        ended = program.plain(*words, text="size=1M\n")
        tally.holds(f"beside a mounted partition: {ended}", ended[0] == 0 and re.search(r"partx -u", ended[2]))
    return None


SUBJECTS = {"scripts": try_scripts, "scripts that are refused": try_refused, "files": try_files, "twice": try_twice,
            "options": try_options, "usage": try_usage, "busy": try_busy}
