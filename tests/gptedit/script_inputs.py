"""`apply` of scripts of sfdisk, without a table and with one. What each script means is from sfdisk(8); where sfdisk is
installed, it makes its own table of the same script, and both are compared."""
import os
import shutil
import subprocess
import tempfile
from typing import NamedTuple

from harness import table
from commands import EFI, LINUX, MIB, SWAP, start
from refusals import refused
from runs import Program

SIZE = 16 * MIB
# A folder in memory, where a sync takes no time.
MEMORY = "/dev/shm"
HOME = "933ac7e1-2eb4-4f13-b844-0e14e2aef915"
RAID = "a19d880f-05fc-4d3b-a006-743f0f84911e"
LVM = "e6d6d379-f507-44c2-a23c-238f2a3df928"
BOOT = "bc13c2ff-59e6-4262-a352-b275fd6f7172"
GUID = "c0ffee00-0000-4000-8000-000000000007"
LEGACY_BOOT = 1 << 2
# The free space in MiB, rounded down to a whole number, as sfdisk and gptedit do.
ALL = 14
CASES = []


class Case(NamedTuple):
    """A script, the partitions that it makes, and what sfdisk makes of it: `same`, the same `without marks`, or a
    reason why it is another table or none. `marked` are the lines that mark a partition as bootable."""

    script: str
    entries: dict
    theirs: str
    marked: list


def part(at, size, kind=LINUX, bits=0, name=""):
    """A partition of `size` MiB that begins at `at` MiB."""
    return table.Entry(kind, "", at * 2048, (at + size) * 2048 - 1, bits, name)


def case(script, *parts, theirs="same", marked=(), numbers=None):
    """Adds a case. The partitions have the numbers from 1, or these."""
    CASES.append(Case(script, dict(zip(numbers or range(1, len(parts) + 1), parts)), theirs, list(marked)))


# No label, and each form of a first line.
case(",10M,L\n", part(1, 10))
case("2048,4096\n", part(1, 2))
case("2048 4096\n", part(1, 2))
case("2048;4096;S\n", part(1, 2, SWAP))
case(";\n", part(1, ALL))
case(",\n", part(1, ALL))
case(",,L\n", part(1, ALL))
case(",,,\n", part(1, ALL))
case("-,10M\n", part(1, 10))
case("- 10M -\n", part(1, 10))
case("-\n", part(1, ALL))
case("+\n", part(1, ALL))
case("10M\n", part(10, 5))
case("0x800,010000\n", part(1, 2))
case("1MiB,2MiB,U\n4MiB,1MiB\n", part(1, 2, EFI), part(4, 1))
case("size=10M\n", part(1, 10))
case("start=2048, size=4096\n", part(1, 2))
case("type=S, size=1M\n", part(1, 1, SWAP))
case("Type=S, SIZE=1M\n", part(1, 1, SWAP))
case("id=0FC63DAF-8483-4772-8E79-3D69D8477DE4, size=1M\n", part(1, 1))
case('name="root", size=1M\n', part(1, 1, name="root"))
case("attrs=GUID:60, size=1M\n", part(1, 1, bits=1 << 60))
case(f"uuid={GUID}, size=1M\n", part(1, 1))
case("/dev/sda2 : start=2048, size=2048\n", part(1, 1), numbers=[2])
case("3: size=1M\n", part(1, 1), numbers=[3])
case(": size=1M\n", part(1, 1))
case("# a comment\n\n   # and another\n,1M\n", part(1, 1))
case("  ,1M\n\t,1M\n", part(1, 1), part(2, 1))
case(",1M\r\n,2M\r\n", part(1, 1), part(2, 2))
case(",1M\n,2M", part(1, 1), part(2, 2))
# Each header as the first line.
case("unit: sectors\n,1M\n", part(1, 1))
case("device: /dev/sda\nunit: sectors\n\n/dev/sda1 : start=2048, size=2048\n", part(1, 1))
case(f"label-id: {GUID}\n,1M\n", part(1, 1))
case("first-lba: 2048\n,1M\n", part(1, 1))
case("last-lba: 30000\n,1M\n", part(1, 1), theirs="its backup entries are not after the last usable sector")
case("table-length: 64\n,1M\n", part(1, 1))
case("grain: 4194304\n,4M\n,4M\n", part(4, 4), part(8, 4))
case("grain: 4M\n,4M\n,4M\n", part(4, 4), part(8, 4))
case("grain: 1048576\nsize=1M\nsize=1M\n", part(1, 1), part(2, 1))
case("sector-size: 512\n,1M\n", part(1, 1))
case("unit: sectors\nlabel: gpt\n,1M\n", part(1, 1))
case("label: GPT\n,1M\n", part(1, 1))
case(" label : gpt \n,1M\n", part(1, 1))
# What is left out.
case("size=,type=S\n", part(1, ALL, SWAP))
case("start=,size=1M\n", part(1, 1))
case("start=-,size=-\n", part(1, ALL))
case("start=+,size=1M\n", part(1, 1))
case("name=,size=1M\n", part(1, 1))
case("size=1M, name=\n", part(1, 1), theirs="sfdisk needs a value at the end of a line")
case("size=1M, type=\n", part(1, 1), theirs="sfdisk needs a value at the end of a line")
case(",1M,,\n,1M,-,-\n", part(1, 1), part(2, 1))
case(" , , S\n", part(1, ALL, SWAP))
case("size=1M,\n", part(1, 1))
case("size=1M;\n", part(1, 1))
case("start=\"2M\" size=\"1M\"\n,\"1M\"\n", part(2, 1), part(3, 1))
case("size=+,type=U\n", part(1, ALL, EFI))
case("+,+,U\n", part(1, ALL, EFI))
case(",-\n", part(1, ALL))
case("-;-;-;-\n", part(1, ALL))
# Signs, which sfdisk reads only where it changes one partition.
case("start=+5M,size=1M\n", part(5, 1))
case("start=-5M,size=1M\n", part(5, 1))
case("+5M,1M\n-8M,1M\n", part(5, 1), part(8, 1))
case("size=+5M\n,-5M\n", part(1, 5), part(6, 5))
# Marks of bootable partitions.
case(",1M,L,*\n", part(1, 1, bits=LEGACY_BOOT), theirs="without marks", marked=[1])
case(",1M,L,+\n", part(1, 1, bits=LEGACY_BOOT), theirs="without marks", marked=[1])
case(",1M,L,-\n", part(1, 1))
case("- 1M - *\n", part(1, 1, bits=LEGACY_BOOT), theirs="without marks", marked=[1])
case(",1M,L *\n", part(1, 1, bits=LEGACY_BOOT), theirs="without marks", marked=[1])
case(",,,*\n", part(1, ALL, bits=LEGACY_BOOT), theirs="without marks", marked=[1])
case("size=1M, bootable\nsize=1M\n", part(1, 1, bits=LEGACY_BOOT), part(2, 1), theirs="without marks", marked=[1])
case("sda1 : bootable, size=1M\n", part(1, 1, bits=LEGACY_BOOT), theirs="without marks", marked=[1])
case("bootable, size=1M\n", part(1, 1, bits=LEGACY_BOOT), theirs="without marks", marked=[1])
case("size=1M bootable name=x\n", part(1, 1, bits=LEGACY_BOOT, name="x"), theirs="without marks", marked=[1])
case("size=1M, Bootable, attrs=GUID:60\n", part(1, 1, bits=LEGACY_BOOT | 1 << 60), theirs="without marks",
     marked=[1])
case("size=1M\nsize=1M,bootable,\n", part(1, 1), part(2, 1, bits=LEGACY_BOOT), theirs="without marks", marked=[2])
case("4 : size=1M, bootable, bootable\n,1M,,*\n", part(1, 1, bits=LEGACY_BOOT), part(2, 1, bits=LEGACY_BOOT),
     theirs="without marks", marked=[1, 2], numbers=[4, 1])
case("size=1M, bootable, attrs=LegacyBIOSBootable\n", part(1, 1, bits=LEGACY_BOOT), marked=[1])
# Attributes.
for _text, _bits in (
        ("RequiredPartition", 1), ("RequiredPartiton", 1), ("NoBlockIOProtocol", 2), ("LegacyBIOSBootable", 4),
        ('"RequiredPartition NoBlockIOProtocol"', 3), ('"RequiredPartition,NoBlockIOProtocol"', 3),
        ('"RequiredPartition, NoBlockIOProtocol"', 3), ('"RequiredPartiton NoBlockIOProtocol 48"', 3 | 1 << 48),
        ('"GUID:48,49,63"', 1 << 48 | 1 << 49 | 1 << 63), ("GUID:48", 1 << 48), ("48", 1 << 48),
        ('"GUID:48 GUID:63"', 1 << 48 | 1 << 63), ('"GUID:48,49 RequiredPartition"', 1 << 48 | 1 << 49 | 1),
        ('"GUID:48,RequiredPartition"', 1 << 48 | 1), ('"48 49"', 1 << 48 | 1 << 49), ('"48,49"', 1 << 48 | 1 << 49),
        ('"GUID:0x30"', 1 << 48), ('"GUID:48,"', 1 << 48), ('""', 0)):
    case(f"size=1M, attrs={_text}\n", part(1, 1, bits=_bits))
# Types.
for _text, _kind in (("L", LINUX), ("S", SWAP), ("H", HOME), ("U", EFI), ("R", RAID), ("V", LVM), ("linux", LINUX),
                     ("swap", SWAP), ("home", HOME), ("uefi", EFI), ("raid", RAID), ("lvm", LVM), ('"L"', LINUX),
                     (HOME, HOME), (HOME.upper(), HOME), ("linux-swap", SWAP)):
    case(f"size=1M, type={_text}\n", part(1, 1, _kind))
case(",1M,U\n,1M,linux\n,1M,-\n,1M,\"S\"\n", part(1, 1, EFI), part(2, 1), part(3, 1), part(4, 1, SWAP))
case("size=1M,type=xbootldr\n", part(1, 1, BOOT), theirs="sfdisk before 2.39 does not know the word")
# Names of types in sfdisk.
for _text, _kind in (('"EFI System"', EFI), ('"efi system"', EFI), ("EFISystem", EFI), ('"Linux filesystem"', LINUX),
                     ("linux-filesystem", LINUX), ('"Linux swap"', SWAP), ('"Linux RAID"', RAID),
                     ('"Linux extended boot"', BOOT)):
    case(f"size=1M, type={_text}\n", part(1, 1, _kind))
case(",1M,\"EFI System\"\n,1M,\"Linux home\"\n", part(1, 1, EFI), part(2, 1, HOME))
# Units with lower-case letters.
for _text in ("1m", "1mib", "1miB", "1Mib", "1024k", "1024kib", "0x1m"):
    case(f"size={_text}\n", part(1, 1))
case("2m,1m\n", part(2, 1))
case("start=4m, size=2m\nsize=1k\n", part(4, 2), table.Entry(LINUX, "", 12288, 12289, 0, ""))
case("grain: 4m\n,4m\n,4m\n", part(4, 4), part(8, 4))
case("size=1500K\nsize=1900K\n", table.Entry(LINUX, "", 2048, 5047, 0, ""), table.Entry(LINUX, "", 6144, 9943, 0, ""),
     theirs="sfdisk rounds sizes with a unit to the grain")
case("2048,0x1e\n", table.Entry(LINUX, "", 2048, 2077, 0, ""))
# The forms that the tests of util-linux have.
case(f"unit: sectors\nlabel: gpt\nlabel-id: {GUID}\n\n/dev/sdx1 : start=2048 size=2048   uuid={GUID}\n"
     f"/dev/sdx2 : start=4096,size=2048,  uuid={HOME} ,type={SWAP}\n"
     f"/dev/sdx3 : start=6144 , size=2048 ,uuid={RAID}\n/dev/sdx4 : start=8192; size=2048 ;     uuid={LVM}\n",
     part(1, 1), part(2, 1, SWAP), part(3, 1), part(4, 1))
case(f"/dev/sdx1 : start=2048  uuid=\"{GUID}\" size=2048\n/dev/sdx2: start= 4096 uuid=\"{HOME}\",size=2048\n"
     f"/dev/sdx3  : start=6144, size=2048, Id={SWAP}\n", part(1, 1), part(2, 1), part(3, 1, SWAP))
case("label: gpt\n,1M,S,*\n", part(1, 1, SWAP, LEGACY_BOOT), theirs="without marks", marked=[2])
# Numbers and the ends of scripts.
case("2 : size=1M\nsize=1M\nsize=1M\n", part(1, 1), part(2, 1), part(3, 1), numbers=[2, 1, 3])
case("2 : size=1M\n1 : size=1M\n", part(1, 1), part(2, 1), numbers=[2, 1])
case("/dev/nvme0n1p2 : size=1M\n", part(1, 1), numbers=[2])
case(",1M\nwrite\n,2M\n", part(1, 1))
case(",1M\nquit\n", part(1, 1))
case("label: gpt\nquit\n", theirs="sfdisk writes nothing")
case("size=1M, name=\"a, b\"\n", part(1, 1, name="a, b"))
case("size=1M,name=a\\x20b\n", part(1, 1, name="a b"))
case("size=1M\t;\ttype=S\n", part(1, 1, SWAP))
case("#" + "x" * 7000 + "\n,1M\n", part(1, 1))
case(" " * 7000 + ",1M\n", part(1, 1))
case("#" + "x" * 70000 + "\n,1M\n", part(1, 1), theirs="sfdisk reads at most 8191 bytes of a line")
case(",1M\n" * 14, *[part(n + 1, 1) for n in range(14)])

# Scripts that are refused, the text of the error, and why sfdisk does not refuse them. None: its refusal is not tried.
REFUSED = [
    ("label: dos\n,1M\n", "line 1: label of ", "sfdisk makes an MBR partition table"),
    ("unit: cylinders\n,1M\n", "line 1: unit of the headers: it must be sectors", ""),
    ("unit: sectors\nunits: sectors\n", 'line 2: "units" is not a key of the headers; the keys are label, ',
     "sfdisk ignores an unknown header"),
    (",1M\n\nx\n", "line 3: start of the partition: it must be a number of sectors, ", ""),
    (",1M\n,x\n", "line 2: size of the partition: it must be a number of sectors, ", ""),
    (",1M,83\n", "line 1: type of the partition: it is a type of MBR partition tables, ", ""),
    (",1M,0x83\n", "line 1: type of the partition: it is a type of MBR partition tables, ", ""),
    ("size=1M, type=c\n", "line 1: type of the partition: it is a type of MBR partition tables, ", ""),
    ("size=1M, type=Ex\n", "line 1: type of the partition: it is a type of MBR partition tables, ", ""),
    ("size=1M, type=X\n", "line 1: type of the partition: it is a type of MBR partition tables, ", ""),
    ("size=1M, type=extended\n", "line 1: type of the partition: it is a type of MBR partition tables, ", ""),
    ("size=1M, type=linx\n", "line 1: type of the partition: it must be a GUID, or a name ", ""),
    (",1M *\n", "line 1: type of the partition: ", ""),
    (",1M,L,x\n", "line 1: bootable of the partition: it must be * or - ", ""),
    ("size=1M, bootable=1\n", "line 1: bootable of the partition: it must be * or - ", ""),
    ("size=1M, bootablex\n", 'line 1: "bootablex" is not a key of the partition; the keys are start, ', ""),
    ("size=1M, colour=red\n", 'line 1: "colour" is not a key of the partition; the keys are start, ', ""),
    (",1M\ntype, size=1M\n", "line 2: type of the partition: it must have a value, after a =", ""),
    ("size=1M,,type=S\n", 'line 1: "" is not a key of the partition; the keys are start, ', ""),
    ("size=1M, colour\n", 'line 1: "colour" is not a key of the partition; the keys are start, ', ""),
    (",1M,L,*,x\n", "line 1: bootable of the partition: it must be the last field", "sfdisk ignores a fifth field"),
    ("size=1M, attrs=GUID:48,49\n", 'line 1: "49" is not a key of the partition', ""),
    ("size=1M, attrs=FooBar\n", "line 1: attrs of the partition: attributes are RequiredPartition, ",
     "sfdisk ignores an unknown attribute"),
    ("size=1M, attrs=GUID:64\n", "line 1: attrs of the partition: ", "sfdisk ignores an unknown attribute"),
    ("size=1M, attrs=GUID:-1\n", "line 1: attrs of the partition: ", "sfdisk ignores an unknown attribute"),
    ("size=1M, name=\"x\n", "line 1: name of the partition: a double quote must be closed", ""),
    ("2 : size=1M\n2 : size=1M\n", "line 2: number of the partition: an earlier partition has the number 2", ""),
    ("size=1M\nlabel: gpt\n", "line 2: start of the partition: ", ""),
    (",1M # comment\n", "line 1: type of the partition: ", ""),
    (",1M\nabort\n", "line 2: start of the partition: ", ""),
    (",1M\nprint\n", "line 2: start of the partition: ", "sfdisk prints the table"),
    (",1M\nhelp\n", "line 2: start of the partition: ", "sfdisk prints its help"),
    ("grain: 0\n,1M\n", "the alignment must not be zero", "sfdisk has its own grain"),
    ("0 : size=1M\n", "line 1: number of the partition: ", "sfdisk takes the number 1"),
    ("size=1M M\n", 'line 1: "M" is not a key of the partition', ""),
    ("start=++1M\n", "line 1: start of the partition: ", None),
    (",18446744073709551616\n", "line 1: size of the partition: ", ""),
    ("size=" + "9" * 100000 + "\n", "line 1: size of the partition: ", ""),
    (",17179869184G\n", "line 1: size of the partition: ", ""),
    (",16E\n", "line 1: size of the partition: ", ""),
    (",16e\n", "line 1: size of the partition: ", ""),
    ("size=1mIb\n", "line 1: size of the partition: ", ""),
    ("size=2048s\n", "line 1: size of the partition: ", ""),
    ("size=1048576B\n", "line 1: size of the partition: ", ""),
    ("size=50%\n", "line 1: size of the partition: ", ""),
    ("size=8MB\n", "line 1: size of the partition: ", "sfdisk rounds units of 1000 to the grain"),
    ("size=1.5M\n", "line 1: size of the partition: ", "sfdisk rounds fractions to the grain"),
    ("size=1M, type=EFI System\n", 'line 1: "System" is not a key of the partition', ""),
    ("size=1M, type=\"EFI Systen\"\n", "line 1: type of the partition: ", ""),
    ("18446744073709551615,1M\n", "", "sfdisk makes a table without partitions"),
    (",18446744073709551615\n", "", "sfdisk makes a table without partitions"),
    ("size=0\n", "", ""),
    ("start=0,size=1M\n", "", ""),
    ("4096,1M\n4096,1M\n", "", ""),
    (",16M\n", "", "sfdisk makes a smaller partition"),
    ("size=1M\0,type=S\n", "line 1: size of the partition: ", ""),
    ("size=1M,name=\"a\0b\"\n", "line 1: name of the partition: a name must not contain a zero character", None),
    ("99999999999999999999 : size=1M\n", "line 1: number of the partition: ", None),
    ("129 : size=1M\n", "", ""),
]

# Texts that are not scripts, and the text of the error, which is about TOML.
TOML = [
    ('size = "1MiB"\n', 'line 1: "size" is not a key of the layout'),
    ('start = "2048s"\nsize = "1MiB"\n', " is not a key of the layout"),
    ("start =2048\n", 'line 1: "start" is not a key of the layout'),
    ('bootable = true\n', 'line 1: "bootable" is not a key of the layout'),
    ('label = "gpt"\n', 'line 1: "label" is not a key of the layout'),
    ("labels: gpt\n", "line 1, column "),
    ("hello\n", "line 1, column "),
    ("hello, world\n", "line 1, column "),
    ("[disk]\nlabel: gpt\n", "line 2, column "),
    ("\0\n", "line 1, column "),
    ("", "the layout is empty"),
    ("# only a comment\n", "the layout is empty"),
]


def without_guids(found):
    """The entries of a table, but for their GUIDs, which are random."""
    return found and {number: entry._replace(guid="") for number, entry in found.entries.items()}


def theirs_of(program, script):
    """The status of sfdisk, and its table, of a script on an empty image. Without a label it would be for an MBR."""
    program.make_zeros("theirs.img", SIZE)
    is_labelled = any(line.strip().lower().replace(" ", "").startswith("label:") for line in script.splitlines())
    text = script if is_labelled else "label: gpt\n" + script
    ended = subprocess.run(["sfdisk", "-q", "theirs.img"], input=text.encode(), cwd=program.folder,
                           stdout=subprocess.DEVNULL, stderr=subprocess.DEVNULL, check=False)
    return ended.returncode, table.read(program.file("theirs.img"))


def note_of(marked):
    """What is printed of lines that mark a partition as bootable."""
    return "".join(f"line {line}: bootable sets the attribute legacy-boot\n" for line in marked)


def in_memory(try_all):
    """The same trial, with a program whose images are in memory."""
    def with_folder(tally, program):
        with tempfile.TemporaryDirectory(dir=MEMORY if os.access(MEMORY, os.W_OK) else None) as folder:
            return try_all(tally, Program(program.path, folder, tally))
    return with_folder


def try_scripts(tally, program):
    """Scripts that make a table, and the table that sfdisk makes of each."""
    tool, others = shutil.which("sfdisk"), 0
    for one in CASES:
        what = f"the script {one.script[:60]!r}"
        program.make_zeros("disk.img", SIZE)
        ended = program.run("apply", "disk.img", "-", "--create", text=one.script)
        tally.equals(f"the status and the notes of {what}", (0, note_of(one.marked)), (ended[0], ended[2]))
        ours = without_guids(table.read(program.file("disk.img")))
        tally.equals(f"the table of {what}", one.entries, ours)
        ended = program.run("apply", "disk.img", "-", text=one.script)
        tally.equals(f"{what} again", (0, "unchanged\n"), ended[:2])
        if not tool:
            continue
        found = without_guids(theirs_of(program, one.script)[1])
        if one.theirs == "without marks":
            ours = {n: entry._replace(attributes=entry.attributes & ~LEGACY_BOOT) for n, entry in ours.items()}
        if one.theirs in ("same", "without marks"):
            tally.equals(f"the table of {what} by sfdisk", found, ours)
        else:
            tally.holds(f"sfdisk makes another table of {what}: {one.theirs}", found != ours)
            others += 1
    return f"{len(CASES)} scripts" + (f", {others} of which sfdisk makes another table" if tool else
                                      "; sfdisk is not installed: its tables are left out")


def try_refused(tally, program):
    """Scripts that are refused, with the line and what would be right."""
    tool = shutil.which("sfdisk")
    for script, told, theirs in REFUSED:
        what = f"the script {script[:60]!r}"
        program.make_zeros("disk.img", SIZE)
        before = program.state("disk.img")
        status, out, err = program.run("apply", "disk.img", "-", "--create", text=script)
        tally.equals(f"the status of {what}", (1, ""), (status, out))
        tally.holds(f"the error of {what}: {err}", err.startswith("gptedit: ") and told in err)
        tally.holds(f"{what} leaves the image", before == program.state("disk.img"))
        if tool and theirs is not None:
            tally.equals(f"sfdisk refuses {what}, or not: {theirs}", not theirs, theirs_of(program, script)[0] != 0)
    return f"{len(REFUSED)} scripts" + ("" if tool else "; sfdisk is not installed: its refusals are left out")


def try_kinds(tally, program):
    """Each type that sfdisk lists, by its name there."""
    if not shutil.which("sfdisk"):
        return "sfdisk is not installed: left out"
    printed = subprocess.run(["sfdisk", "-T", "-X", "gpt"], stdout=subprocess.PIPE, check=True).stdout.decode()
    kinds = [tuple(line.split(maxsplit=1)) for line in printed.splitlines() if "-" in line.split(" ")[0]]
    for first in range(0, len(kinds), 100):
        some = kinds[first:first + 100]
        script = "".join(f'start={2048 + n}, size=1, type="{name.strip()}"\n' for n, (_, name) in enumerate(some))
        program.make_zeros("disk.img", SIZE)
        ended = program.run("apply", "disk.img", "-", "--create", text=script)
        tally.equals("the status of a script of types", (0, ""), (ended[0], ended[2]))
        ours = without_guids(table.read(program.file("disk.img")))
        tally.equals("the types", [guid.lower() for guid, _ in some], [entry.type for entry in ours.values()])
        tally.equals("the table by sfdisk", without_guids(theirs_of(program, script)[1]), ours)
    return f"{len(kinds)} types"


def try_toml(tally, program):
    """Texts that are read as TOML."""
    for text, told in TOML:
        start(program, False)
        program.write("disk.toml", text.encode())
        refused(tally, program, ["apply", "disk.img", "disk.toml"], told)


SUBJECTS = {"scripts": in_memory(try_scripts), "scripts that are refused": in_memory(try_refused),
            "types of sfdisk": in_memory(try_kinds), "texts that are TOML": in_memory(try_toml)}
