"""The map of `show --map`, by the regions that docs/FORMAT.md finds in the bytes of the image, and by maps written by
hand."""
import os
import random
import re
from fractions import Fraction
from itertools import accumulate, groupby

from harness import table
from commands import DISK, ESP, MIB, ROOT, says, start
from makers import IMAGE, entry, make, numbered

CELLS = 64
LINE = re.compile(r"(\S) +(\d+) +(\d+) +([0-9.]+ \S+)  (MBR and primary copy|MBR and primary header|primary entries|"
                  r"backup copy|backup entries|backup header|partition \d+|free|not usable)(?:  +(.*))?")

NONE = f"""disk.img: 262144 sectors of 512 bytes (128 MiB), GUID {DISK}
usable sectors 34..262110, 128 entries; both copies good

[#..............................................................#]

    Start     End       Size  Region                Name
#       0      33     17 KiB  MBR and primary copy
.      34  262110  127.9 MiB  free
#  262111  262143   16.5 KiB  backup copy
"""

THREE = f"""disk.img: 2048 sectors of 512 bytes (1 MiB), GUID {DISK}
usable sectors 34..2014, 128 entries; both copies good

 #   Start     End     Size  Type   Name  GUID                                  Attributes
 1      64     575  256 KiB  linux  boot  {ESP}
 2    1088    1599  256 KiB  linux  data  {ROOT}
12     576    1087  256 KiB  linux  a b   12345678-1234-4234-8234-123456789abc

[##..111111111111111aaaaaaaaaaaaaaa2222222222222222............##]

    Start     End       Size  Region                Name
#       0      33     17 KiB  MBR and primary copy
.      34      63     15 KiB  free
1      64     575    256 KiB  partition 1           boot
a     576    1087    256 KiB  partition 12          a b
2    1088    1599    256 KiB  partition 2           data
.    1600    2014  207.5 KiB  free
#    2015    2047   16.5 KiB  backup copy
"""


def owner_of(sector, found, copies, end, array):
    """What a sector belongs to: the label in the legend, and the name of a partition."""
    primary, backup = copies
    if primary:
        if sector < 2:
            return ("MBR and primary copy" if primary.at == 2 else "MBR and primary header"), None
        if primary.at <= sector < primary.at + array:
            return ("MBR and primary copy" if primary.at == 2 else "primary entries"), None
    if backup:
        whole = backup.at + array == end
        if sector == end:
            return ("backup copy" if whole else "backup header"), None
        if backup.at <= sector < backup.at + array:
            return ("backup copy" if whole else "backup entries"), None
    for number, one in found.items():
        if one.first <= sector <= one.last:
            return f"partition {number}", one.name
    header = primary or backup
    is_usable = max(header.first, 2 + array) <= sector <= min(header.last, end - array - 1)
    return ("free" if is_usable else "not usable"), None


def regions_of(path, sector=512):
    """The regions of an image: the first and last sector of each, its label and its name."""
    descriptor = os.open(path, os.O_RDONLY)
    try:
        image = table.File(descriptor)
        end = image.size // sector - 1
        copies = table.copy_at(image, sector, 1), table.copy_at(image, sector, end)
    finally:
        os.close(descriptor)
    header = copies[0] or copies[1]
    array = -(-header.count * 128 // sector)
    found = table.entries_in(header.array)
    cuts = {0, 2, end, end + 1, 2 + array, end - array, header.first, header.last + 1}
    for copy in filter(None, copies):
        cuts |= {copy.at, copy.at + array}
    for one in found.values():
        cuts |= {one.first, one.last + 1}
    cuts = sorted(cut for cut in cuts if cut <= end + 1)
    owned = [(first, then - 1, owner_of(first, found, copies, end, array)) for first, then in zip(cuts, cuts[1:])]
    for owner, group in groupby(owned, key=lambda one: one[2]):
        parts = list(group)
        yield parts[0][0], parts[-1][1], *owner


def drawn(out):
    """The cells of a map and the lines of its legend, each as the match of LINE."""
    lines = out.split("\n\n")[-2:]
    rows = re.findall(r"^\[(.*)\]$", lines[0], re.M)
    return rows, [LINE.fullmatch(line) for line in lines[1].splitlines()[1:]]


def holds_map(tally, program, what, sector=512):
    """Counts whether the map of an image shows its regions in proportion."""
    ended = program.run("show", IMAGE, "--map")
    tally.equals(f"show --map of {what}: {ended[2]}", 0, ended[0])
    rows, lines = drawn(ended[1])
    wanted = list(regions_of(program.file(IMAGE), sector))
    if not all(lines):
        tally.equals(f"the legend of {what}", [], [ended[1]])
        return
    tally.equals(f"the regions of {what}", [(first, last, label, name or None) for first, last, label, name in wanted],
                 [(int(line[2]), int(line[3]), line[5], line[6]) for line in lines])
    cells = "".join(rows)
    count = max(CELLS, len(wanted))
    tally.equals(f"the rows of {what}", [CELLS] * (count // CELLS) + [count % CELLS] * (count % CELLS > 0),
                 [len(row) for row in rows])
    runs = [(mark, len(list(group))) for mark, group in groupby(cells)]
    tally.equals(f"the characters of {what}", [line[1] for line in lines], [mark for mark, _ in runs])
    tally.equals(f"the digits of {what}", [], [line[0] for line in lines if re.fullmatch(r"partition \d", line[5]) and
                                               line[1] != line[5][-1]])
    spare, total = max(0, CELLS - len(wanted)), wanted[-1][1] + 1
    ends = accumulate(width - 1 for _, width in runs)
    wide = [region for region, end in zip(wanted, ends) if abs(end - Fraction(spare * (region[1] + 1), total)) > 0.5]
    tally.equals(f"regions of {what} that do not end within half a cell of their place", [], wide)


def try_written(tally, program):
    """Maps by hand: no partition, three that are not sorted and one with a number above 9."""
    start(program, entries=False)
    says(tally, program, ["show", IMAGE, "--map"], NONE)
    make(program, {1: entry(64, 575, "boot", ESP), 2: entry(1088, 1599, "data", ROOT),
                   12: entry(576, 1087, "a b", "12345678-1234-4234-8234-123456789abc")}, MIB)
    says(tally, program, ["show", IMAGE, "--map"], THREE)


def try_regions(tally, program):
    """Tables of every kind, against the regions by the format."""
    random_ = random.Random(30)
    for count in 0, 1, 3, 30, 31, 40, 60, 61, 62, 128:
        make(program, numbered(count))
        holds_map(tally, program, f"{count} partitions")
        entries = {n: one._replace(first=one.first + 1) for n, one in numbered(count, 64, 3).items()}
        make(program, dict(zip(random_.sample(range(1, 129), count), entries.values())))
        holds_map(tally, program, f"{count} partitions that are apart and not sorted")
    for number in range(40):
        cuts = sorted(random_.sample(range(34, 32735), 2 * random_.randrange(1, 20)))
        entries = {n: entry(first, last, f"p{n}", f"c0ffee00-0000-4000-8000-{n:012}") for n, (first, last) in
                   enumerate(zip(cuts[::2], cuts[1::2]), 1) if first <= last}
        make(program, entries)
        holds_map(tally, program, f"random table {number}")
    make(program, {1: entry(256, 300)}, sector=4096)
    holds_map(tally, program, "sectors of 4096 bytes", 4096)
    make(program, {1: entry(34, 32734)})
    holds_map(tally, program, "one partition over all usable sectors")
    for how in {"first": 2048}, {"last": 30000}, {"count": 4}, {"first": 40, "places": {"primary_at": 5}}, \
            {"last": 30000, "places": {"backup_at": 32000}}, {"count": 1024, "first": 300}:
        make(program, {1: entry(4096, 8191)}, **how)
        holds_map(tally, program, f"a table with {how}")
    for at in 512, 16 * MIB - 512:
        make(program, numbered(2))
        program.put(IMAGE, at, bytes(92))
        holds_map(tally, program, f"a bad copy at byte {at}")
    make(program, numbered(2))
    program.set_length(IMAGE, 64 * MIB)
    holds_map(tally, program, "a disk that grew")


def try_none(tally, program):
    """Tables without a map: a line says why."""
    last = 16 * MIB // 512 - 1
    far = (1 << 64) - 1
    for entries, reason in [
            ({1: entry(2048, 4095), 2: entry(4095, 5000, "two", ROOT)}, "partition 1 and partition 2 overlap"),
            ({1: entry(2048, 4095), 2: entry(2048, 2048, "two", ROOT)}, "partition 1 and partition 2 overlap"),
            ({3: entry(5000, 4000)}, "partition 3 ends before it starts"),
            ({3: entry(far, 0)}, "partition 3 ends before it starts"),
            ({1: entry(33, 4000)}, "MBR and primary copy and partition 1 overlap"),
            ({1: entry(0, 4000)}, "MBR and primary copy and partition 1 overlap"),
            ({1: entry(4000, last)}, "partition 1 and backup copy overlap"),
            ({1: entry(last + 1, last + 9)}, "partition 1 ends after the disk"),
            ({1: entry(far, far)}, "partition 1 ends after the disk"),
            ({1: entry(far - 1, far), 2: entry(7, 8, "two", ROOT)}, "partition 1 ends after the disk"),
            ({1: entry(0, far)}, "partition 1 ends after the disk")]:
        make(program, entries)
        status, out, err = program.run("show", IMAGE, "--map")
        tally.equals(f"show --map of {entries}", (0, f"no map: {reason}; see `gptedit check {IMAGE}`", ""),
                     (status, out.splitlines()[-1], err))
        tally.equals(f"the lines before the map of {entries}", program.run("show", IMAGE)[1] + "\n",
                     "".join(out.splitlines(True)[:-1]))


def try_words(tally, program):
    """`--map` with `--json`, and with other commands."""
    start(program)
    for words in ["--map", "--json"], ["--json", "--map"]:
        says(tally, program, ["show", IMAGE, *words], status=2, err="error: the argument '--map' cannot be used with "
             "'--json'\n\nFor more information, try '--help'.\n")
    for command in "check", "free", "dump", "salvage":
        tally.equals(f"the status of {command} --map", 2, program.run(command, IMAGE, "--map")[0])
    tally.equals("show, without the map", program.run("show", IMAGE)[1],
                 "\n".join(program.run("show", IMAGE, "--map")[1].split("\n")[:5]) + "\n")


SUBJECTS = {"maps by hand": try_written, "maps by the format": try_regions, "disks without a map": try_none,
            "words of a map": try_words}
