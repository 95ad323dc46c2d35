"""Sizes and positions: units, fractions, percentages, ends, and positions from the end.

The sectors that are wanted are computed here with exact fractions, by the rules of gptedit(1). Where parted, sgdisk and
sfdisk have the same words, they make the same partition on a copy of the image.
"""
import json
import re
import shutil
from fractions import Fraction

from harness import table
from commands import LINUX, MIB
from makers import IMAGE, ROOT, entry, make, of, refused, tool

UNITS = {"B": 1, **{name: 1024 ** power for power, letter in enumerate("KMGT", 1) for name in (letter, letter + "iB")},
         **{letter + "B": 1000 ** power for power, letter in enumerate("KMGT", 1)}}
LENGTH = 300 * MIB
ALIGN = 2048
HELD = {1: entry(2048, 206847), 3: entry(411648, 413695, "two", ROOT)}


class Rule:
    """The meaning of words on a disk with these usable sectors."""

    def __init__(self, first, last, sector=512, align=MIB):
        self.align = align // sector
        self.sector, self.end = sector, last + 1
        self.first, self.last = -(-first // self.align) * self.align, self.end // self.align * self.align

    def measure(self, text):
        """The sectors of a measure, what was stated, and whether it is a percentage."""
        number, unit = re.fullmatch(r"(\d+(?:\.\d{1,6})?)(s|%|[KMGT]?i?B|[KMGT])", text).groups()
        value = Fraction(number)
        if unit == "s":
            return value, value
        if unit == "%":
            stated = value / 100 * (self.last - self.first)
        else:
            stated = value * UNITS[unit] / self.sector
            if "." not in number and (unit.endswith("iB") or len(unit) == 1):
                assert stated.denominator == 1
                return stated, stated
            stated = Fraction(int(value * UNITS[unit]), self.sector)
        return stated // self.align * self.align, stated

    def position(self, text):
        """The sector of a position, and whether it was rounded."""
        found, stated = self.measure(text.lstrip("-"))
        rounded = found != stated
        if text.startswith("-"):
            place = self.end - found
            if not text.endswith("s"):
                rounded = rounded or place % self.align != 0
                place = place // self.align * self.align
            return place, rounded
        return found + (self.first if text.endswith("%") else 0), rounded

    def place(self, start, size=None, end=None, was=None):
        """The first sector, the number of sectors, and whether each was rounded."""
        start, is_start = self.position(start) if start else (was[0], False)
        if end:
            end, is_size = self.position(end) if not re.fullmatch(r"\d+s", end) else (int(end[:-1]) + 1, False)
            return int(start), int(end - start), is_start, is_size
        sign = size[0] if size[0] in "+-" else ""
        found, stated = self.measure(size.lstrip("+-"))
        total = was[1] + (found if sign == "+" else -found) if sign else found
        return int(start), int(total), is_start, found != stated


# Sizes of a partition that starts at 1MiB.
SIZES = ["2048s", "1s", "1048576B", "512B", "1024KiB", "1KiB", "64MiB", "1K", "64M", "1024K", "100MB", "1MB", "1500KB",
         "1.5MiB", "1.5MB", "0.25GiB", "0.1GB", "2.000001MiB", "100.999999M", "3.5M", "0.0002TiB", "0.000273TB", "50%",
         "100%", "33%", "33.333333%", "0.5%", "12.5%", "99.999999%", "007%", "00.5%", "4096.5KB", "1048577.5B"]

# Sizes that are not rounded, which exclude --align.
EXACT = re.compile(r"\d+(s|B|[KMGT](iB)?)")

# A start, and a size or an end.
PLACES = [
    ("1MiB", "--end", "100MiB"), ("1MiB", "--end", "4095s"), ("2048s", "--end", "2048s"), ("1MiB", "--end", "50%"),
    ("1MiB", "--end", "100%"), ("1MiB", "--end", "-1s"), ("1MiB", "--end", "-0s"), ("1MiB", "--end", "-1MiB"),
    ("1MiB", "--end", "-10%"), ("1MiB", "--end", "200MB"), ("1MiB", "--end", "-1.5MB"), ("50%", "--size", "10MiB"),
    ("50%", "--end", "75%"), ("0%", "--end", "33%"), ("33%", "--end", "66%"), ("66%", "--end", "100%"),
    ("-10MiB", "--size", "1MiB"), ("-10MiB", "--end", "-1MiB"), ("-4096s", "--size", "2048s"), ("-50%", "--size", "50%"),
    ("-100MB", "--size", "50MB"), ("100MB", "--size", "1.5MiB"), ("10.5MiB", "--size", "1M"), ("-0.1GiB", "--end", "-0.05GiB"),
    ("12.5%", "--size", "12.5%"), ("0.000001GiB", "--end", "1GB")]

# New sizes and ends of partition 1, which has 204800 sectors from 2048 on.
CHANGES = ["50MiB", "1.5MiB", "120MB", "10%", "2048s", "+10MiB", "+2048s", "+1s", "+5MB", "+1.5%", "-10MiB", "-1s", "-50M",
           "-0.5MiB", "-25%"]
ENDS = ["100MiB", "100MB", "206847s", "206848s", "50%", "-200MiB", "-50%", "2048s"]

# Words that are no sizes, for --size; and no positions, for --start.
WRONG = ["", "10", "0", "1.5", "1.5s", "1.MiB", ".5MiB", "1.0000001MiB", "1,5MiB", "1.5.5MiB", "MiB", "%", "-1MiB", "+1MiB",
         "--1MiB", "101%", "100.000001%", "100.5%", "1e3MiB", "1 MiB", " 1MiB", "1MiB ", "1mib", "1m", "1kB", "1Ki", "1PiB",
         "0x10s", "18446744073709551616s", "18446744073709551616B", "16777216TiB", "18446744.073710TB", "16777216.5TiB", "max",
         "99999999999999999999999.5K", "rest1", "50%%", "5%s"]
NO_POSITIONS = ["rest", "max", "+1MiB", "--1s", "-", "1.5s", "-1.5s", "101%", "-101%", "10", "-10"]
NO_NEW_SIZES = ["rest", "++1MiB", "--1MiB", "+-1MiB", "+max", "-max", "10", "+10", "1.5s", "+101%", "+", "-", "maximum"]


def added(program, *words):
    """The place that `add` would give a partition, and what it prints."""
    status, out, err = program.run("add", IMAGE, "--type", "linux", "-n", "--json", "--number", "9", *words)
    if status:
        return status, out, err
    found = next(one for one in json.loads(out)["partitiontable"]["partitions"] if one["node"].endswith("9"))
    return found["start"], found["size"], err


def said(place, sector=512):
    """What is printed of a rounded place."""
    start, size, is_start, is_size = place
    lines = [f"the {what} is rounded to {sectors}s ({sectors * sector} bytes)\n"
             for what, sectors, is_rounded in (("start", start, is_start), ("size", size, is_size)) if is_rounded]
    return "".join(lines)


def try_sizes(tally, program):
    """The size of a new partition, of sectors of 512 and of 4096 bytes, and with another alignment."""
    for sector, align in (512, MIB), (512, 4096), (4096, MIB), (512, 512):
        found = make(program, {}, LENGTH, sector)
        rule = Rule(found.first, found.last, sector, align)
        for size in SIZES:
            if re.fullmatch(r"\d+([KM]|KiB|B)", size) and rule_bytes(size) % sector:
                continue
            place = rule.place("1MiB", size)
            if place[1] <= 0 or place[0] + place[1] > rule.end:
                continue
            words = ["--start", "1MiB", "--size", size, "--sector", str(sector)]
            if not EXACT.fullmatch(size):
                words += ["--align", f"{align}B"]
            tally.equals(f"add {words}", (*place[:2], said(place, sector)), added(program, *words))


def rule_bytes(size):
    """The bytes of a whole number with a unit."""
    number, unit = re.fullmatch(r"(\d+)(.*)", size).groups()
    return int(number) * UNITS[unit]


def try_places(tally, program):
    """Starts and ends."""
    found = make(program, {}, LENGTH)
    rule = Rule(found.first, found.last)
    for start, option, value in PLACES:
        place = rule.place(start, **{option[2:]: value})
        words = [f"--start={start}", f"{option}={value}"]
        if place[1] <= 0 or place[0] < found.first or place[0] + place[1] > rule.end:
            tally.holds(f"add {words} is refused", isinstance(added(program, *words)[1], str))
            continue
        tally.equals(f"add {words}", (*place[:2], said(place)), added(program, *words))


def laid(program, start, key, value, *words):
    """The place that a layout would give a partition, and what `apply` prints; `words` may have --create."""
    kept = "" if "--create" in words else "[[partition]]\nnumber = 1\n[[partition]]\nnumber = 3\n"
    program.write("disk.toml", (f'{kept}[[partition]]\nnumber = 9\ntype = "linux"\nstart = "{start}"\n{key} = "{value}"\n').encode())
    status, out, err = program.run("apply", IMAGE, "disk.toml", "-n", "--json", *words)
    if status:
        return status, out, err
    found = next(one for one in json.loads(out)["partitiontable"]["partitions"] if one["node"].endswith("9"))
    return found["start"], found["size"], err


def try_layouts(tally, program):
    """The same starts, sizes and ends in a layout, for an existing table and for a new one; once more changes nothing."""
    rows = PLACES + [("220MiB", "--size", size) for size in SIZES]
    for words, name in ((), "partition 9: "), (("--create",), ""):
        if words:
            program.make_zeros(IMAGE, LENGTH)
        found = of({}, LENGTH) if words else make(program, HELD, LENGTH)
        rule = Rule(found.first, found.last)
        for start, option, value in rows:
            key = option[2:]
            place = rule.place(start, **{key: value})
            what = f"start = {start}, {key} = {value} {words}"
            told = laid(program, start, key, value, *words)
            is_free = words or all(place[0] > one.last or place[0] + place[1] <= one.first for one in HELD.values())
            is_whole = key == "end" or not re.fullmatch(r"\d+(B|KiB)", value) or rule_bytes(value) % 512 == 0
            if place[1] <= 0 or place[0] < found.first or place[0] + place[1] > rule.end or not is_free or not is_whole:
                tally.holds(f"{what} is refused", isinstance(told[1], str))
                continue
            lines = "".join(name + line + "\n" for line in said(place).splitlines())
            tally.equals(what, (*place[:2], lines), told)
    make(program, {}, LENGTH)
    program.write("disk.toml", b'[[partition]]\ntype = "efi"\nsize = "10%"\n[[partition]]\ntype = "linux"\nstart = "40%"\nend = "-10MB"\n')
    ended = program.run("apply", IMAGE, "disk.toml")
    rule = Rule(*table.bounds(LENGTH))
    wanted = [rule.place("1MiB", "10%")[:2], rule.place("40%", end="-10MB")[:2]]
    after = table.read(program.file(IMAGE)).entries
    tally.equals(f"a layout in percent: {ended}", wanted, [(after[n].first, after[n].last + 1 - after[n].first) for n in (1, 2)])
    tally.equals("a layout in percent, once more", (0, "unchanged\n"), program.run("apply", IMAGE, "disk.toml")[:2])
    # An end without a start belongs to the partition that is there.
    program.write("disk.toml", b'[[partition]]\nsize = "10%"\ntype = "efi"\n[[partition]]\nnumber = 2\nend = "90%"\n')
    tally.equals("an end of a partition that is there", 0, program.run("apply", IMAGE, "disk.toml", "--replace")[0])
    after = table.read(program.file(IMAGE)).entries[2]
    tally.equals("its place", (wanted[1][0], rule.position("90%")[0]), (after.first, after.last + 1))


def try_figures(tally, program):
    """Figures that were computed by hand: 300 MiB have the usable sectors 34..614366, of which the 298 MiB of sectors
    2048..612351 lie between multiples of 1 MiB."""
    make(program, {}, LENGTH)
    for words, first, count in [
            (["--size", "50%"], 2048, 149 * 2048), (["--start", "50%", "--size", "1MiB"], 150 * 2048, 2048),
            (["--start=-10MiB", "--size", "1MiB"], 289 * 2048, 2048), (["--start", "2048s", "--end", "4095s"], 2048, 2048),
            (["--start", "1MiB", "--end", "2MiB"], 2048, 2048), (["--start", "1MiB", "--end=-1s"], 2048, 614366 - 2048),
            (["--start", "1MiB", "--size", "10MB"], 2048, 9 * 2048), (["--start", "1MiB", "--size", "2.75MiB"], 2048, 2 * 2048)]:
        tally.equals(f"add {words}", (first, count), added(program, *words)[:2])


def try_resizing(tally, program):
    """New sizes and ends of a partition."""
    for change in CHANGES + [("--end", end) for end in ENDS]:
        found = make(program, HELD, LENGTH)
        rule = Rule(found.first, found.last)
        if isinstance(change, tuple):
            words = ["1", f"{change[0]}={change[1]}"]
            place = rule.place(None, end=change[1], was=(2048, 204800))
        else:
            words = ["1", "--", change] if change.startswith("-") else ["1", change]
            place = rule.place(None, change, was=(2048, 204800))
        ended = program.run("resize", IMAGE, *([words[0]] + words[1:]))
        if place[1] <= 0 or place[0] + place[1] > 411648:
            tally.equals(f"resize {words}: {ended}", 1, ended[0])
            continue
        tally.equals(f"what resize {words} says", (0, said(place)), (ended[0], ended[2]))
        after = table.read(program.file(IMAGE))
        wanted = {**HELD, 1: HELD[1]._replace(last=2047 + place[1])}
        tally.equals(f"resize {words}", wanted, after and after.entries)


def try_fitted(tally, program):
    """A percentage is of the disk as it is after `--fit`."""
    make(program, HELD, LENGTH)
    program.set_length(IMAGE, 2 * LENGTH)
    wanted = of({}, 2 * LENGTH)
    rule = Rule(wanted.first, wanted.last)
    for words, place in [(["--size", "25%", "--start", "50%"], rule.place("50%", "25%")),
                         (["--start=-100MiB", "--end", "100%"], rule.place("-100MiB", end="100%"))]:
        tally.equals(f"add --fit {words}", (*place[:2], said(place)), added(program, "--fit", *words))


def try_wrong(tally, program):
    """Words that are refused, and words that exclude each other."""
    make(program, HELD, LENGTH)
    usage = [["add", IMAGE, "--type", "linux", "--start", "1MiB", f"--size={word}"] for word in WRONG]
    usage += [["add", IMAGE, "--type", "linux", "--size", "1MiB", f"--start={word}"] for word in NO_POSITIONS]
    usage += [["add", IMAGE, "--type", "linux", "--start", "1MiB", f"--end={word}"] for word in NO_POSITIONS]
    usage += [["resize", IMAGE, "1", "--", word] for word in NO_NEW_SIZES]
    usage += [["add", IMAGE, "--type", "linux"], ["add", IMAGE, "--type", "linux", "--end", "100MiB"],
              ["add", IMAGE, "--type", "linux", "--start", "1MiB"], ["resize", IMAGE, "1"],
              ["add", IMAGE, "--type", "linux", "--start", "1MiB", "--size", "1MiB", "--end", "2MiB"],
              ["resize", IMAGE, "1", "2MiB", "--end", "2MiB"], ["resize", IMAGE, "--end", "2MiB"]]
    for words in usage:
        ended = program.run(*words)
        tally.equals(f"the status of {words}: {ended}", 2, ended[0])
    for words, text in [
            (["--size", "10"], "a unit is missing"), (["--size", "101%"], "at most 100%"), (["--size", "1.0000001M"], "6 digits"),
            (["--size", "1M", "--end", "2M"], "the argument '--size' cannot be used with '--end'")]:
        ended = program.run("add", IMAGE, "--type", "linux", "--start", "1MiB", *words)
        tally.holds(f"add {words} says {text!r}: {ended}", text in ended[2])


# Places that cannot be measured, with the code.
UNMEASURED = [
    ("no-size", ["add", IMAGE, "--type", "linux", "--start", "2MiB", "--end", "2MiB"]),
    ("no-size", ["add", IMAGE, "--type", "linux", "--start", "2MiB", "--end", "1MiB"]),
    ("no-size", ["add", IMAGE, "--type", "linux", "--size", "0.5MiB"]), ("no-size", ["add", IMAGE, "--type", "linux", "--size", "0%"]),
    ("no-size", ["resize", IMAGE, "1", "--", "-100MiB"]), ("no-size", ["resize", IMAGE, "1", "--", "-100%"]),
    ("no-size", ["resize", IMAGE, "1", "--end", "1MiB"]),
    ("before-start", ["add", IMAGE, "--type", "linux", "--start=-1TiB", "--size", "1MiB"]),
    ("before-start", ["resize", IMAGE, "1", "--end=-1TiB"]), ("not-whole", ["resize", IMAGE, "1", "+1000B"]),
    ("not-whole", ["add", IMAGE, "--type", "linux", "--start=-1000B", "--size", "1MiB"]),
    ("no-alignment", ["add", IMAGE, "--type", "linux", "--size", "50%", "--align", "0s"]),
    ("too-large", ["resize", IMAGE, "1", "+18446744073709551615s"])]


def try_refusals(tally, program):
    """Places that cannot be measured, as text and as JSON."""
    for code, words in UNMEASURED:
        make(program, HELD, LENGTH)
        refused(tally, program, words)
        ended = program.run(*words[:2], "--json", *words[2:])
        tally.equals(f"the code of {words}: {ended}", (1, code), (ended[0], json.loads(ended[1])["error"]["code"]))


# Places of which rounding leaves nothing, and what is said of that; and places of which nothing is left without it.
ROUNDED_OFF = [
    (["add", IMAGE, "--type", "linux", "--size", "1000KB"], "less than the alignment of 2048s (1048576 bytes)"),
    (["add", IMAGE, "--type", "linux", "--size", "0.5MiB"], "is rounded down to zero"),
    (["add", IMAGE, "--type", "linux", "--size", "0.1%"], "is rounded down to zero"),
    (["add", IMAGE, "--type", "linux", "--size", "1.5MiB", "--align", "4MiB"], "the alignment of 8192s (4194304 bytes)"),
    (["resize", IMAGE, "1", "1000KB"], "is rounded down to zero"),
    (["add", IMAGE, "--type", "linux", "--start", "1MiB", "--end", "1500KB"], "the end is rounded down to 2048s (1048576 bytes)")]
NOTHING_LEFT = [["add", IMAGE, "--type", "linux", "--size", "0%"], ["add", IMAGE, "--type", "linux", "--size", "0s"],
                ["add", IMAGE, "--type", "linux", "--start", "2MiB", "--end", "2MiB"], ["resize", IMAGE, "1", "--", "-100MiB"]]


def try_rounded_off(tally, program):
    """A size of zero: the refusal says whether it was rounded."""
    make(program, HELD, LENGTH)
    for words, text in ROUNDED_OFF:
        refused(tally, program, words, text)
    for words in NOTHING_LEFT:
        ended = program.run(*words)
        tally.holds(f"{words} is refused, and nothing was rounded: {ended}", ended[0] == 1 and "rounded" not in ended[2])


# What gptedit is told, and what parted, sgdisk and sfdisk are told for the same partition.
PEERS = [
    (["--start", "1MiB", "--end", "100MiB"], [["parted", "-s", IMAGE, "unit", "MiB", "mkpart", "x", "1MiB", "100MiB"]]),
    (["--start", "2048s", "--end", "4095s"], [["parted", "-s", IMAGE, "mkpart", "x", "2048s", "4095s"],
                                             ["sgdisk", "-n", "1:2048:4095", IMAGE]]),
    (["--start", "1MiB", "--size", "10M"], [["sgdisk", "-n", "1:1M:+10M", IMAGE], ["sfdisk", "start=1M,size=10M"]]),
    (["--start", "2048s", "--size", "1024K"], [["sgdisk", "-n", "1:2048:+1024K", IMAGE], ["sfdisk", "start=2048,size=1024K"]]),
    (["--start", "1MiB", "--size", "0.25GiB"], [["sfdisk", "start=1MiB,size=256MiB"]])]


def try_peers(tally, program):
    """The same partition as parted, sgdisk and sfdisk make, where the words mean the same."""
    for words, others in PEERS:
        for other in others:
            if not shutil.which(other[0]):
                print(f"  without {other[0]}")
                continue
            make(program, {}, LENGTH)
            if other[0] == "sfdisk":
                tool(program, "sfdisk", "--no-reread", "--append", IMAGE, text=other[1] + "\n")
            else:
                tool(program, *other)
            after = table.read(program.file(IMAGE))
            made = [(one.first, one.last + 1 - one.first) for one in after.entries.values()]
            make(program, {}, LENGTH)
            tally.equals(f"add {words} and {other}", made, [added(program, *words)[:2]])


NEW = ["--type", "linux", "--guid", "c0ffee00-0000-4000-8000-0000000000aa"]
# Words with a value that begins with a minus sign, as the parser takes it, and as it is written by hand.
NEGATIVE = [
    (["add", IMAGE, *NEW, "--start=-8MiB", "--size", "1MiB"], ["add", IMAGE, *NEW, "--start", "-8MiB", "--size", "1MiB"]),
    (["add", IMAGE, *NEW, "--size", "1MiB", "--start=-50%"], ["add", IMAGE, *NEW, "--size", "1MiB", "--start", "-50%"]),
    (["add", IMAGE, *NEW, "--start=-8MiB", "--end=-1s"], ["add", IMAGE, *NEW, "--start", "-8MiB", "--end", "-1s"]),
    (["resize", IMAGE, "--", "1", "-1MiB"], ["resize", IMAGE, "1", "-1MiB"]),
    (["resize", IMAGE, "--fit", "--", "1", "-2MiB"], ["resize", IMAGE, "1", "-2MiB", "--fit"]),
    (["resize", IMAGE, "--", "1", "-1MiB"], ["resize", IMAGE, "1", "--", "-1MiB"]),
    (["set", IMAGE, "1", "--attributes=-required"], ["set", IMAGE, "1", "--attributes", "-required"]),
    (["set", IMAGE, "1", "--attributes=-required,-60"], ["set", IMAGE, "1", "--attributes", "-required,-60"])]


def try_negative(tally, program):
    """Values that begin with a minus sign, with and without `=` or `--`."""
    for taken, written in NEGATIVE:
        images = []
        for words in taken, written:
            make(program, HELD, LENGTH)
            ended = program.run(*words)
            tally.equals(f"the status of {words}: {ended}", 0, ended[0])
            images.append(program.bytes_of(IMAGE))
        tally.equals(f"the image after {written}", images[0] == images[1], True)
    make(program, HELD, LENGTH)
    for words in (["add", IMAGE, *NEW, "--start", "-n", "--size", "1MiB"], ["add", IMAGE, *NEW, "--size", "-1MiB"],
                  ["set", IMAGE, "1", "--attributes", "-n"], ["show", "-1.img"], ["resize", IMAGE, "1", "-1MiB", "-2MiB"]):
        ended = program.run(*words)
        tally.equals(f"the status of {words}: {ended}", 2, ended[0])


SUBJECTS = {"negative": try_negative, "sizes": try_sizes, "places": try_places, "layouts": try_layouts, "figures": try_figures, "resizing": try_resizing, "fitted": try_fitted,
            "wrong": try_wrong, "refusals": try_refusals, "rounded off": try_rounded_off, "peers": try_peers}
