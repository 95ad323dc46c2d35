"""Each line that `check` can print, and that each is followed: the command that it names is run on a copy, is not
refused, and `check` is then quiet about it."""
import itertools
import re
import struct

from harness import table
from commands import ESP, MIB, ROOT
from makers import IMAGE, ONE, SIZE, break_both, entry, make, of, put_dos, set_field

END = SIZE // 512 - 1
BOUNDS = f"repair {IMAGE} --bounds"
NAMED = re.compile(r"`gptedit ([^`]*)`")
FILES = itertools.count()

# What is wrong with a copy: the name of the fault, and the field that is changed (its place in the header, its
# format and value), with the checksum made right or not.
FAULTS = [("InvalidSignature", 0, "<Q", 0, False), ("InvalidRevision", 8, "<I", 0x20000, True),
          ("InvalidHeaderSize", 12, "<I", 93, True), ("InvalidChecksum", 20, "<I", 7, False),
          ("InvalidPartitionEntrySize", 84, "<I", 256, True), ("Overflow", 72, "<Q", 1 << 62, True),
          ("Io", 72, "<Q", 1 << 40, True), ("InvalidPartitionEntryArrayChecksum", 88, "<I", 7, True)]


def numbers_in(program):
    """The numbers that may stand for N."""
    return [str(number) for number in range(1, 9)]


def commands_in(program, line):
    """The commands that a line of `check` names, with each number, a GUID and a new file where it leaves that open."""
    for named in NAMED.findall(line):
        chosen = {"GUID": "12345678-1234-4234-8234-123456789abc", "FILE": f"backup{next(FILES)}.toml"}
        words = [chosen.get(word, word) for word in named.split()]
        if "N" not in words:
            yield [words]
            continue
        yield [[number if word == "N" else word for word in words] for number in numbers_in(program)]


def is_quiet(program, line):
    """Whether `check` does not print a line."""
    wrong = line.split(": `")[0]
    return wrong not in program.plain("check", IMAGE)[1]


def follow(tally, program, what):
    """Follows each line that `check` prints of an image, until it is quiet or names no command."""
    start, out = program.state(IMAGE), program.run("check", IMAGE)[1]
    for line in out.splitlines():
        for ways in commands_in(program, line):
            if ways[0][0] == "salvage":
                continue
            ended = []
            for words in ways:
                program.restore(IMAGE, start)
                ended.append((program.run(*words)[0], is_quiet(program, line)))
                if ended[-1] == (0, True):
                    break
            tally.equals(f"{what}: {line!r} is followed by {ways[0]}", (0, True), ended[-1] if len(ended) == 1 else
                         max(ended, key=lambda one: one == (0, True)))
    program.restore(IMAGE, start)


def says(tally, program, what, text, command, status=1):
    """Counts whether a line of `check` has this text and names this command, none (None), or
    any (an empty one); and follows it."""
    ended = program.run("check", IMAGE)
    lines = [line for line in ended[1].splitlines() if re.search(text, line, re.I)]
    tally.holds(f"check of {what} prints a line of {text!r}: {ended}", lines and ended[0] == status)
    line = lines[0] if lines else ""
    if command:
        named = [sorted(words.split()) for words in NAMED.findall(line)]
        tally.holds(f"the line of {what} names {command}: {line!r}", sorted(command.split()) in named)
    elif command is None:
        tally.holds(f"the line of {what} names no command that writes: {line!r}",
                    not re.search("`gptedit (?!salvage|show|check|dump)", line))
    encoded = program.json("check", IMAGE, "--json")
    tally.holds(f"check --json of {what}: {encoded}", encoded["good"] == (status == 0) and
                (status == 0 or all(one["finding"] in ended[1] for one in encoded["findings"])))
    follow(tally, program, what)


def try_faults(tally, program):
    """Each fault of a copy."""
    for place, header in ("primary", 512), ("backup", END * 512):
        for name, at, form, value, has_sum in FAULTS:
            make(program, ONE)
            if has_sum:
                set_field(program, at, value, [header], form=form)
            else:
                program.put(IMAGE, header + at, struct.pack(form, value))
            says(tally, program, f"a {place} copy with {name}", rf"{place} copy.*{name}", f"repair {IMAGE}")
        make(program, ONE)
        program.flip(IMAGE, 1024 + 60 if place == "primary" else SIZE - 33 * 512 + 60)
        says(tally, program, f"a bit in the {place} entries", rf"{place} copy.*ArrayChecksum", f"repair {IMAGE}")


def try_copies(tally, program):
    """Two broken copies, copies that are elsewhere, and two tables."""
    make(program, ONE)
    break_both(program)
    says(tally, program, "two broken copies", "primary copy", None, 3)
    says(tally, program, "two broken copies", "backup copy", None, 3)
    make(program, ONE, first=2048, places={"primary_at": 40})
    says(tally, program, "a primary copy elsewhere", "elsewhere|not stand where|layout|place", None)
    make(program, ONE)
    other = of({1: entry(2048, 6143, "other", ROOT)})
    table.put(program.file(IMAGE), table.pieces_of(other, SIZE)[1:3])
    says(tally, program, "two tables", "different tables", f"repair {IMAGE}")


def try_lengths(tally, program):
    """A disk that is longer or shorter than its table, with a footer or not."""
    make(program, ONE)
    program.set_length(IMAGE, SIZE + MIB)
    says(tally, program, "growth", rf"longer.*{END}|longer", f"grow {IMAGE}")
    make(program, ONE)
    program.put(IMAGE, SIZE, b"conectix" + bytes(504))
    says(tally, program, "a footer", "longer|footer", None)
    make(program, ONE)
    program.set_length(IMAGE, SIZE - MIB)
    says(tally, program, "a disk that was cut where no partition is", "shorter", f"grow {IMAGE}")


def try_cut(tally, program):
    """A disk that was cut where a partition is: each line of `check` names the length that it needs, and `grow` a
    way out and what else removes the partition, which are followed."""
    for cut, first in (512, None), (MIB, None), (MIB, 2048), (8 * MIB, None):
        made = make(program, {1: entry(2048, 4095), 2: entry(8192, END - 33, "two", ROOT)}, first=first)
        program.set_length(IMAGE, SIZE - cut)
        longer = f"`truncate -s {SIZE} {IMAGE}`"
        status, out, _ = program.run("check", IMAGE)
        tally.holds(f"each line of check names {longer}: {out!r}", status == 1 and
                    all(longer in line for line in out.splitlines()))
        status, _, err = program.run("grow", IMAGE)
        tally.holds(f"grow of a disk that was cut names a partition and {longer}: {err!r}", status == 1 and
                    "partition 2 " in err and longer in err and "gptedit free" not in err)
        cut_off = program.state(IMAGE)
        steps = [re.findall("`([^`]*)`", line) for line in err.splitlines()[1:]]
        wanted = [made, of({1: made.entries[1]}, SIZE - cut, first=first)]
        tally.equals(f"how many lines of commands grow prints: {err!r}", len(wanted), len(steps))
        for commands, result in zip(steps, wanted):
            program.restore(IMAGE, cut_off)
            for words in [command.split() for command in commands]:
                if words[:2] == ["truncate", "-s"]:
                    program.set_length(IMAGE, int(words[2]))
                else:
                    tally.equals(f"{words} on a disk that was cut", 0, program.run(*words[1:])[0])
            tally.equals(f"the table after {commands}", result, table.read(program.file(IMAGE)))
            tally.equals(f"check after {commands}", 0, program.run("check", IMAGE)[0])


def put_both(program, entries, **others):
    """A table with these entries, whatever they are."""
    make(program, entries, **others)


def try_entries(tally, program):
    """Entries that share a GUID or sectors, lie outside, or end before they start."""
    put_both(program, {1: entry(2048, 4095), 2: entry(8192, 9000, "two", ESP)})
    says(tally, program, "one GUID twice", "GUID", "")
    rows = {"an overlap": {1: entry(2048, 4095), 2: entry(4000, 9000, "two", ROOT)},
            "an entry after the usable sectors": {1: entry(2048, END - 5)},
            "an entry before them": {1: entry(10, 20)},
            "an entry that ends before it starts": {1: entry(2048, 4095), 2: entry(9000, 8000, "two", ROOT)}}
    for what, entries in rows.items():
        put_both(program, entries)
        says(tally, program, what, "share sectors|overlap|outside|before", "")
    zero = "00000000-0000-0000-0000-000000000000"
    put_both(program, {1: entry(2048, 4095), 3: entry(9, 3, "", ROOT, zero)})
    says(tally, program, "an unused entry that ends before it starts", "entr|partition", "")
    put_both(program, {1: entry(2048, 4095), 2: entry(4000, 9000, "two", ESP)})
    out = program.run("check", IMAGE)[1]
    tally.holds(f"an overlap beside one GUID: both are told: {out}", "GUID" in out and
                re.search("share sectors|overlap", out))
    follow(tally, program, "an overlap beside one GUID")


def try_first_sector(tally, program):
    """What may be in sector 0."""
    make(program, ONE)
    program.put(IMAGE, 446, bytes(66))
    says(tally, program, "no protective MBR", "no protective MBR", f"repair {IMAGE}")
    for size in SIZE - 512, SIZE + 512, MIB:
        make(program, ONE)
        program.put(IMAGE, 446, table.mbr_bytes(size))
        says(tally, program, f"a length of {size} bytes in the MBR", "MBR", f"repair {IMAGE}")
    make(program, ONE)
    put_dos(program, ((0xee, 1, END), (0xee, 1, END)), 0)
    says(tally, program, "two 0xEE entries", "0xEE|MBR", "")
    make(program, ONE)
    put_dos(program, ((0xee, 1, 2047), (0x83, 2048, 2048)), 0)
    says(tally, program, "a hybrid MBR", "hybrid", None, 0)
    make(program, ONE)
    put_dos(program)
    ended = program.run("check", IMAGE)
    tally.holds(f"check of a DOS disk: {ended}", ended[0] in (1, 3) and "DOS" in ended[1])
    follow(tally, program, "a DOS disk")


def try_bounds(tally, program):
    """Bounds over the table's own sectors, and bounds that are lower than usual."""
    for first, last in (0, None), (33, None), (None, END - 1):
        make(program, ONE, first=first, last=last, places={"backup_at": END - 32})
        says(tally, program, f"bounds {first}, {last}", "usable", BOUNDS)
    make(program, ONE, first=2048)
    tally.equals("check of a higher first usable sector", (0, f"{IMAGE}: nothing is wrong\n", ""),
                 program.run("check", IMAGE))


def try_none(tally, program):
    """No table at all."""
    for what, at in ("zeros", None), ("remains", 512):
        program.make_image(IMAGE, SIZE)
        if at:
            program.put(IMAGE, at, b"EFI PART" + bytes(84))
        ended = program.run("check", IMAGE)
        tally.holds(f"check of {what}: {ended}", ended[0] in (1, 3) and "gptedit new" not in ended[1] + ended[2])


SUBJECTS = {"check: faults of copies": try_faults, "check: copies": try_copies, "check: lengths": try_lengths,
            "check: a disk that was cut": try_cut, "check: entries": try_entries,
            "check: sector 0": try_first_sector, "check: bounds": try_bounds, "check: no table": try_none}
